"""The program rosm_debug for tests of the prompt: ROSM_DEBUG, or a script that runs what is built here."""

from __future__ import annotations

import os
from pathlib import Path

import pytest
from machine import ROOT

BUILT = [ROOT / "crates/rosm_tools/out/rosm_tools", ROOT / "out/unproved/rosm_tools"]


def built_program() -> str | None:
    named = os.environ.get("ROSM_DEBUG")
    if named:
        return named
    return next((str(path) for path in BUILT if os.access(path, os.X_OK)), None)


needs_program = pytest.mark.skipif(built_program() is None, reason="rosm_tools isn't built: ./build --unproved makes it")


def program(folder: Path) -> str:
    """A program that is called as rosm_debug is, and says nothing of how it was made."""
    found = built_program()
    assert found
    if os.environ.get("ROSM_DEBUG"):
        return found
    path = folder / "rosm_debug"
    path.write_text(f'#!/bin/sh\nexec {found} debug "$@"\n')
    path.chmod(0o755)
    return str(path)
