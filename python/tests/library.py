"""The library librosm.so, for tests that need it, and scripts to answer with it."""

from __future__ import annotations

from pathlib import Path

import pytest
from machine import ROOT

from rosm.machine.session import Line
from rosm.native import LibraryMissing, library_path
from rosm.terminal.talk import OPENS_BLOCK


def has_library() -> bool:
    try:
        return library_path().is_file()
    except LibraryMissing:
        return False


needs_library = pytest.mark.skipif(not has_library(), reason="librosm.so isn't there: ./build --unproved makes it")


def scripts() -> list[Path]:
    """The examples: scripts of every kind of call."""
    return sorted((ROOT / "examples").rglob("*.script"))


def lines_of_script(text: str) -> list[Line]:
    """The lines of a script with their blocks."""
    lines: list[Line] = []
    block: list[str] = []
    for row in text.splitlines():
        if block or OPENS_BLOCK.fullmatch(row):
            block.append(row)
            if len(block) > 1 and row.upper() == "END":
                lines.append(Line(block[0], tuple(block[1:])))
                block = []
        else:
            lines.append(Line(row))
    assert not block
    return lines
