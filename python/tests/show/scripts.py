"""Scripts with the program that answers them, for tests of pages."""

from __future__ import annotations

import os
import subprocess
import sys
from pathlib import Path

import pytest

ROOT = Path(__file__).resolve().parents[3]
sys.path.insert(0, str(ROOT / "tools"))
from transcripts import Transcript, read, text_of  # noqa: E402

PLACES = ("crates/rosm_tools/out/rosm_tools", "out/unproved/rosm_tools")


def debugger() -> list[str]:
    """rosm_debug: ROSM_DEBUG, or what stands built in this repository; the test is skipped without."""
    if named := os.environ.get("ROSM_DEBUG"):
        return [named]
    for place in PLACES:
        if os.access(ROOT / place, os.X_OK):
            return [str(ROOT / place), "debug"]
    pytest.skip("rosm_debug isn't built; ./build --unproved makes it")


def script_of(name: str) -> Transcript:
    """A transcript, or a script of the examples, by its name with `_` for `/`."""
    path = Path(name.replace("_", "/"))
    if path.parts[0] == "examples":
        return Transcript(is_debugging=True, script=(ROOT / path.with_suffix(".script")).read_bytes())
    return read(text_of(ROOT / "transcripts" / path.with_suffix(".txt")))


def output(script: Transcript, form: str, room: Path) -> list[str]:
    """What rosm_debug writes of a script in one of its forms, line by line."""
    files = []
    for name, image in script.images.items():
        (room / name).write_bytes(image)
        files.append(str(room / name))
    command = [*debugger(), f"--{form}", *script.options, "--", *files]
    done = subprocess.run(command, input=script.script, capture_output=True, check=False)
    return done.stdout.decode("ascii").splitlines()
