"""The programs of examples/riscos that have a source: their blocks are what `rosm_source` makes of it."""

from __future__ import annotations

import pytest
from machine import ROOT
from test_commands import rosm

PROGRAMS = ROOT / "examples/riscos/programs"


@pytest.mark.parametrize("source, words", [("hexdump.s", ()), ("clicker.s", ("--origin", "0")), ("plotter.bas", ())])
def test_block_of_a_program(source: str, words: tuple[str, ...]) -> None:
    path = PROGRAMS / source
    done = rosm("--quiet", "--name", path.stem, *words, str(path))
    assert done.returncode == 0 and done.stderr == b""
    block = done.stdout.decode()
    assert block.startswith(f"ASM {path.stem} &") and block.endswith("END\n")
    assert block in path.with_suffix(".script").read_text()
