"""Listings by the command `rosm_source`: blocks, bytes, messages and status."""

from __future__ import annotations

from pathlib import Path

import pytest

from rosm import source
from rosm.basic.saved import program_bytes
from rosm.basic.tokens import tokenise

LISTING = 'DIM c% 99\nFOR p%=4 TO 6 STEP 2\nP%=0:O%=c%\n[OPT p%\n.go SWI "OS_NewLine":EQUD c%\n]\nNEXT\n'


def written(path: Path, text: str) -> str:
    path.write_text(text)
    return str(path)


def test_block(tmp_path: Path, capsys: pytest.CaptureFixture[str]) -> None:
    assert source.run("rosm_source", [written(tmp_path / "x.bas", LISTING)]) == 0
    assert capsys.readouterr().out.split("\n") == [
        "ASM c &0",
        "go",
        ' DCD &EF000003 ; .go SWI "OS_NewLine":EQUD c%',
        ' DCD &00008F00 ; .go SWI "OS_NewLine":EQUD c%',
        "END",
        "",
    ]


def test_options(tmp_path: Path) -> None:
    path, to = written(tmp_path / "x", LISTING), str(tmp_path / "out")
    assert (
        source.run("rosm_source", ["--basic", "--heap", "&10000", "--output", "binary", "-o", to, path]) == 0
    )
    assert Path(to).read_bytes() == bytes.fromhex("030000ef00000100")


def test_program_in_tokens(tmp_path: Path) -> None:
    """A program as SAVE writes it needs no option."""
    lines = [(10 * number, tokenise(line)) for number, line in enumerate(LISTING.splitlines(), 1)]
    path, to = tmp_path / "x", tmp_path / "out"
    path.write_bytes(program_bytes(lines))
    assert source.run("rosm_source", ["--output", "binary", "-o", str(to), str(path)]) == 0
    assert to.read_bytes() == bytes.fromhex("030000ef008f0000")


def test_time(tmp_path: Path, capsys: pytest.CaptureFixture[str]) -> None:
    path = written(tmp_path / "x.bas", "DIM c% 99:P%=c%\n[OPT 2:EQUS MID$(TIME$,5,11):]\n")
    to = str(tmp_path / "out")
    assert (
        source.run(
            "rosm_source", ["--time", "Sun,29 Nov 2026.02:40:00", "--output", "binary", "-o", to, path]
        )
        == 0
    )
    assert Path(to).read_bytes() == b"29 Nov 2026"
    assert "x.bas:2: note: TIME$: TIME$ is taken as Sun,29 Nov 2026.02:40:00" in capsys.readouterr().err


def test_errors(tmp_path: Path, capsys: pytest.CaptureFixture[str]) -> None:
    """All errors within `[ ]` with their lines; no bytes, and the status 1."""
    path = written(tmp_path / "x.bas", "DIM c% 99:P%=c%\n[OPT 2\nLDRH R0,[R1]\nMOV R0,#257\n]\n")
    assert source.run("rosm_source", [path]) == 1
    shown = capsys.readouterr()
    assert shown.out == ""
    assert shown.err == (
        f"{path}:3: error: LDRH: the ARM2 doesn't have this instruction\n"
        "    LDRH R0,[R1]\n"
        f"{path}:4: error: MOV: no instruction has the number &101: it is no byte rotated by an even"
        " number of bits\n"
        "    MOV R0,#257\n"
    )


def test_several_programs(tmp_path: Path) -> None:
    path = written(tmp_path / "x.bas", LISTING + "*SAVE One 8F00 8F04\n*SAVE Two 8F04 8F08\n")
    to = tmp_path / "out"
    assert source.run("rosm_source", ["--output", "binary", "-o", str(to), path]) == 0
    assert (tmp_path / "out.One").read_bytes() == bytes.fromhex("030000ef")
    assert (tmp_path / "out.Two").read_bytes() == bytes.fromhex("008f0000")
