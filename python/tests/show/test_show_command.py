"""The command `rosm show`: its words, its status and its forms."""

from __future__ import annotations

import os
import subprocess
import sys
from pathlib import Path

import pytest

from .scripts import ROOT, debugger

SCRIPT = "SET R0 1\nREGS\nSET R0 2\nREGS\nMEM &8000 4\n"


@pytest.fixture(name="program")
def fixture_program(tmp_path: Path) -> Path:
    """rosm_debug as one file that can be run."""
    path = tmp_path / "rosm_debug"
    path.write_text('#!/bin/sh\nexec ' + " ".join(f"'{word}'" for word in debugger()) + ' "$@"\n')
    path.chmod(0o755)
    return path


def show(program: Path, *words: str, script: str = SCRIPT) -> subprocess.CompletedProcess[str]:
    environment = {**os.environ, "ROSM_DEBUG": str(program), "PYTHONPATH": str(ROOT / "python")}
    command = [sys.executable, "-m", "rosm", "show", *words]
    return subprocess.run(command, input=script, capture_output=True, text=True, env=environment, check=False)


def test_text_with_marks(program: Path, tmp_path: Path):
    (tmp_path / "a.script").write_text(SCRIPT)
    done = show(program, str(tmp_path / "a.script"), script="")
    lines = done.stdout.splitlines()
    assert lines[:3] == ["    1  SET R0 1", "    2  REGS",
                         "       R0  00000001 R1  00000000 R2  00000000 R3  00000000"]
    assert lines[8:11] == ["    4  REGS", "       R0  00000002 R1  00000000 R2  00000000 R3  00000000",
                           "           ^^^^^^^^"]
    # nothing was run
    assert done.returncode == 3


@pytest.mark.parametrize("words", [
    (), ("--script", "-"), ("--text", "--script", "-"), ("--script=-", "--width=100")])
def test_standard_input(program: Path, words: tuple[str, ...]):
    assert show(program, *(words or ("-",))).stdout.startswith("    1  SET R0 1\n")


def test_records_and_transcript_are_those_of_the_program(program: Path):
    for form in ("--json", "--transcript"):
        own = subprocess.run([program, form], input=SCRIPT, capture_output=True, text=True, check=False)
        done = show(program, form, "-")
        assert own.stdout and (done.stdout, done.returncode) == (own.stdout, own.returncode)


def test_page(program: Path):
    done = show(program, "--html", "-")
    assert done.stdout.startswith("<!") and '{"line":1,"text":"SET R0 1"}' in done.stdout
    assert done.returncode == 3


def test_images_and_sizes(program: Path, tmp_path: Path):
    (tmp_path / "four").write_bytes(b"\x07\0\0\0")
    script = "BOOT four\nMEM &8000 4\nAREAS\n"
    done = show(program, "--script", "-", "--pages", "100", str(tmp_path / "four"), script=script)
    assert "00008000: 07 00 00 00" in done.stdout and "pool 17 pages" in done.stdout


@pytest.mark.parametrize("words, reason", [
    ((), "the script is missing"),
    (("--width", "39", "-"), "--width takes a number N from 40 to 400"),
    (("--width", "401", "-"), "--width takes a number N from 40 to 400"),
    (("--width", "80", "--width", "80", "-"), "--width takes a number N from 40 to 400"),
    (("--width", "80", "--html", "-"), "--width takes a number N from 40 to 400"),
    (("--text", "--html", "-"), "not allowed with"),
    (("--wide", "-"), "'--wide' is no option"),
    (("--help",), "a script and its answers as a page"),
])
def test_wrong_words(program: Path, words: tuple[str, ...], reason: str):
    done = show(program, *words)
    assert done.returncode == 2 and not done.stdout
    assert reason in done.stderr and "usage: " in done.stderr


def test_files_that_are_missing(program: Path):
    for words in (("/nowhere/a.script",), ("-", "/nowhere/image")):
        done = show(program, *words)
        assert done.returncode == 4 and not done.stdout and "/nowhere/" in done.stderr


def test_a_program_that_is_missing(tmp_path: Path):
    done = show(tmp_path / "none", "-")
    assert done.returncode == 4 and "none" in done.stderr


def test_a_program_that_writes_no_records(tmp_path: Path):
    path = tmp_path / "rosm_debug"
    path.write_text("#!/bin/sh\necho hello\n")
    path.chmod(0o755)
    done = show(path, "-")
    assert done.returncode == 4 and "a record is no JSON" in done.stderr


def test_an_empty_script_beside_images(program: Path, tmp_path: Path):
    (tmp_path / "a").write_bytes(b"")
    assert "each FILE is an image" in show(program, "--script", "-", str(tmp_path / "a"), script="").stderr
