"""Runs programs with Brandy, Debian's BBC BASIC VI, which writes what it finds to a file."""

from __future__ import annotations

import os
import shutil
import subprocess
from pathlib import Path

from rosm.basic.saved import program_bytes
from rosm.basic.tokens import tokenise

AVAILABLE = shutil.which("brandy") is not None
_QUIET = {"SDL_VIDEODRIVER": "dummy", "SDL_AUDIODRIVER": "dummy", "TERM": "dumb"}


def output_of(lines: list[str], folder: Path) -> list[str]:
    """The lines that a program writes to the file open by X%; it has no line numbers below 100."""
    program, output = folder / "program.bas", folder / "output"
    head = [f'1 X%=OPENOUT("{output}")']
    program.write_text("\n".join([*head, *lines, "65000 CLOSE#X%:QUIT"]) + "\n", encoding="latin-1")
    _run(program)
    return output.read_text(encoding="latin-1").splitlines()


def saved_output_of(lines: list[tuple[int, str]], folder: Path) -> list[str]:
    """The same for a program in tokens, made by our own writer; its lines have numbers from 10 on."""
    program, output = folder / "program.bbc", folder / "output"
    output.unlink(missing_ok=True)
    whole = [
        (1, f'X%=OPENOUT("{output}")'),
        (2, "ON ERROR BPUT#X%,REPORT$:CLOSE#X%:QUIT"),
        *lines,
        (65000, "CLOSE#X%:QUIT"),
    ]
    program.write_bytes(program_bytes([(number, tokenise(text)) for number, text in whole]))
    _run(program)
    return output.read_text(encoding="latin-1").splitlines()


def _run(program: Path) -> None:
    subprocess.run(
        ["brandy", "-quit", str(program)],
        stdin=subprocess.DEVNULL,
        timeout=120,
        check=False,
        stdout=subprocess.DEVNULL,
        stderr=subprocess.DEVNULL,
        env=os.environ | _QUIET,
    )
