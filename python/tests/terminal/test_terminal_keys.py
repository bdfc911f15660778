"""The prompt at a terminal: a pseudo-terminal types keys, and reads what is on it."""

from __future__ import annotations

import os
import pty
import re
import select
import signal
import struct
import subprocess
import sys
import termios
import time
from fcntl import ioctl
from pathlib import Path
from typing import Iterator

import pytest
from debugger_program import needs_program, program
from machine import ROOT

pytestmark = needs_program
SECONDS = 20
PYTHONS = [python for python in (sys.executable, "/usr/bin/python3")
           if subprocess.run([python, "-c", "import prompt_toolkit, sys; sys.exit(sys.version_info < (3, 11))"],
                             capture_output=True, check=False).returncode == 0]
needs_toolkit = pytest.mark.skipif(not PYTHONS, reason="prompt_toolkit isn't there: apt-get install python3-prompt-toolkit")
STEERING = re.compile(r"\x1b(\[[0-9;?]*[ -/]*[@-~]|[()][A-Z0-9]|[=>78])|\r")


class Terminal:
    """A program at a terminal of its own."""

    def __init__(self, words: list[str], environment: dict[str, str], columns: int = 100, rows: int = 40) -> None:
        self.pid, self.file = pty.fork()
        if self.pid == 0:
            os.execve(words[0], words, environment)
        ioctl(self.file, termios.TIOCSWINSZ, struct.pack("HHHH", rows, columns, 0, 0))
        self.text = ""

    def type(self, keys: str) -> None:
        os.write(self.file, keys.encode())

    def wait(self, wanted: str) -> str:
        """What is written up to a text."""
        end = time.monotonic() + SECONDS
        while wanted not in self.plain():
            assert time.monotonic() < end, f"{wanted!r} isn't in {self.plain()[-1500:]!r}"
            if select.select([self.file], [], [], 0.2)[0]:
                try:
                    data = os.read(self.file, 65536)
                except OSError:
                    data = b""
                assert data or wanted in self.plain(), f"it ended: {self.plain()[-1500:]!r}"
                if b"\x1b[6n" in data:
                    # where the cursor is
                    os.write(self.file, b"\x1b[1;1R")
                self.text += data.decode("utf-8", "replace")
        seen, self.text = self.plain(), ""
        return seen

    def end(self) -> int:
        """The status after Ctrl-D, which is typed until it is seen: a key is lost while a line is answered."""
        for _ in range(SECONDS):
            try:
                self.type("\x04")
            except OSError:
                break
            if (status := self.status(1)) is not None:
                return status
        raise AssertionError(f"it hasn't ended: {self.plain()[-1500:]!r}")

    def plain(self) -> str:
        return STEERING.sub("", self.text)

    def status(self, seconds: float = SECONDS) -> int | None:
        """The exit status, or None where it hasn't ended by then. What is written meanwhile is kept."""
        end = time.monotonic() + seconds
        while time.monotonic() < end:
            if select.select([self.file], [], [], 0.1)[0]:
                try:
                    self.text += os.read(self.file, 65536).decode("utf-8", "replace")
                    continue
                except OSError:
                    pass
            pid, status = os.waitpid(self.pid, os.WNOHANG)
            if pid:
                return os.waitstatus_to_exitcode(status)
        return None

    def close(self) -> None:
        try:
            os.kill(self.pid, signal.SIGKILL)
            os.waitpid(self.pid, 0)
        except (ProcessLookupError, ChildProcessError):
            pass
        os.close(self.file)


def started(folder: Path, python: str, *words: str, columns: int = 100, rows: int = 40) -> Terminal:
    environment = {**os.environ, "PYTHONPATH": str(ROOT / "python"), "ROSM_DEBUG": program(folder), "TERM": "xterm",
                   "XDG_STATE_HOME": str(folder / "state")}
    return Terminal([python, "-m", "rosm", *words], environment, columns, rows)


@pytest.fixture
def terminal(tmp_path: Path) -> Iterator[Terminal]:
    found = started(tmp_path, PYTHONS[0], "--budget", "1000000000000")
    yield found
    found.close()


@needs_toolkit
def test_editing_history_completion_and_a_run_that_is_ended(terminal: Terminal, tmp_path: Path) -> None:
    terminal.wait(">")
    # Left and a letter between: editing
    terminal.type("ST 0\x1b[D\x1b[DEP\r")
    terminal.wait("at &8000")
    # Up: history
    terminal.type("\x1b[A\r")
    terminal.wait("at &8000")
    # Tab: completion of a word that can be one alone
    terminal.type("MODU\t\r")
    terminal.wait("MODULES")
    terminal.type("ASM l &8000\r")
    terminal.wait("|")
    terminal.type("loop B loop\r")
    terminal.type("END\r")
    terminal.wait("asm l: 4 bytes")
    terminal.type("BOOT l\r")
    terminal.wait("boot l")
    terminal.type("BREAK lo\t\r")
    terminal.wait("break &8000")
    terminal.type("UNBREAK loop\r")
    terminal.wait("unbreak &8000")
    terminal.type("RUN\r")
    time.sleep(1.5)
    terminal.type("\x03")
    terminal.wait("RUN is interrupted: the machine is as it was before it")
    terminal.type("STEP 3\r")
    terminal.wait("at &8000")
    terminal.type("EXPECT R0 1\r")
    terminal.wait("fail: R0 is 00000000")
    assert terminal.end() == 5
    assert "0 passed, 1 failed" in terminal.plain()
    assert "MODULES" in (tmp_path / "state/rosm/history").read_text()


@needs_toolkit
def test_the_machine_is_below_the_prompt(tmp_path: Path) -> None:
    terminal = started(tmp_path, PYTHONS[0])
    try:
        terminal.wait("nzcvif USR")
        for line in ("SET R1 &9000", "SET R3 256", "CALL &1D", "SET R0 2", "SET R3 20"):
            terminal.type(line + "\r")
            terminal.wait("nzcvif")
        terminal.type("CALL &1D\r")
        terminal.wait("heap &9000 |")
        # Ctrl-C in a line gives it up
        terminal.type("nonsense\x03")
        terminal.wait("nzcvif")
        terminal.type("QUIT\r")
        assert terminal.status() == 0
    finally:
        terminal.close()


@needs_toolkit
def test_a_small_terminal_has_the_prompt_alone(tmp_path: Path) -> None:
    terminal = started(tmp_path, PYTHONS[0], columns=40, rows=10)
    try:
        terminal.wait(">")
        terminal.type("STEP 0\r")
        assert "nzcvif" not in terminal.wait("at &8000")
        assert terminal.end() == 0
    finally:
        terminal.close()


def test_plain_input_names_rlwrap(tmp_path: Path) -> None:
    """Without prompt_toolkit: a folder before all others has one that can't be imported."""
    hidden = tmp_path / "hidden/prompt_toolkit"
    hidden.mkdir(parents=True)
    (hidden / "__init__.py").write_text("raise ImportError('hidden')\n")
    environment = {**os.environ, "PYTHONPATH": f"{hidden.parent}:{ROOT / 'python'}", "ROSM_DEBUG": program(tmp_path),
                   "TERM": "dumb", "XDG_STATE_HOME": str(tmp_path)}
    terminal = Terminal([sys.executable, "-m", "rosm"], environment)
    try:
        assert "rlwrap python3 -m rosm" in terminal.wait("> ")
        terminal.type("STEP 0\n")
        terminal.wait("at &8000")
        assert terminal.end() == 0
    finally:
        terminal.close()
