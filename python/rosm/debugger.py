"""rosm_debug, run on a script in one or more of its forms."""

from __future__ import annotations

import subprocess
import sys
import tempfile
from dataclasses import dataclass, field
from pathlib import Path
from typing import IO

from .running import launcher


@dataclass
class Debugger:
    """The program with a script, options and images. A script of `-` is standard input."""

    script: str
    options: list[str]
    images: list[str]
    _typed: IO[bytes] | None = field(default=None, repr=False)

    def command(self, form: str) -> list[str]:
        named = [] if self.script == "-" else ["--script", self.script]
        return [launcher(), f"--{form}", *named, *self.options, "--", *self.images]

    def input(self) -> IO[bytes] | int:
        """What the program reads: the script, where that is standard input. It is read once, whole."""
        if self.script != "-":
            return subprocess.DEVNULL
        if self._typed is None:
            self._typed = tempfile.TemporaryFile()
            self._typed.write(sys.stdin.buffer.read())
        # each run has a file of its own, at the start
        self._typed.seek(0)
        copy = tempfile.TemporaryFile()
        copy.write(self._typed.read())
        copy.seek(0)
        return copy

    def script_text(self) -> bytes:
        """The script, for a look at it; nothing where it can't be read, as the program will say."""
        if self.script == "-":
            source = self.input()
            assert not isinstance(source, int)
            return source.read()
        try:
            return Path(self.script).read_bytes()
        except OSError:
            return b""

    def start(self, form: str) -> subprocess.Popen[str]:
        """Starts it; records and transcripts are ASCII."""
        return subprocess.Popen(self.command(form), stdin=self.input(), stdout=subprocess.PIPE,
                                encoding="ascii", errors="replace")

    def output(self, form: str) -> subprocess.CompletedProcess[bytes]:
        """What it writes, and its status."""
        return subprocess.run(self.command(form), stdin=self.input(), stdout=subprocess.PIPE, check=False)

    def run(self, form: str) -> int:
        """Runs it; it writes to where this program does."""
        return subprocess.run(self.command(form), stdin=self.input(), check=False).returncode
