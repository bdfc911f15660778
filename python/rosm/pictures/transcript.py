"""The answers of a transcript, as `rosm_debug --transcript` writes it: with traces, as they stand.

Records say what each step does, but not in the words of a trace.
"""

from __future__ import annotations

import re
from typing import Iterable, Iterator

from .state import RecordError

ESCAPE = re.compile(r"\\(?:([\\#$>=!])|(r)|(t)|x([0-9A-F]{2}))")


def unspelt(line: str) -> str:
    """The bytes that a line of an answer spells, with its line feed; a backslash takes that away."""
    def byte(found: re.Match[str]) -> str:
        return found[1] or ("\r" if found[2] else "\t" if found[3] else chr(int(found[4], 16)))

    ends = re.fullmatch(r"((?:[^\\]|\\.)*)(\\?)", line)
    if not ends:
        raise RecordError("a line of the transcript ends in the midst of a byte")
    return ESCAPE.sub(byte, ends[1]) + ("" if ends[2] else "\n")


class Answers:
    """The answers of a transcript's lines, one after another."""

    def __init__(self, lines: Iterable[str]) -> None:
        self.lines: Iterator[str] = (line.removesuffix("\n") for line in lines)
        self.line: str | None = next(self.lines, None)

    def of_next(self, count: int) -> str:
        """What the next so many typed lines are answered."""
        for _ in range(count):
            if self.line is None or not self.line.startswith(">"):
                raise RecordError("the transcript hasn't the lines of the records")
            self.line = next(self.lines, None)
        answer = ""
        while self.line is not None and not self.line.startswith(">"):
            answer += unspelt(self.line)
            self.line = next(self.lines, None)
        return answer
