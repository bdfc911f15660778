"""Whether steps would walk through empty memory, since the program that should be there has errors."""

from __future__ import annotations

import re
from typing import Iterable

from .history import History
from .session import Entry

BLOCK = re.compile(r"\s*(?:ASM|HEX)\s+(\S+)", re.IGNORECASE)
# the lines that go on from the program counter
FROM_HERE = re.compile(r"\s*((TRACE|REPEAT\s+\S+)\s+)*(RUN|STEP|TRACE\s+(\d|&|LAST))\b", re.IGNORECASE)


def lost_program(entries: Iterable[Entry]) -> str:
    """The name of the program whose block was refused last, if none of that name was made since."""
    lost: dict[str, None] = {}
    for entry in entries:
        found = BLOCK.match(entry.line.text) if entry.line.block else None
        if found:
            lost.pop(found[1], None)
            if entry.answered.image is None:
                lost[found[1]] = None
    return next(reversed(lost), "")


def is_empty(history: History, moment: int) -> bool:
    """Whether the word at the program counter is 0. Where that isn't known, it isn't."""
    cell = history.words.get(history.register(15, moment) & ~3)
    return not history.lost and (cell is None or cell.at(moment) == 0)


def empty_walk(text: str, lost: str, history: History, moment: int) -> str:
    """Where a line, done at a moment, walks through empty memory, and why; nothing where it doesn't."""
    if not lost or not FROM_HERE.match(text) or not is_empty(history, moment):
        return ""
    return f"there is no program at &{history.register(15, moment):X}, since {lost} has errors"
