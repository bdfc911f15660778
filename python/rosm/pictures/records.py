"""Records of a script, as `rosm_debug --json` writes them, read as entries of a page."""

from __future__ import annotations

import json
from dataclasses import dataclass, field
from typing import Any, Iterable, Iterator

from .state import Heaps, RecordError

VERSION = 1
# what a step has to have so that a page shows something of it; within a text in a record each double
# quote has a backslash before it
SEEN = ('"heaps"', '"out"')
# what the lines begin with that take steps, or may
STEPPING = ("RUN", "STEP", "CALL", "LOAD", "FINISH", "GOSUB", "TRACE")


@dataclass
class Entry:
    """A line of a script with its block, and what it is answered.

    `printed` is what the guest printed, `trace` a trace in its place, `answer` the rest.
    """

    number: int
    lines: list[str]
    command: str
    printed: str = ""
    trace: str = ""
    answer: str = ""
    steps: int = 0
    passed: bool | None = None
    refused: bool = False


@dataclass(frozen=True)
class Tally:
    """What the end says: how many lines passed, failed and were refused, and the exit status."""

    passed: int = 0
    failed: int = 0
    refused: int = 0
    status: int = 0
    expects: bool = False


def command_of(line: str) -> str:
    """What a line asks for: its first word, in capitals; nothing where a comment stands."""
    words = line.replace("\t", " ").split()
    return words[0].upper() if words and not words[0].startswith(";") else ""


def parsed(line: str) -> dict[str, Any]:
    try:
        record = json.loads(line)
    except ValueError as error:
        raise RecordError(f"a record is no JSON: {error}") from error
    if not isinstance(record, dict):
        raise RecordError("a record is no object")
    return record


@dataclass
class Reader:
    """Reads records. After each entry `heaps` are those of the machine then."""

    source: Iterable[str]
    heaps: Heaps = field(default_factory=Heaps)
    tally: Tally | None = None
    _entry: Entry | None = None
    _expects: bool = False

    def entries(self) -> Iterator[Entry]:
        """The entries, in order. RecordError: the records aren't whole, or no records."""
        is_first = True
        for text in self.source:
            if text.startswith('{"step":') and not any(sign in text for sign in SEEN):
                continue
            record = parsed(text)
            if is_first and record.get("start") != VERSION:
                raise RecordError(f"the first record is none of kind start, of version {VERSION}")
            is_first = False
            is_end = "end" in record
            done = self._entry if is_end or "line" in record and self._is_other(record) else None
            if is_end:
                self._take(record)
            if done:
                yield done
            if not is_end:
                self._take(record)
        if self.tally is None:
            raise RecordError("there is no record of kind end: the records aren't whole")

    def _is_other(self, record: dict[str, Any]) -> bool:
        """Whether a line isn't the one at hand once more, as REPEAT answers it."""
        return bool(record.get("repeat", 1) == 1)

    def _take(self, record: dict[str, Any]) -> None:
        self.heaps.take(record)
        if "line" in record and self._is_other(record):
            lines = [record["text"], *record.get("block", [])]
            self._entry = Entry(record["line"], lines, command_of(record["text"]))
        elif "end" in record:
            self.tally = Tally(record["passed"], record["failed"], record["refused"],
                               record["status"], self._expects)
        elif self._entry and "out" in record:
            self._take_output(self._entry, record["out"])
        if self._entry and "answer" in record:
            self._take_answer(self._entry, record)

    def _take_output(self, entry: Entry, text: str) -> None:
        # a line that is answered many times has all in one answer
        if entry.command == "REPEAT":
            entry.answer += text
        else:
            entry.printed += text

    def _take_answer(self, entry: Entry, record: dict[str, Any]) -> None:
        if "text" in record:
            entry.answer += record["text"] + "\n"
        entry.steps = record.get("steps", 0) if entry.command in STEPPING else 0
        entry.refused |= record.get("refused", False)
        if "expect" in record:
            self._expects = True
            entry.passed = record["expect"]["pass"] and entry.passed is not False
