"""The lines of a program and of its libraries, and where their routines are."""

from __future__ import annotations

import re
from typing import Any

from ..files import lines_of as text_lines
from ..messages import MessageList, Position, SourceError
from .expressions import END
from .saved import DamagedProgram, is_saved, line_bytes
from .saved import lines_of as saved_lines
from .tokens import T, plain, tokenise

_NUMBER = re.compile(r"[ \t]*([0-9]{1,9})?")
_DEFINITION = re.compile(f" *{T['DEF']} *([{T['FN']}{T['PROC']}])([A-Za-z0-9_`@]+)")
LARGEST_NUMBER = 65279
LONGEST_LINE = 251


class Line:
    """A line: its text in keyword characters with END behind, and what was read of it already."""

    __slots__ = ("file", "row", "number", "text", "shown", "next", "values", "places", "last", "operands")

    def __init__(self, file: str, row: int, number: int, text: str, shown: str) -> None:
        self.file = file
        self.row = row
        self.number = number
        self.text = text.rstrip(" ") + END
        self.shown = shown
        self.next: Line | None = None
        self.values: dict[int, Any] = {}  # expressions by where they begin
        self.places: dict[int, Any] = {}  # places that are changed, by where they begin
        self.operands: dict[int, Any] = {}  # mnemonics and registers of the assembler
        self.last = _last_keyword(self.text)

    def position(self, calls: tuple = ()) -> Position:
        return Position(self.file, self.row, self.shown, calls)

    def first(self) -> str:
        """The first character that is no space."""
        return self.text.lstrip(" ")[0]


def _last_keyword(text: str) -> str:
    """The last character of a line that isn't within a string or a remark, and no space."""
    if T["REM"] in text or '"' in text:
        return _last_outside(text)
    stripped = text.rstrip(" \n")
    return stripped[-1:] if stripped else ""


def _last_outside(text: str) -> str:
    last, at = "", 0
    while text[at] != END:
        character = text[at]
        if character == '"':
            closing = text.find('"', at + 1)
            at = closing if closing > 0 else len(text) - 2
        elif character in (T["REM"], T["DATA"]):
            return character
        if character != " ":
            last = character
        at += 1
    return last


class Listing:
    """All lines that can be run, and where each DEF is."""

    def __init__(self, messages: MessageList) -> None:
        self.messages = messages
        self.main: list[Line] = []
        self.file = ""
        self.by_number: dict[int, Line] = {}
        self.routines: dict[str, tuple[Line, int]] = {}  # character of FN or PROC and name

    def load_main(self, file: str, data: bytes) -> None:
        """The program itself."""
        self.file = file
        self.main = self._read(file, data)
        self.by_number = {line.number: line for line in self.main if line.number >= 0}
        self._find_routines(self.main)

    def load_library(self, file: str, data: bytes) -> None:
        """What LIBRARY or INSTALL names: its routines can be called, its lines don't run."""
        before = dict(self.routines)
        lines = self._read(file, data)
        self.routines = {}
        self._find_routines(lines)
        for name, (line, at) in self.routines.items():
            other = before.get(name, (line, at))[0]
            if other.file not in (file, self.file):
                self.messages.warn(
                    line.position(),
                    f"{other.file} has this too; of two libraries the last that is loaded counts",
                    plain(name),
                )
        ours = {name: found for name, found in before.items() if found[0].file == self.file}
        self.routines = before | self.routines | ours

    def _find_routines(self, lines: list[Line]) -> None:
        for line in lines:
            found = _DEFINITION.match(line.text)
            if found:
                self.routines.setdefault(found.group(1) + found.group(2), (line, found.end()))

    def _read(self, file: str, data: bytes) -> list[Line]:
        lines = self._saved(file, data) if is_saved(data) else self._text(file, data)
        for line, following in zip(lines, lines[1:]):
            line.next = following
        return lines

    def _saved(self, file: str, data: bytes) -> list[Line]:
        try:
            return [
                Line(file, row, number, text, f"{number:5}{plain(text)}")
                for row, (number, text) in enumerate(saved_lines(data), 1)
            ]
        except DamagedProgram as error:
            raise SourceError(f"it is no whole program as SAVE writes it: {error}", file) from None

    def _text(self, file: str, data: bytes) -> list[Line]:
        lines: list[Line] = []
        last = -1  # the last number that stands in the text
        for row, shown in enumerate(text_lines(data), 1):
            if "\x00" in shown:
                raise SourceError("the file is no text and no program as SAVE writes it", file)
            found = _NUMBER.match(shown)
            digits = found.group(1)
            number = int(digits) if digits else -1  # no GOTO finds a line without a number
            line = Line(file, row, number, tokenise(without_tabs(shown[found.end() :])), shown)
            self._check(line, digits, last)
            last = number if digits else last
            lines.append(line)
        return lines

    def _check(self, line: Line, digits: str | None, last: int) -> None:
        """Warns of a line that BASIC would put elsewhere or couldn't hold."""
        if digits and line.number <= last:
            self.messages.warn(
                line.position(),
                "its number isn't above the one before;" " BASIC would put the line elsewhere",
                digits,
            )
        if line.number > LARGEST_NUMBER:
            self.messages.error(line.position(), "line numbers go up to 65279", digits or "")
        if len(line.shown) > LONGEST_LINE and len(line_bytes(line.text[:-1])) > LONGEST_LINE:
            self.messages.warn(line.position(), "BASIC has lines of 251 bytes at most, and this is longer")


def without_tabs(text: str) -> str:
    """A line with a space for each tab outside strings."""
    if "\t" not in text:
        return text
    parts = text.split('"')
    parts[::2] = [part.replace("\t", " ") for part in parts[::2]]
    return '"'.join(parts)
