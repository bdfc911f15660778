"""Transcripts as they are read: the script as typed, its answers, its exit status, and what it runs with.

A transcript begins with comments, `# TEXT`, that say what it shows. Words of the command line may follow, `$ WORD ..`:
`--pages=N`, `--app=N`, `--rma=N`, `--budget=N`, images as `NAME=HEX` or `NAME=HEX*COUNT`, and `--debug`, with `--tap`
after it, for a debugging script; `--behind=NAME` says that the script of another transcript stands in front of this
one's, and its answers before these, as riscos/convert.txt. Then stand the typed lines, `> TEXT`, each with its answers under it, and at the end
`= status N`. One that is wrong on purpose ends in `! TEXT`, the complaint that it must get.

Bytes are spelt `\\xNN`, `\\r` and `\\t`; a backslash stands before a sign that has a meaning, and at the end of a line
that has no line feed.
"""
from __future__ import annotations

import enum
import pathlib
import re
from dataclasses import dataclass, field, replace

ROOT = pathlib.Path(__file__).resolve().parent.parent
TRANSCRIPTS = ROOT / "transcripts"
# the cases of the grid have another form, and so have sessions that are sent by packets or in pieces
GRID = TRANSCRIPTS / "grid"
OTHER_FORMS = (GRID, TRANSCRIPTS / "gdb", TRANSCRIPTS / "typed")
NUMBER = re.compile(r"[0-9]+")
ESCAPE = re.compile(r"\\(?:([\\#$>=!])|(r)|(t)|x([0-9A-Fa-f]{2}))")
IMAGE = re.compile(r"((?:[0-9A-Fa-f]{2})*)(?:\*([0-9]+))?")
SIZES = ("--pages", "--app", "--rma", "--budget")


class Part(enum.IntEnum):
    """The parts of a transcript, in the order in which they come."""

    HEAD = 0
    WORDS = 1
    SESSION = 2
    STATUS = 3
    WRONG = 4


class Kind(enum.Enum):
    """A line of a transcript, by what it begins with."""

    COMMENT = Part.HEAD
    WORDS = Part.WORDS
    TYPED = (Part.SESSION, "typed")
    ANSWER = (Part.SESSION, "answer")
    STATUS = Part.STATUS
    WRONG = Part.WRONG

    @property
    def part(self) -> Part:
        return self.value[0] if isinstance(self.value, tuple) else self.value


FRONTS = {"$ ": Kind.WORDS, "> ": Kind.TYPED, "= status ": Kind.STATUS, "! ": Kind.WRONG}


class LineError(Exception):
    """Why a line of a transcript has no meaning."""


def kind_of(text: str) -> tuple[Kind, str]:
    """What a line is, and what stands behind its front."""
    if not all(" " <= sign <= "~" for sign in text):
        raise LineError("a byte that is not printable; it is written \\xNN")
    if text.startswith("#"):
        return Kind.COMMENT, text
    if text == ">":
        return Kind.TYPED, ""
    for front, kind in FRONTS.items():
        if text.startswith(front):
            return kind, text.removeprefix(front)
    if text[:1] in ("$", ">", "=", "!") and text:
        raise LineError("no line begins so")
    return Kind.ANSWER, text


def line_bytes(text: str) -> bytes:
    """The bytes that a text spells, and a line feed after them; a backslash at its end takes that away."""
    spelt, place = bytearray(), 0
    while place < len(text):
        if text[place] != "\\":
            spelt.append(ord(text[place]))
            place += 1
        elif place + 1 == len(text):
            return bytes(spelt)
        elif found := ESCAPE.match(text, place):
            sign, feed, tab, pair = found.groups()
            spelt.append(ord(sign) if sign else 13 if feed else 9 if tab else int(pair, 16))
            place = found.end()
        else:
            raise LineError("a backslash stands before \\ # $ > = ! r t xNN, or at the end of the line")
    return bytes(spelt) + b"\n"


def spelling(line: bytes) -> str:
    """Bytes as a transcript spells them, where they follow other text."""
    signs = {ord("\\"): "\\\\", 13: "\\r", 9: "\\t"}
    body = line.removesuffix(b"\n")
    text = "".join(signs.get(byte) or (chr(byte) if 32 <= byte <= 126 else f"\\x{byte:02X}") for byte in body)
    return text if line.endswith(b"\n") else text + "\\"


@dataclass
class Transcript:
    """A script as it is typed, and what it answers."""

    options: list[str] = field(default_factory=list)
    images: dict[str, bytes] = field(default_factory=dict)
    is_debugging: bool = False
    is_tap: bool = False
    # the transcripts that stand in front of this one
    behind: list[str] = field(default_factory=list)
    script: bytes = b""
    answer: bytes = b""
    # the line of the transcript at which each line of the answer begins
    answer_lines: list[int] = field(default_factory=list)
    status_line: int = 0
    status: int = 0
    # the complaint that it must get, where it is wrong on purpose
    wrong: str | None = None
    part: Part | None = None

    def take_line(self, number: int, text: str) -> None:
        kind, rest = kind_of(text)
        if not self.can_take(kind):
            raise LineError("a line of this kind can't stand here")
        self.part = kind.part
        if kind is Kind.WORDS:
            for word in rest.split():
                self.take_word(word)
        elif kind is Kind.TYPED:
            self.script += line_bytes(rest)
        elif kind is Kind.ANSWER:
            # an answer's line that lacks its line feed is gone on with in the next
            if self.answer[-1:] in (b"", b"\n"):
                self.answer_lines.append(number)
            self.answer += line_bytes(rest)
        elif kind is Kind.STATUS:
            if not NUMBER.fullmatch(rest) or int(rest) > 255:
                raise LineError("no line begins so")
            self.status, self.status_line = int(rest), number
        elif kind is Kind.WRONG:
            self.wrong = rest

    def can_take(self, kind: Kind) -> bool:
        """A comment comes first, parts come in their order, an answer has something typed before it, and what stands
        after the session are single lines."""
        if self.part is None:
            return kind is Kind.COMMENT
        if self.part >= Part.STATUS:
            return kind.part > self.part
        if self.part < Part.SESSION:
            return kind.part >= self.part and kind not in (Kind.WRONG, Kind.ANSWER)
        return kind.part in (Part.SESSION, Part.STATUS)

    def take_word(self, word: str) -> None:
        name, sign, value = word.rpartition("=")
        image = IMAGE.fullmatch(value)
        if word == "--debug":
            self.is_debugging = True
        elif word == "--tap" and self.is_debugging:
            self.is_tap = True
        elif name == "--behind" and self.is_debugging:
            self.behind.append(value)
        elif name in SIZES and NUMBER.fullmatch(value):
            self.options.append(word)
        elif sign and name and not name.startswith("--") and image:
            if name in (".", "..") or "/" in name or name in self.images:
                raise LineError(f"no file, or one more, can hand in an image of the name {name}")
            self.images[name] = bytes.fromhex(image[1]) * int(image[2] or 1)
        else:
            raise LineError(
                "a word is --debug, --tap or --behind=NAME after it, --pages=N, --app=N, --rma=N, --budget=N, NAME=HEX"
                " or NAME=HEX*COUNT"
            )


def lines_of(text: str) -> list[tuple[int, str]]:
    """The lines of a text, counted from 1."""
    return [*enumerate(text.removesuffix("\n").split("\n"), 1)] if text else []


def read(text: str) -> Transcript:
    """The transcript that a text is. LineError: the first line that has no meaning, with its number."""
    transcript, number = Transcript(), 0
    for number, line in lines_of(text):
        try:
            transcript.take_line(number, line)
        except LineError as error:
            raise LineError(f"{number}: {error}") from error
    if not transcript.status_line:
        raise LineError(f"{number}: the last line is = status N")
    return transcript


def with_those_in_front(transcript: Transcript) -> Transcript:
    """A transcript, with the scripts and the answers of those that it stands behind. LineError: there is none."""
    script, answer, lines = b"", b"", []
    for name in transcript.behind:
        path = TRANSCRIPTS / name
        if not path.is_file():
            raise LineError(f"there is no transcript {name} to stand behind")
        other = read(text_of(path))
        script, answer = script + other.script, answer + other.answer
        lines += [1] * len(other.answer_lines)
    return replace(
        transcript,
        script=script + transcript.script,
        answer=answer + transcript.answer,
        answer_lines=lines + transcript.answer_lines,
    )


def all_transcripts() -> list[pathlib.Path]:
    """The files of all transcripts, in order."""
    return [path for path in sorted(TRANSCRIPTS.rglob("*.txt")) if not set(OTHER_FORMS) & set(path.parents)]


def text_of(path: pathlib.Path) -> str:
    """The text of a file, a sign for each byte."""
    return path.read_bytes().decode("latin-1")
