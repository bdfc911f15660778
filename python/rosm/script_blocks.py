"""The blocks of a script, by its text alone: where one begins and ends, and its name.

Lines are read as `rosm_debug` has them. A line that opens a block may stand as it is, or have blanks and
a comment that are left out first; the lines of a block stand as they are.
"""

from __future__ import annotations

import re
from dataclasses import dataclass
from typing import Iterator

LARGEST = 1_048_576  # bytes of a script
_NAME = re.compile(rb"[!-~]{1,63}")
_NUMBER = re.compile(rb"&([0-9A-Fa-f]+)|([0-9]+)")
_MOST_ORIGIN = 1 << 26


@dataclass(frozen=True)
class Opener:
    """What a line opens: a block of ASM or HEX with a name."""

    is_asm: bool
    name: bytes


@dataclass(frozen=True)
class Block:
    """A block: what opens it, the number of its first line, its lines, and all of it as it stands."""

    opener: Opener
    first: int
    lines: tuple[bytes, ...]
    text: bytes
    has_end: bool


def tidied(line: bytes) -> bytes:
    """A line without its comment, with one space between its words.

    A semicolon at the start or after a blank begins a comment. Between double quotes bytes stand as
    they are, and a backslash there takes the next byte with it.
    """
    out, place = bytearray(), 0
    after_blank, in_quotes = True, False
    while place < len(line):
        byte = line[place:place + 1]
        if in_quotes:
            taken = line[place:place + 2] if byte == b"\\" else byte
            out += taken
            place += len(taken)
            in_quotes = byte != b'"'
            continue
        place += 1
        if byte in b" \t":
            after_blank = True
            continue
        if after_blank and byte == b";":
            break
        if after_blank and out:
            out += b" "
        out += byte
        after_blank, in_quotes = False, byte == b'"'
    return bytes(out)


def is_origin(word: bytes) -> bool:
    """Whether a program can be assembled there: at a multiple of 4 below 2^26."""
    found = _NUMBER.fullmatch(word)
    if not found:
        return False
    number = int(found[1], 16) if found[1] else int(found[2])
    return number % 4 == 0 and number < _MOST_ORIGIN


def _opener_in(line: bytes) -> Opener | None:
    """What a line opens whose words are parted by single spaces."""
    word, *rest = line.split(b" ")
    if word.upper() == b"ASM" and len(rest) == 2 and _NAME.fullmatch(rest[0]) and is_origin(rest[1]):
        return Opener(True, rest[0])
    if word.upper() == b"HEX" and len(rest) == 1 and _NAME.fullmatch(rest[0]):
        return Opener(False, rest[0])
    return None


def opener(line: bytes) -> Opener | None:
    """What a line opens, as it stands or tidied."""
    if line.lstrip(b" \t")[:1] not in (b"A", b"a", b"H", b"h"):
        return None
    return _opener_in(line) or _opener_in(tidied(line))


def _places(script: bytes) -> Iterator[tuple[int, bytes]]:
    """The lines, each with the place behind its end. LF or CR LF ends a line; the last may lack it."""
    start = 0
    while start < len(script):
        end = script.find(b"\n", start)
        if end < 0:
            yield len(script), script[start:]
            return
        yield end + 1, script[start:end].removesuffix(b"\r")
        start = end + 1


def blocks(script: bytes) -> Iterator[Block]:
    """The blocks of a script in order. A line in a block opens none; the last may lack its END."""
    begin, start, first = 0, 0, 0
    opened: Opener | None = None
    lines: list[bytes] = []
    for number, (end, line) in enumerate(_places(script), 1):
        if opened is None:
            opened, begin, first, lines = opener(line), start, number + 1, []
        elif line.upper() == b"END":
            yield Block(opened, first, tuple(lines), script[begin:end], True)
            opened = None
        else:
            lines.append(line)
        start = end
    if opened:
        yield Block(opened, first, tuple(lines), script[begin:], False)


def find_block(script: bytes, name: bytes) -> Block | None:
    """The first ASM block of that name, if there is one."""
    return next((block for block in blocks(script) if block.opener == Opener(True, name)), None)
