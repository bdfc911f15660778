"""Programs as SAVE writes them: lines of tokens, each behind 0D, its number and its length."""

from __future__ import annotations

import re

from .tokens import (
    AFTER_C6,
    AFTER_C7,
    AFTER_C8,
    BLOCK_ELSE,
    LINE_NUMBER,
    NAMES,
    ONE,
    PSEUDO,
    STARTS,
    T,
)

_PREFIX = {0xC6: AFTER_C6, 0xC7: AFTER_C7, 0xC8: AFTER_C8}
_NUMBER = re.compile(r"[0-9]+")
_LINE_MARK = 0x8D


class DamagedProgram(Exception):
    """The bytes are no program, or its end is missing."""


def is_saved(data: bytes) -> bool:
    """Whether a file is a program in tokens: text has no 0D before its first line."""
    return len(data) >= 2 and data[0] == 0x0D and (data[1] == 0xFF or len(data) >= 5)


def lines_of(data: bytes) -> list[tuple[int, str]]:
    """The lines of a saved program: number and text in keyword characters."""
    lines = []
    at = 0
    while True:
        if at + 1 >= len(data) or data[at] != 0x0D:
            raise DamagedProgram(f"no line of a program begins at byte {at}")
        if data[at + 1] == 0xFF:
            return lines
        if at + 3 >= len(data):
            raise DamagedProgram(f"the line at byte {at} is cut off")
        length = data[at + 3]
        if length < 4 or at + length > len(data):
            raise DamagedProgram(f"the line at byte {at} has the length {length}")
        lines.append((data[at + 1] * 256 + data[at + 2], _text(data[at + 4 : at + length])))
        at += length


def _text(body: bytes) -> str:
    out: list[str] = []
    at, in_string = 0, False
    while at < len(body):
        code = body[at]
        at += 1
        if code == 0x22:
            in_string = not in_string
        if in_string or code < 0x7F:
            out.append(chr(code))
        elif code == _LINE_MARK and at + 3 <= len(body):
            out.append(str(_line_number(body[at : at + 3])))
            at += 3
        else:
            at = _keyword(body, at, code, out)
            if out[-1] in (T["REM"], T["DATA"]):
                out.append(body[at:].decode("latin-1"))
                break
    return "".join(out)


def _keyword(body: bytes, at: int, code: int, out: list[str]) -> int:
    if code in _PREFIX and at < len(body):
        character = chr(_PREFIX[code] + body[at])
        if character in NAMES:
            out.append(character)
            return at + 1
        if code == 0xC7 and body[at] == 0x9F:  # INSTALL as a command
            out.append(T["INSTALL"])
            return at + 1
        raise DamagedProgram(f"{code:02X} {body[at]:02X} is no keyword")
    if code == BLOCK_ELSE:
        code = 0x8B
    elif 0xCF <= code <= 0xD3:
        code -= 0x40
    character = chr(ONE + code)
    out.append(character if character in NAMES else chr(code))
    return at


def _line_number(three: bytes) -> int:
    first, low, high = three
    low = (low & 0x3F) | ((first << 2) & 0xC0) ^ 0x40
    high = (high & 0x3F) | ((first << 4) & 0xC0) ^ 0x40
    return low + 256 * high


def _three_bytes(number: int) -> bytes:
    low, high = number & 0xFF, number >> 8
    first = ((low & 0xC0) >> 2 | (high & 0xC0) >> 4) ^ 0x54
    return bytes((first, 0x40 | low & 0x3F, 0x40 | high & 0x3F))


def _keyword_bytes(character: str, first_on_line: bool, start: bool) -> bytes:
    code, name = ord(character), NAMES[character]
    for prefix, base in _PREFIX.items():
        if base <= code < base + 0x100:
            return bytes((prefix, code - base))
    code -= ONE
    if name == "ELSE" and first_on_line:
        code = BLOCK_ELSE
    elif name in PSEUDO and start:
        code += 0x40
    return bytes((code,))


def line_bytes(text: str) -> bytes:
    """The text of a line, in keyword characters, as a program holds it."""
    out = bytearray()
    at, start, numbers, first = 0, True, False, True
    while at < len(text):
        character = text[at]
        if character == '"':
            end = text.find('"', at + 1)
            end = len(text) if end < 0 else end + 1
            out += text[at:end].encode("latin-1", "replace")
            at, start, numbers, first = end, False, False, False
            continue
        if character in NAMES:
            name = NAMES[character]
            out += _keyword_bytes(character, first, start)
            if name in ("REM", "DATA"):
                return bytes(out) + text[at + 1 :].encode("latin-1", "replace")
            start, numbers = name in STARTS, name in LINE_NUMBER and name != "ERROR"
        elif numbers and character.isdigit():
            found = _NUMBER.match(text, at)
            out += bytes((_LINE_MARK,)) + _three_bytes(int(found.group()) & 0xFFFF)
            at = found.end()
            continue
        else:
            if character == "*" and start:
                return bytes(out) + text[at:].encode("latin-1", "replace")
            out += character.encode("latin-1", "replace")
            if character != " ":
                start, numbers = character == ":", numbers and character == ","
        first = first and character == " "
        at += 1
    return bytes(out)


def program_bytes(lines: list[tuple[int, str]]) -> bytes:
    """Lines (number, text in keyword characters) as SAVE writes them."""
    out = bytearray()
    for number, text in lines:
        body = line_bytes(text)
        if len(body) > 251:
            raise DamagedProgram(f"line {number} is longer than 251 bytes")
        out += bytes((0x0D, number >> 8, number & 0xFF, len(body) + 4)) + body
    return bytes(out) + b"\x0d\xff"
