"""Lines and tokens of a source: label, operation, operands, and the words of the operands."""

from __future__ import annotations

import re
from functools import lru_cache
from typing import NamedTuple

from ..messages import SourceError


class Stop(Exception):
    """The pass can't go on: its error was reported."""


class Token(NamedTuple):
    """A word of the operands. Kinds: name, number, text, local, operator, sign, end."""

    kind: str
    text: str  # as the source has it
    value: int | str = 0  # a number's value, a text's contents, a name without its bars


class Line(NamedTuple):
    """A line in its parts. `glued` says that no space parts the operation from its operands."""

    label: str
    operation: str
    operands: str
    glued: bool = False


END = Token("end", "")

_NAME = r"[A-Za-z_][A-Za-z0-9_]*"
_LABEL = re.compile(rf"\|[^|]+\||[0-9]{{1,2}}(?:{_NAME})?|{_NAME}")
_OPERATION = re.compile(rf"{_NAME}|\|[^|\s]+\||[\[\]|^#%&=*!]")
_BARE = re.compile(r"""(?:"(?:[^"]|"")*"|'[^'"]'|'''|'"'|\|[^|]*\||[^;"]|"[^"]*\Z)*""")
_TOKEN = re.compile(rf"""[\ \t]*(?:
    (?P<name>{_NAME})
  | (?P<based>[0-9]+_[0-9A-Za-z]+)
  | (?P<hex>0[xX][0-9A-Fa-f]+)
  | (?P<number>[0-9]+)
  | (?P<text>"(?:[^"]|"")*")
  | (?P<char>'(?:[^']|')')
  | (?P<operator>:[A-Za-z_]+:)
  | (?P<sign><<|>>|<=|>=|<>|==|!=|/=|=<|=>|&&|\|\||[^\ \t])
  | \Z)""", re.VERBOSE | re.DOTALL)
_AMPERSAND = re.compile(r"&([0-9A-Fa-f]+)")
_BARS = re.compile(r"\|[^|]+\|")
_LOCAL = re.compile(rf"%([FfBb]?)([AaTt]?)([0-9]{{1,2}})({_NAME})?")
_OPERAND_ENDS = frozenset({"name", "number", "text", "local"})


def strip_comment(text: str) -> str:
    """What stands before `;`, which strings, characters and bars hide."""
    if ";" not in text:
        return text.strip()
    found = _BARE.match(text)
    return (found.group() if found else text).strip()


@lru_cache(maxsize=200_000)
def split_line(text: str) -> Line:
    """A line, without `$` in it, as label, operation and operands."""
    label, place = "", 0
    if text and text[0] not in " \t;":
        found = _LABEL.match(text)
        if not found or text[found.end():found.end() + 1] not in ("", " ", "\t", ";"):
            raise SourceError(wrong_label(text), re.split(r"[\s;]", text, maxsplit=1)[0])
        label, place = found.group(), found.end()
    rest = text[place:].lstrip(" \t")
    if not rest or rest[0] == ";":
        return Line(label, "", "")
    found = _OPERATION.match(rest)
    if not found:
        raise SourceError("no operation begins so", re.split(r"\s", rest, maxsplit=1)[0])
    operation, rest = found.group(), rest[found.end():]
    glued = bool(rest) and rest[0] not in " \t;"
    if glued and operation[0].isalnum():
        hint = f"; {label}, in the first column, is read as a label" if label else ""
        raise SourceError("a space is wanted behind the operation" + hint,
                          operation + re.split(r"[ \t]", rest)[0])
    return Line(label, operation, strip_comment(rest), glued)


def wrong_label(text: str) -> str:
    """Why what stands in the first column is no label."""
    if re.match(rf"{_NAME}:", text):
        return "a label has no colon behind it"
    if text[0] == "$":
        return "this is nothing that is known"
    return "no label begins or ends so; anything but a label needs a space before it"


@lru_cache(maxsize=200_000)
def tokens_of(text: str) -> tuple[Token, ...]:
    """The tokens of the operands, of which the last is an end."""
    tokens: list[Token] = []
    place = 0
    while True:
        while place < len(text) and text[place] in " \t":
            place += 1
        if place >= len(text):
            tokens.append(END)
            return tuple(tokens)
        token, place = next_token(text, place, ends_operand(tokens))
        tokens.append(token)


def ends_operand(tokens: list[Token]) -> bool:
    """Whether an operator must follow: then `&`, `|` and `%` are operators."""
    return bool(tokens) and (tokens[-1].kind in _OPERAND_ENDS or tokens[-1].text in (")", ".", "@", "}"))


def next_token(text: str, place: int, after_operand: bool) -> tuple[Token, int]:
    """The token at a place that is no space, and the place behind it."""
    first = text[place]
    if not after_operand and first in "&|%":
        special = operand_token(text, place)
        if special:
            return special
    found = _TOKEN.match(text, place)
    assert found and found.lastgroup  # the last choice takes any sign
    kind, word = found.lastgroup, found.group().strip(" \t")
    if kind in ("name", "operator"):
        return Token(kind, word, word if kind == "name" else word.upper()), found.end()
    if kind == "sign":
        if word == '"':
            raise SourceError("the string isn't closed", text[place:])
        return Token("sign", word), found.end()
    if kind == "text":
        return Token("text", word, word[1:-1].replace('""', '"')), found.end()
    return Token("number", word, number_value(kind, word)), found.end()


def operand_token(text: str, place: int) -> tuple[Token, int] | None:
    """`&FF`, a name between bars, or a numbered label, where an operand may begin."""
    found = _AMPERSAND.match(text, place)
    if found:
        return Token("number", found.group(), number_value("hex", found.group())), found.end()
    found = _BARS.match(text, place)
    if found:
        return Token("name", found.group(), found.group()[1:-1]), found.end()
    found = _LOCAL.match(text, place)
    if found:
        return Token("local", found.group(), found.group()), found.end()
    return None


def number_value(kind: str, word: str) -> int:
    """The value of a number's word; numbers count modulo 2^32."""
    if kind == "char":
        return ord(word[1])
    if kind == "hex":
        value = int(word.lstrip("&"), 16)
    elif kind == "based":
        base, digits = word.split("_", 1)
        try:
            value = int(digits, int(base))
        except ValueError:
            raise SourceError(f"no number of the base {base}", word) from None
    else:
        value = int(word)
    if value >> 32:
        raise SourceError("the number has more than 32 bits", word)
    return value


def local_parts(word: str) -> tuple[str, str, int, str]:
    """A numbered label's reference as direction, levels, number and routine."""
    found = _LOCAL.match(word)
    assert found  # the token was made by this pattern
    return found[1].upper(), found[2].upper(), int(found[3]), found[4] or ""


def plain_name(label: str) -> str:
    """A label without its bars."""
    return label[1:-1] if label[0] == "|" else label


def no_label(line: Line) -> None:
    """Refuses a label before a directive that has no place."""
    if line.label:
        raise SourceError(f"{line.operation} takes no label", line.label)
