"""Values of BBC BASIC V: integers of 32 bits, reals of a 32-bit mantissa, strings of 255 bytes."""

from __future__ import annotations

import math
import re

from ..messages import Position, SourceError

Value = int | float | str

LARGEST_STRING = 255
_LARGEST_REAL = 1.7014118346e38
_MANTISSA = float(1 << 32)


class BasicError(SourceError):
    """An error of the program, as BASIC would report it, or a thing that can't be done here.

    Where it leaves a PROC or FN it gets its `position`: then nothing above takes it for an error of
    an operand, and it ends the program.
    """

    position: Position | None = None


class Stop(Exception):
    """The program ends, as at END."""


def rounded(value: float) -> float:
    """A real as BASIC V keeps it: 32 bits of mantissa."""
    if value == 0:
        return 0.0
    if not -_LARGEST_REAL <= value <= _LARGEST_REAL:
        raise BasicError("the number is too big")
    mantissa, exponent = math.frexp(value)
    if exponent < -127:
        return 0.0
    return math.ldexp(math.floor(mantissa * _MANTISSA + 0.5) / _MANTISSA, exponent)


def wrapped(value: int) -> int:
    """The low 32 bits as a number with a sign."""
    value &= 0xFFFFFFFF
    return value - 0x100000000 if value & 0x80000000 else value


def kind_of(value: object) -> str:
    """What a value is, for a message."""
    if isinstance(value, str):
        return "a string"
    return "a number" if isinstance(value, (int, float)) else "an array"


def number_of(value: Value) -> int | float:
    """A value where a number is wanted."""
    if value.__class__ is int or value.__class__ is float:
        return value
    raise BasicError(f"type mismatch: a number is wanted here, and this is {kind_of(value)}")


def string_of(value: Value) -> str:
    """A value where a string is wanted."""
    if not isinstance(value, str):
        raise BasicError(f"type mismatch: a string is wanted here, and this is {kind_of(value)}")
    return value


def integer_of(value: Value) -> int:
    """A value as a whole number: a real is cut towards zero."""
    if value.__class__ is int:
        return value
    whole = int(number_of(value))
    if not -0x80000000 <= whole <= 0x7FFFFFFF:
        raise BasicError(f"the number {text_of(value)} is too big for 32 bits")
    return whole


def is_close(value: Value) -> bool:
    """Whether a real lies so near at a whole number that BASIC V and VI may cut it differently."""
    if not isinstance(value, float):
        return False
    nearest = round(value)
    return value != nearest and abs(value - nearest) < 1e-6


def checked_string(text: str) -> str:
    """A string that may not be longer than BASIC has them."""
    if len(text) > LARGEST_STRING:
        raise BasicError(f"the string is too long: {len(text)} bytes, and 255 are the most")
    return text


def from_integer(value: int) -> int | float:
    """The exact result of + - * of integers: a real where it has more than 32 bits."""
    if -0x80000000 <= value <= 0x7FFFFFFF:
        return value
    return rounded(float(value))


_DIGITS = 10  # of STR$ where @% doesn't say


def text_of(value: int | float, digits: int = _DIGITS) -> str:
    """A number as STR$ makes it: BASIC's general format."""
    if isinstance(value, int):
        return str(value)
    if value == 0:
        return "0"
    sign = "-" if value < 0 else ""
    mantissa, exponent_text = f"{abs(value):.{digits - 1}e}".split("e")
    exponent = int(exponent_text)
    figures = mantissa.replace(".", "").rstrip("0") or "0"
    if -3 < exponent < 0:
        return f"{sign}0.{'0' * (-exponent - 1)}{figures}"
    if 0 <= exponent < digits:
        whole = figures[: exponent + 1].ljust(exponent + 1, "0")
        rest = figures[exponent + 1 :]
        return sign + whole + ("." + rest if rest else "")
    rest = figures[1:]
    return f"{sign}{figures[0]}{'.' + rest if rest else ''}E{exponent}"


def fixed_text(value: int | float, layout: int) -> str:
    """A number as @% asks for it: its second byte the digits, its third byte the format."""
    digits, form = layout >> 8 & 255, layout >> 16 & 3
    if form == 2:
        return f"{value:.{min(digits, 10)}f}"
    if form == 1:
        figures = max(1, min(digits or 10, 10))
        mantissa, exponent = f"{value:.{figures - 1}e}".split("e")
        return f"{mantissa}E{int(exponent)}"
    return text_of(value, digits if 1 <= digits <= 10 else _DIGITS)


def hexadecimal(value: Value) -> str:
    """A number as STR$~ makes it."""
    return f"{integer_of(value) & 0xFFFFFFFF:X}"


_DECIMAL = re.compile(r"([0-9]*)(?:\.([0-9]*))?(?:E([+-]?[0-9]{1,3}))?")


def decimal_at(text: str, at: int) -> tuple[int | float, int]:
    """A decimal number at a place of a text, and where it ends."""
    found = _DECIMAL.match(text, at)
    whole, fraction, exponent = found.groups()
    end = found.end()
    if exponent is not None and not whole and fraction is None:
        return 0, at
    if fraction is None and exponent is None:
        return from_integer(int(whole or "0")), end
    value = float(f"{whole or '0'}.{fraction or '0'}e{exponent or '0'}")
    return rounded(value), end


def value_of(text: str) -> int | float:
    """VAL: the number with which a string begins, or 0."""
    text = text.lstrip(" ")
    sign = text[:1]
    at = 1 if sign in ("+", "-") else 0
    value, _ = decimal_at(text, at)
    return -value if sign == "-" else value
