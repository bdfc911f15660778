"""Cases of tools/run_riscos: conversions, as Python's own formatting makes them, and numbers that are read."""
from __future__ import annotations

import random
from typing import Iterator

from riscos_cases import BUFFER, OVERFLOW, TEXT, WORD, Case

ENDS = (0, 1, 9, 10, 99, 100, 127, 128, 255, 256, 999, 1000, 32767, 32768, 65535, 65536, 999999, 1000000, 2**23 - 1)
MORE_ENDS = (2**23, 2**24 - 1, 2**24, 10**9 - 1, 10**9, 2**31 - 1, 2**31, 2**31 + 1, WORD - 128, WORD - 1)
DIGITS = "0123456789ABCDEFGHIJKLMNOPQRSTUVWXYZ"


def text_of(routine: str, value: int) -> str:
    """The text of a number, as Python writes it."""
    kind, count = routine[:-1], int(routine[-1])
    if kind == "hex":
        return f"{value:08X}"[-count:]
    if kind == "binary":
        return f"{value:032b}"[-8 * count :]
    value %= 1 << 8 * count
    if kind.endswith("integer") and value >> (8 * count - 1):
        value -= 1 << 8 * count
    return f"{value:,}".replace(",", " ") if kind.startswith("spaced") else str(value)


def conversion(routine: str, value: int, size: int) -> Case:
    """One of the OS_Convert calls."""
    text = text_of(routine, value).encode()
    given = {"R0": value, "R1": BUFFER, "R2": size}
    # a size from 2^31 on is below 0
    if size <= len(text) or size >> 31:
        return Case(routine, given, {"R1": BUFFER, "R2": size}, error=OVERFLOW)
    wanted = {"R0": BUFFER, "R1": BUFFER + len(text), "R2": size - len(text)}
    return Case(routine, given, wanted, text + b"\0")


def to_decimal(value: int, size: int) -> Case:
    """OS_BinaryToDecimal."""
    text = str(value - WORD if value >> 31 else value).encode()
    given = {"R0": value, "R1": BUFFER, "R2": size}
    if size < len(text):
        return Case("binarytodecimal", given, {"R1": BUFFER, "R2": size}, error=OVERFLOW)
    return Case("binarytodecimal", given, {"R0": value, "R1": BUFFER, "R2": len(text)}, text)


def in_base(value: int, base: int) -> str:
    """A number's digits."""
    digits = ""
    while value or not digits:
        value, digit = divmod(value, base)
        digits = DIGITS[digit] + digits
    return digits


def reading(front: str, digits: str, base: int, behind: str, flags: int, most: int) -> Case:
    """OS_ReadUnsigned of digits behind spaces, & or a base; of nothing else than digits in that base."""
    given_base = base if not front.strip() else 10
    text = (front + digits + behind).encode() + b"\0"
    given = {"R0": flags | given_base, "R1": TEXT, "R2": most}
    error = ""
    value = int(digits, base) if digits else 0
    if not digits:
        error = "Bad number"
    elif value >= WORD:
        error = "Number too big"
    elif flags & 1 << 31 and behind[:1] > " ":
        error = "Bad number"
    elif flags & 1 << 30 and value > 255 or flags & 1 << 29 and value > most:
        error = "Number too big"
    if error:
        return Case("readunsigned", given, {"R1": TEXT, "R2": 0}, text=text, error=error)
    wanted = {"R0": flags | given_base, "R1": TEXT + len(front) + len(digits), "R2": value}
    return Case("readunsigned", given, wanted, text=text)


def readings(chance: random.Random) -> Iterator[Case]:
    """Cases of OS_ReadUnsigned."""
    for base in range(2, 37):
        largest = in_base(WORD - 1, base)
        past = in_base(WORD, base)
        for digits in (largest, past, largest.lower(), "0" * 20 + "1", ""):
            yield reading("", digits, base, "", 0, 0)
            yield reading(f"  {base}_", digits, base, " ", 1 << 31, 0)
    for value in (0, 254, 255, 256, 1000):
        for flags in (1 << 30, 1 << 29, 3 << 29):
            for most in (0, 254, 255, 256, WORD - 1):
                yield reading("", str(value), 10, "\r", flags, most)
    for value in (0, 0xABC, WORD - 1, WORD):
        yield reading("&", f"{value:x}", 16, "g", 0, 0)
        yield reading(" &", f"{value:X}", 16, "g", 1 << 31, 0)
    for _ in range(150):
        base = chance.randint(2, 36)
        value = chance.getrandbits(chance.randint(1, 36))
        flags = chance.getrandbits(3) << 29
        yield reading(" " * chance.randint(0, 2), in_base(value, base), base, chance.choice((" ", "", "*")), flags,
                      chance.getrandbits(32))
    for base in (0, 1, 37):
        given = {"R0": base, "R1": TEXT, "R2": 0}
        yield Case("readunsigned", given, {"R0": base, "R1": TEXT + 2, "R2": 19}, text=b"19\0")
        yield Case("readunsigned", {"R0": 10, "R1": TEXT, "R2": 7}, {"R1": TEXT, "R2": 0},
                   text=f"{base}_1\0".encode(), error="Bad base")


def conversions(chance: random.Random) -> Iterator[Case]:
    """Cases of the OS_Convert calls and of OS_BinaryToDecimal."""
    kinds = ("binary", "cardinal", "integer", "spacedcardinal", "spacedinteger")
    routines = [f"hex{count}" for count in (1, 2, 4, 6, 8)] + [f"{kind}{count}" for kind in kinds for count in (1, 2, 3, 4)]
    for routine in routines:
        some = [chance.getrandbits(chance.randint(1, 32)) for _ in range(12)]
        for value in (*ENDS, *MORE_ENDS, *some):
            length = len(text_of(routine, value))
            yield conversion(routine, value, chance.choice((length + 1, length + 1, length, 0, length + 7, WORD - 1)) % WORD)
    for value in (*ENDS, *MORE_ENDS):
        length = len(str(value - WORD if value >> 31 else value))
        yield from (to_decimal(value, size) for size in (length, length - 1, 12))
