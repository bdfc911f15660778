"""Variables, arrays and the places that a statement may change."""

from __future__ import annotations

import math
from dataclasses import dataclass
from typing import TYPE_CHECKING

from .values import BasicError, Value, checked_string, integer_of, number_of, string_of

if TYPE_CHECKING:
    from .interpreter import Basic

LARGEST_ARRAY = 1 << 20  # elements


@dataclass
class Array:
    """An array: its name with `(`, how many elements each dimension has, and the elements."""

    name: str
    sizes: tuple[int, ...]
    values: list[Value]

    def index(self, indices: list[Value]) -> int:
        """Where an element stands in the list."""
        if len(indices) != len(self.sizes):
            raise BasicError(f"the array has {len(self.sizes)} dimensions, not {len(indices)}", self.name)
        place = 0
        for value, size in zip(indices, self.sizes):
            at = integer_of(value)
            if not 0 <= at < size:
                raise BasicError(f"the subscript {at} is not one of 0 to {size - 1}", self.name)
            place = place * size + at
        return place


def empty_of(name: str) -> Value:
    """What a new variable of this name has."""
    return "" if name.rstrip("(").endswith("$") else 0


def make_array(name: str, tops: list[int]) -> Array:
    """What DIM makes: each dimension goes from 0 to its number."""
    count = 1
    for top in tops:
        if top < 0:
            raise BasicError(f"a dimension can't be {top}", name)
        count *= top + 1
    if count > LARGEST_ARRAY:
        raise BasicError(f"the array has {count} elements, and {LARGEST_ARRAY} are the most", name)
    return Array(name, tuple(top + 1 for top in tops), [empty_of(name)] * count)


def kept(name: str, value: Value) -> Value:
    """A value as a variable or array of this name keeps it."""
    kind = name[-1] if name[-1] != "(" else name[-2]
    if kind == "%":
        return value if value.__class__ is int else integer_of(value)
    if kind == "$":
        return string_of(value)
    return number_of(value)


class VariablePlace:
    """A variable."""

    __slots__ = ("name",)

    def __init__(self, name: str) -> None:
        self.name = name

    def get(self, basic: Basic) -> Value:
        value = basic.variables.get(self.name)
        return basic.unknown(self.name) if value is None else value

    def set(self, basic: Basic, value: Value) -> None:
        if value.__class__ is float and self.name[-1] == "%":
            basic.near(value, self.name)
        basic.variables[self.name] = kept(self.name, value)

    def word(self) -> str:
        return self.name


class ElementPlace:
    """An element of an array."""

    __slots__ = ("array", "index")

    def __init__(self, array: Array, index: int) -> None:
        self.array = array
        self.index = index

    def get(self, basic: Basic) -> Value:
        return self.array.values[self.index]

    def set(self, basic: Basic, value: Value) -> None:
        self.array.values[self.index] = kept(self.array.name, value)

    def word(self) -> str:
        places, rest = [], self.index
        for size in reversed(self.array.sizes):
            places.append(str(rest % size))
            rest //= size
        return f"{self.array.name}{','.join(reversed(places))})"


class MemoryPlace:
    """`?a`, `!a`, `$a` and `|a`."""

    __slots__ = ("sign", "address")

    def __init__(self, sign: str, address: int) -> None:
        self.sign = sign
        self.address = address

    def get(self, basic: Basic) -> Value:
        return peek(basic, self.sign, self.address)

    def set(self, basic: Basic, value: Value) -> None:
        if self.sign == "?":
            data = bytes((integer_of(value) & 255,))
        elif self.sign == "!":
            data = (integer_of(value) & 0xFFFFFFFF).to_bytes(4, "little")
        elif self.sign == "$":
            data = checked_string(string_of(value)).encode("latin-1", "replace") + b"\r"
        else:
            data = real_bytes(number_of(value))
        basic.memory.write(self.address, data)

    def word(self) -> str:
        return f"{self.sign}&{self.address & 0xFFFFFFFF:X}"


Target = VariablePlace | ElementPlace | MemoryPlace  # a place that a statement may change


def takes_text(target: Target) -> bool:
    """Whether a place keeps strings."""
    if isinstance(target, MemoryPlace):
        return target.sign == "$"
    name = target.name if isinstance(target, VariablePlace) else target.array.name
    return name.rstrip("(").endswith("$")


def peek(basic: Basic, sign: str, address: int) -> Value:
    """What the memory has at an address, by the sign of indirection."""
    if sign == "?":
        return basic.memory.read(address, 1)[0]
    if sign == "!":
        return basic.memory.word(address)
    if sign == "$":
        return basic.memory.text(address)
    return real_from(basic.memory.read(address, 5))


def real_bytes(value: int | float) -> bytes:
    """A real as BASIC V keeps it: four bytes of mantissa, whose top bit is the sign, and an exponent."""
    if value == 0:
        return bytes(5)
    mantissa, exponent = math.frexp(abs(value))
    whole = int(mantissa * (1 << 32) + 0.5)
    if whole == 1 << 32:
        whole, exponent = 1 << 31, exponent + 1
    whole &= 0x7FFFFFFF
    if value < 0:
        whole |= 0x80000000
    return whole.to_bytes(4, "little") + bytes((exponent + 128 & 255,))


def real_from(data: bytes) -> float:
    """A real from its five bytes."""
    if data[4] == 0:
        return 0.0
    whole = int.from_bytes(data[:4], "little")
    size = (whole | 0x80000000) * 2.0 ** (data[4] - 128 - 32)
    return -size if whole & 0x80000000 else size
