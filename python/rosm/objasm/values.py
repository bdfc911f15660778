"""Values of expressions: numbers, truths, texts, and distances from a base.

Numbers are 32 bits without a sign. A distance counts from an area, from a register (of a layout
`^ 0,r12`), or from an imported name; what is one base less the same base is a number.
"""

from __future__ import annotations

from typing import Callable, NamedTuple, Union

from ..messages import SourceError
from .areas import Area

WORD = 0xFFFFFFFF


class RegisterBase(NamedTuple):
    """The register that a layout counts from."""

    number: int


class ImportBase(NamedTuple):
    """A name that another file has."""

    name: str


class Distance(NamedTuple):
    """A base and what is added to it."""

    base: Union[Area, RegisterBase, ImportBase]
    offset: int


Value = Union[int, bool, str, Distance]


def kind_of(value: Value) -> str:
    """What a value is, for messages."""
    if isinstance(value, bool):
        return "a truth"
    if isinstance(value, str):
        return "a text"
    if isinstance(value, int):
        return "a number"
    if isinstance(value.base, RegisterBase):
        return f"an offset from R{value.base.number}"
    if isinstance(value.base, ImportBase):
        return "an imported address"
    return "an address"


def as_number(value: Value, word: str = "") -> int:
    """A number: also a text of one character, and an address of an area with ORG."""
    if isinstance(value, bool):
        raise SourceError("a number is wanted, and this is a truth", word)
    if isinstance(value, int):
        return value & WORD
    if isinstance(value, str):
        if len(value) == 1:
            return ord(value)
        raise SourceError("a number is wanted, and this is a text of "
                          f"{len(value)} characters", word)
    if isinstance(value.base, Area) and value.base.fixed is not None:
        return value.base.fixed + value.offset & WORD
    raise SourceError(f"a number is wanted, and this is {kind_of(value)}", word)


def as_truth(value: Value, word: str = "") -> bool:
    """A truth."""
    if isinstance(value, bool):
        return value
    raise SourceError(f"a condition is wanted, and this is {kind_of(value)}", word)


def as_text(value: Value, word: str = "") -> str:
    """A text."""
    if isinstance(value, str):
        return value
    raise SourceError(f"a text is wanted, and this is {kind_of(value)}", word)


def add(left: Value, right: Value) -> Value:
    """The sum of two numbers, or of a base and a number."""
    if isinstance(left, Distance) and not isinstance(right, Distance):
        return Distance(left.base, left.offset + as_number(right) & WORD)
    if isinstance(right, Distance) and not isinstance(left, Distance):
        return Distance(right.base, right.offset + as_number(left) & WORD)
    return as_number(left) + as_number(right) & WORD


def subtract(left: Value, right: Value) -> Value:
    """The difference; that of two distances from one base is a number."""
    if isinstance(left, Distance):
        if isinstance(right, Distance):
            if left.base is right.base or left.base == right.base:
                return left.offset - right.offset & WORD
            if isinstance(left.base, Area) != isinstance(right.base, Area) or \
                    not isinstance(left.base, Area):
                raise SourceError("the two have no base in common")
            return as_number_of_areas(left) - as_number_of_areas(right) & WORD
        return Distance(left.base, left.offset - as_number(right) & WORD)
    return as_number(left) - as_number(right) & WORD


def as_number_of_areas(value: Distance) -> int:
    """The address of a place whose area has ORG, or an error that names the reason."""
    assert isinstance(value.base, Area)
    if value.base.fixed is None:
        raise SourceError("the two addresses are in different areas, which have no distance")
    return value.base.fixed + value.offset


def divide(left: Value, right: Value) -> int:
    """The quotient of two numbers without signs."""
    divisor = as_number(right)
    if divisor == 0:
        raise SourceError("division by 0")
    return as_number(left) // divisor


def remainder(left: Value, right: Value) -> int:
    """The remainder of two numbers without signs."""
    divisor = as_number(right)
    if divisor == 0:
        raise SourceError("division by 0")
    return as_number(left) % divisor


def shift_left(left: Value, right: Value) -> int:
    amount = as_number(right)
    return as_number(left) << amount & WORD if amount < 32 else 0


def shift_right(left: Value, right: Value) -> int:
    amount = as_number(right)
    return as_number(left) >> amount if amount < 32 else 0


def rotate_right(left: Value, right: Value) -> int:
    amount, value = as_number(right) & 31, as_number(left)
    return (value >> amount | value << 32 - amount) & WORD


def rotate_left(left: Value, right: Value) -> int:
    return rotate_right(left, -as_number(right) & 31)


def left_part(left: Value, right: Value) -> str:
    text, count = as_text(left), as_number(right)
    if count > len(text):
        raise SourceError(f"the text has {len(text)} characters, and {count} are asked for")
    return text[:count]


def right_part(left: Value, right: Value) -> str:
    text, count = as_text(left), as_number(right)
    if count > len(text):
        raise SourceError(f"the text has {len(text)} characters, and {count} are asked for")
    return text[len(text) - count:]


def joined(left: Value, right: Value) -> str:
    text = as_text(left) + as_text(right)
    if len(text) > 65536:
        raise SourceError("the text has more than 65,536 characters")
    return text


def comparable(left: Value, right: Value) -> tuple[int | str, int | str]:
    """Two values of one kind, by which they are compared."""
    if isinstance(left, bool) or isinstance(right, bool):
        raise SourceError("truths are only the same or not")
    if isinstance(left, str) and isinstance(right, str):
        return left, right
    if isinstance(left, Distance) and isinstance(right, Distance) and left.base == right.base:
        return left.offset, right.offset
    return as_number(left), as_number(right)


def equal(left: Value, right: Value) -> bool:
    """Whether two values of one kind are the same."""
    if isinstance(left, bool) and isinstance(right, bool):
        return left == right
    first, second = comparable(left, right)
    return first == second


def ordered(test: Callable[[int | str, int | str], bool]) -> Callable[[Value, Value], bool]:
    """A comparison of two values of one kind."""
    return lambda left, right: test(*comparable(left, right))


BINARY: dict[str, tuple[int, Callable[[Value, Value], Value]]] = {
    "*": (6, lambda a, b: as_number(a) * as_number(b) & WORD),
    "/": (6, divide), ":MOD:": (6, remainder), "%": (6, remainder),
    ":LEFT:": (5, left_part), ":RIGHT:": (5, right_part), ":CC:": (5, joined),
    ":SHL:": (4, shift_left), "<<": (4, shift_left), ":SHR:": (4, shift_right),
    ">>": (4, shift_right), ":ROL:": (4, rotate_left), ":ROR:": (4, rotate_right),
    "+": (3, add), "-": (3, subtract),
    ":AND:": (3, lambda a, b: as_number(a) & as_number(b)),
    "&": (3, lambda a, b: as_number(a) & as_number(b)),
    ":OR:": (3, lambda a, b: as_number(a) | as_number(b)),
    "|": (3, lambda a, b: as_number(a) | as_number(b)),
    ":EOR:": (3, lambda a, b: as_number(a) ^ as_number(b)),
    "^": (3, lambda a, b: as_number(a) ^ as_number(b)),
    "=": (2, equal), "==": (2, equal),
    "<>": (2, lambda a, b: not equal(a, b)), "/=": (2, lambda a, b: not equal(a, b)),
    "!=": (2, lambda a, b: not equal(a, b)),
    "<": (2, ordered(lambda a, b: a < b)), ">": (2, ordered(lambda a, b: a > b)),  # type: ignore
    "<=": (2, ordered(lambda a, b: a <= b)), ">=": (2, ordered(lambda a, b: a >= b)),  # type: ignore
    "=<": (2, ordered(lambda a, b: a <= b)), "=>": (2, ordered(lambda a, b: a >= b)),  # type: ignore
    ":LAND:": (1, lambda a, b: as_truth(a) & as_truth(b)),
    "&&": (1, lambda a, b: as_truth(a) & as_truth(b)),
    ":LOR:": (1, lambda a, b: as_truth(a) | as_truth(b)),
    "||": (1, lambda a, b: as_truth(a) | as_truth(b)),
    ":LEOR:": (1, lambda a, b: as_truth(a) ^ as_truth(b)),
}
