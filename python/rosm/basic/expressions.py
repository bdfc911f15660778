"""Expressions: a piece of a line becomes a function that works out its value.

Levels, from the tightest: functions, unary signs, NOT and indirection; `^`; `* / DIV MOD`; `+ -`;
one comparison or shift; AND; OR and EOR.
"""

from __future__ import annotations

import re
from typing import TYPE_CHECKING, Callable

from . import operators as op
from .tokens import NAMES, T, plain
from .values import BasicError, Value, decimal_at, integer_of, number_of, wrapped
from .variables import Array, ElementPlace, MemoryPlace, Target, VariablePlace, peek

if TYPE_CHECKING:
    from .interpreter import Basic

Evaluate = Callable[["Basic"], Value]
Find = Callable[["Basic"], Target]
Given = tuple[Evaluate, "Find | None"]  # an argument: its value, and its place where it is one

END = "\n"  # behind each line
NAME = re.compile(r"(?:[A-Za-z_`][A-Za-z0-9_`]*[%$]?|@%)\(?")
_ROUTINE = re.compile(r"[A-Za-z0-9_`@]+")
_HEX = re.compile(r"[0-9A-F]+")
_BINARY = re.compile(r"[01]+")
_STRING = re.compile(r'"((?:[^"\n]|"")*)"')
_SHOWN = re.compile(r"[A-Za-z0-9_%$&.]+|.")
FACTORS: dict[str, Callable[["Scan"], Evaluate]] = {}  # by the first character


class Scan:
    """A place in a line that is being read."""

    __slots__ = ("text", "at")

    def __init__(self, text: str, at: int = 0) -> None:
        self.text = text
        self.at = at

    def blank(self) -> str:
        """Passes spaces; the character that stands next."""
        while self.text[self.at] == " ":
            self.at += 1
        return self.text[self.at]

    def take(self, sign: str) -> bool:
        """Whether the sign stands next; then it is passed."""
        self.blank()
        if self.text.startswith(sign, self.at):
            self.at += len(sign)
            return True
        return False

    def need(self, sign: str) -> None:
        """Passes the sign that must stand next."""
        if not self.take(sign):
            raise BasicError(f"`{plain(sign)}` is wanted here", self.word())

    def word(self) -> str:
        """The word that stands next, for a message."""
        self.blank()
        if self.text[self.at] == END:
            return "end of the line"
        character = self.text[self.at]
        return NAMES.get(character) or _SHOWN.match(self.text, self.at).group()


def _both(operator, left: Evaluate, right: Evaluate) -> Evaluate:
    return lambda basic: operator(left(basic), right(basic))


_OR_LEVEL = {T["OR"]: op.disjunction, T["EOR"]: op.exclusive}
_SUMS = {"+": op.add, "-": op.subtract}
_PRODUCTS = {
    "*": op.multiply,
    "/": op.divide,
    T["DIV"]: op.whole_quotient,
    T["MOD"]: op.remainder,
    ".": op.matrix_product,
}
_COMPARISONS = {
    ">>>": op.shift_right_zeros,
    "<<": op.shift_left,
    ">>": op.shift_right,
    "<=": op.at_most,
    ">=": op.at_least,
    "<>": op.unequal,
    "=": op.equal,
    "<": op.less,
    ">": op.greater,
}
_COMPARISON = re.compile(r">>>|<<|>>|<=|>=|<>|[=<>]")


def expression(scan: Scan) -> Evaluate:
    """The expression at this place."""
    left = _and_level(scan)
    while scan.blank() in _OR_LEVEL:
        operator = _OR_LEVEL[scan.text[scan.at]]
        scan.at += 1
        left = _both(operator, left, _and_level(scan))
    return left


def _and_level(scan: Scan) -> Evaluate:
    left = _comparison(scan)
    while scan.take(T["AND"]):
        left = _both(op.conjunction, left, _comparison(scan))
    return left


def _comparison(scan: Scan) -> Evaluate:
    left = _sum(scan)
    scan.blank()
    found = _COMPARISON.match(scan.text, scan.at)
    if found is None:
        return left
    scan.at = found.end()
    return _both(_COMPARISONS[found.group()], left, _sum(scan))


def _sum(scan: Scan) -> Evaluate:
    left = _product(scan)
    while scan.blank() in _SUMS:
        operator = _SUMS[scan.text[scan.at]]
        scan.at += 1
        left = _both(operator, left, _product(scan))
    return left


def _product(scan: Scan) -> Evaluate:
    left = _power(scan)
    while scan.blank() in _PRODUCTS:
        operator = _PRODUCTS[scan.text[scan.at]]
        scan.at += 1
        left = _both(operator, left, _power(scan))
    return left


def _power(scan: Scan) -> Evaluate:
    left = factor(scan)
    while scan.take("^"):
        left = _both(op.power, left, factor(scan))
    return left


def factor(scan: Scan) -> Evaluate:
    """A number, string, variable, function, or an expression in parentheses."""
    character = scan.blank()
    reader = FACTORS.get(character)
    if reader is not None:
        scan.at += 1
        return reader(scan)
    if character.isdigit() or character == ".":
        value, end = decimal_at(scan.text, scan.at)
        if end == scan.at or scan.text[scan.at : end] == ".":
            raise BasicError("a value is wanted here", scan.word())
        scan.at = end
        return lambda basic: value
    found = NAME.match(scan.text, scan.at)
    if found:
        return _variable(scan, found)
    if character in NAMES:
        raise BasicError("this keyword isn't a value", NAMES[character])
    raise BasicError("a value is wanted here", scan.word())


def constant(value: Value) -> Evaluate:
    return lambda basic: value


def _variable(scan: Scan, found: re.Match[str]) -> Evaluate:
    name = found.group()
    scan.at = found.end()
    if name.endswith("("):
        if scan.take(")"):
            return lambda basic: basic.array(name)
        read = _element(name, arguments(scan))
    else:
        read = _simple_variable(name)
    sign = scan.text[scan.at]
    if sign in "?!" and not name.endswith("$"):
        scan.at += 1
        return _dyadic(sign, read, factor(scan))
    return read


def _simple_variable(name: str) -> Evaluate:
    """A variable; the assembler notes what value it had, for labels that come behind."""

    def read(basic: Basic) -> Value:
        value = basic.variables.get(name)
        if value is None:
            return basic.unknown(name)
        if basic.assembly.active:
            basic.assembly.note_use(name, value)
        return value

    return read


def _element(name: str, indices: list[Evaluate]) -> Evaluate:
    def read(basic: Basic) -> Value:
        array = basic.array(name)
        return array.values[array.index([index(basic) for index in indices])]

    return read


def _dyadic(sign: str, base: Evaluate, distance: Evaluate) -> Evaluate:
    return lambda basic: peek(basic, sign, wrapped(integer_of(base(basic)) + integer_of(distance(basic))))


def arguments(scan: Scan) -> list[Evaluate]:
    """Expressions between commas up to `)`; the `(` was passed."""
    found = [expression(scan)]
    while scan.take(","):
        found.append(expression(scan))
    scan.need(")")
    return found


def place(scan: Scan) -> Find:
    """A variable, element or place in memory that can be changed; a function that finds it."""
    sign = scan.blank()
    if sign in "?!$|":
        scan.at += 1
        address = factor(scan)
        return lambda basic: MemoryPlace(sign, integer_of(address(basic)))
    found = NAME.match(scan.text, scan.at)
    if found is None:
        raise BasicError("a variable is wanted here", scan.word())
    name = found.group()
    scan.at = found.end()
    if name.endswith("("):
        if scan.take(")"):
            raise BasicError("a whole array can't be here", name + ")")
        indices = arguments(scan)

        def find(basic: Basic) -> Target:
            array = basic.array(name)
            return ElementPlace(array, array.index([index(basic) for index in indices]))

    else:
        variable = VariablePlace(name)

        def find(basic: Basic) -> Target:
            return variable

    following = scan.text[scan.at]
    if following in "?!" and not name.endswith("$"):
        scan.at += 1
        distance = factor(scan)
        return lambda basic: MemoryPlace(
            following, wrapped(integer_of(find(basic).get(basic)) + integer_of(distance(basic)))
        )
    return find


def _hexadecimal(scan: Scan) -> Evaluate:
    found = _HEX.match(scan.text, scan.at)
    if found is None:
        raise BasicError("digits 0 to 9 and A to F, in capitals, are wanted behind this", "&")
    scan.at = found.end()
    if int(found.group(), 16) > 0xFFFFFFFF:
        raise BasicError("the number has more than 32 bits", "&" + found.group())
    return constant(wrapped(int(found.group(), 16)))


def _binary(scan: Scan) -> Evaluate:
    found = _BINARY.match(scan.text, scan.at)
    if found is None:
        raise BasicError("digits 0 and 1 are wanted behind this", "%")
    scan.at = found.end()
    if int(found.group(), 2) > 0xFFFFFFFF:
        raise BasicError("the number has more than 32 bits", "%" + found.group())
    return constant(wrapped(int(found.group(), 2)))


def _string(scan: Scan) -> Evaluate:
    found = _STRING.match(scan.text, scan.at - 1)
    if found is None:
        raise BasicError("the string has no closing quote", '"')
    scan.at = found.end()
    return constant(found.group(1).replace('""', '"'))


def _parenthesis(scan: Scan) -> Evaluate:
    value = expression(scan)
    scan.need(")")
    return value


def _minus(scan: Scan) -> Evaluate:
    value = factor(scan)
    return lambda basic: op.negative(value(basic))


def _plus(scan: Scan) -> Evaluate:
    value = factor(scan)

    def read(basic: Basic) -> Value:
        found = value(basic)
        return found if isinstance(found, Array) else number_of(found)

    return read


def _not(scan: Scan) -> Evaluate:
    value = factor(scan)
    return lambda basic: ~integer_of(value(basic))


def _indirection(sign: str) -> Callable[[Scan], Evaluate]:
    def reader(scan: Scan) -> Evaluate:
        address = factor(scan)
        return lambda basic: peek(basic, sign, integer_of(address(basic)))

    return reader


def _function_call(scan: Scan) -> Evaluate:
    name, given = routine_call(scan)
    return lambda basic: basic.call_function(name, given)


def routine_call(scan: Scan) -> tuple[str, list[Given]]:
    """The name and arguments behind FN or PROC. An argument is a value and, where it is one, a
    place that RETURN may change."""
    found = _ROUTINE.match(scan.text, scan.at)
    if found is None:
        raise BasicError("a name is wanted behind FN or PROC", scan.word())
    scan.at = found.end()
    given: list[Given] = []
    if scan.text[scan.at] == "(":
        scan.at += 1
        while True:
            given.append(_argument(scan))
            if not scan.take(","):
                break
        scan.need(")")
    return found.group(), given


def _argument(scan: Scan) -> Given:
    start = scan.at
    value = expression(scan)
    if T["FN"] in scan.text[start : scan.at]:
        return value, None  # and nothing is read twice at each level of calls within calls
    again = Scan(scan.text, start)
    try:
        found = place(again)
        again.blank()
        scan.blank()
        return value, found if again.at == scan.at else None
    except BasicError:
        return value, None


FACTORS.update(
    {
        "&": _hexadecimal,
        "%": _binary,
        '"': _string,
        "(": _parenthesis,
        "-": _minus,
        "+": _plus,
        T["NOT"]: _not,
        T["FN"]: _function_call,
        "?": _indirection("?"),
        "!": _indirection("!"),
        "$": _indirection("$"),
        "|": _indirection("|"),
    }
)
