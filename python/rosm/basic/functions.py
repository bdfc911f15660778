"""The functions of BBC BASIC V, as its Guide has them ("Keywords"). Most take a factor.

What only a machine can answer, as GET or ADVAL, stops the program with a message.
"""

from __future__ import annotations

import math
from typing import TYPE_CHECKING, Callable

from .expressions import FACTORS, Evaluate, Scan, constant, expression, factor
from .tokens import T
from .values import (
    BasicError,
    Value,
    checked_string,
    fixed_text,
    hexadecimal,
    integer_of,
    number_of,
    rounded,
    string_of,
    text_of,
    value_of,
    wrapped,
)
from .variables import Array

if TYPE_CHECKING:
    from .interpreter import Basic


def _real(name: str, work: Callable[[float], float]) -> None:
    def reader(scan: Scan) -> Evaluate:
        given = factor(scan)

        def read(basic: Basic) -> Value:
            value = number_of(given(basic))
            try:
                return rounded(work(value))
            except (ValueError, ZeroDivisionError):
                raise BasicError(f"it has no value for {text_of(value)}", name) from None
            except OverflowError:
                raise BasicError("the number is too big", name) from None

        return read

    FACTORS[T[name]] = reader


for _name, _work in (
    ("ACS", math.acos),
    ("ASN", math.asin),
    ("ATN", math.atan),
    ("COS", math.cos),
    ("SIN", math.sin),
    ("TAN", math.tan),
    ("DEG", math.degrees),
    ("RAD", math.radians),
    ("EXP", math.exp),
    ("LN", math.log),
    ("LOG", math.log10),
    ("SQR", math.sqrt),
):
    _real(_name, _work)


def _simple(name: str, work: Callable[["Basic", Value], Value]) -> None:
    def reader(scan: Scan) -> Evaluate:
        given = factor(scan)
        return lambda basic: work(basic, given(basic))

    FACTORS[T[name]] = reader


def _abs(basic: Basic, value: Value) -> Value:
    size = abs(number_of(value))
    return float(size) if size == 0x80000000 else size


def _asc(basic: Basic, value: Value) -> int:
    text = string_of(value)
    return ord(text[0]) & 255 if text else -1


def _int(basic: Basic, value: Value) -> Value:
    if isinstance(number_of(value), int):
        return value
    basic.near(value, "INT")
    whole = math.floor(value)
    return whole if -0x80000000 <= whole <= 0x7FFFFFFF else float(whole)


def _sgn(basic: Basic, value: Value) -> int:
    number = number_of(value)
    return (number > 0) - (number < 0)


def _eval(basic: Basic, value: Value) -> Value:
    return basic.evaluate_text(string_of(value))


_simple("ABS", _abs)
_simple("ASC", _asc)
_simple("INT", _int)
_simple("SGN", _sgn)
_simple("LEN", lambda basic, value: len(string_of(value)))
_simple("VAL", lambda basic, value: value_of(string_of(value)))
_simple("CHR$", lambda basic, value: chr(basic.cut(value) & 255))
_simple("EVAL", _eval)
_simple("OPENIN", lambda basic, value: basic.filing.open_input(string_of(value), "OPENIN"))
_simple("OPENUP", lambda basic, value: basic.filing.open_input(string_of(value), "OPENUP"))
_simple("OPENOUT", lambda basic, value: basic.filing.open_output(string_of(value)))


def _str(scan: Scan) -> Evaluate:
    hexa = scan.take("~")
    given = factor(scan)

    def read(basic: Basic) -> str:
        value = number_of(given(basic))
        if hexa:
            return hexadecimal(value)
        layout = integer_of(basic.variables["@%"])
        if layout >> 24 & 255:
            return fixed_text(value, layout)
        if text_of(value) != text_of(value, 9):
            basic.warn(f"this number has more than nine figures: it is taken as {text_of(value)}", "STR$")
        return text_of(value)

    return read


def _comma_list(scan: Scan, least: int, most: int, name: str) -> list[Evaluate]:
    found = [expression(scan)]
    while scan.take(","):
        found.append(expression(scan))
    scan.need(")")
    if not least <= len(found) <= most:
        raise BasicError(f"it takes {least} to {most} values, and not {len(found)}", name)
    return found


def _left(scan: Scan) -> Evaluate:
    given = _comma_list(scan, 1, 2, "LEFT$(")

    def read(basic: Basic) -> str:
        text = string_of(given[0](basic))
        if len(given) == 1:
            return text[:-1]
        count = basic.cut(given[1](basic))
        return text if count < 0 else text[:count]

    return read


def _right(scan: Scan) -> Evaluate:
    given = _comma_list(scan, 1, 2, "RIGHT$(")

    def read(basic: Basic) -> str:
        text = string_of(given[0](basic))
        count = 1 if len(given) == 1 else basic.cut(given[1](basic))
        return text[max(0, len(text) - count) :] if count > 0 else ""

    return read


def _middle(scan: Scan) -> Evaluate:
    given = _comma_list(scan, 2, 3, "MID$(")

    def read(basic: Basic) -> str:
        text = string_of(given[0](basic))
        start = max(basic.cut(given[1](basic)), 1) - 1
        count = basic.cut(given[2](basic)) if len(given) == 3 else -1
        return text[start:] if count < 0 else text[start : start + count]

    return read


def _repeated(scan: Scan) -> Evaluate:
    given = _comma_list(scan, 2, 2, "STRING$(")

    def read(basic: Basic) -> str:
        count, text = basic.cut(given[0](basic)), string_of(given[1](basic))
        if count > 0 and len(text) * count > 255:
            raise BasicError(
                f"the string is too long: {len(text) * count} bytes, and 255 are the most", "STRING$("
            )
        return checked_string(text * max(count, 0))

    return read


def _search(scan: Scan) -> Evaluate:
    given = _comma_list(scan, 2, 3, "INSTR(")

    def read(basic: Basic) -> int:
        text, part = string_of(given[0](basic)), string_of(given[1](basic))
        start = max(basic.cut(given[2](basic)), 1) if len(given) == 3 else 1
        return text.find(part, start - 1) + 1 if start <= len(text) + 1 else 0

    return read


def _array(scan: Scan, name: str) -> Evaluate:
    given = factor(scan)

    def read(basic: Basic) -> Array:
        found = given(basic)
        if not isinstance(found, Array):
            raise BasicError("an array, as a(), is wanted behind this", name)
        return found

    return read


def _dim(scan: Scan) -> Evaluate:
    """DIM(a()) counts the dimensions; DIM(a(),n) is the top of the n-th."""
    scan.need("(")
    array = _array(scan, "DIM")
    which = expression(scan) if scan.take(",") else None
    scan.need(")")

    def read(basic: Basic) -> int:
        sizes = array(basic).sizes
        if which is None:
            return len(sizes)
        number = basic.cut(which(basic))
        if not 1 <= number <= len(sizes):
            raise BasicError(f"the array has no dimension {number}", "DIM")
        return sizes[number - 1] - 1

    return read


def _sum(scan: Scan) -> Evaluate:
    """SUM a() adds the elements, or joins strings; SUMLEN a$() adds their lengths."""
    length = scan.take(T["LEN"])
    array = _array(scan, "SUM")

    def read(basic: Basic) -> Value:
        values = array(basic).values
        if length:
            return sum(len(string_of(value)) for value in values)
        if isinstance(values[0], str):
            return checked_string("".join(values))
        total = sum(values)
        return total if -0x80000000 <= total <= 0x7FFFFFFF and isinstance(total, int) else rounded(total)

    return read


def _modulus(scan: Scan) -> Evaluate:
    """MOD a(): the root of the sum of the squares."""
    array = _array(scan, "MOD")
    return lambda basic: rounded(math.sqrt(sum(number_of(item) ** 2 for item in array(basic).values)))


def _top(scan: Scan) -> Evaluate:
    """TO is no value, but TOP is: the end of the program."""
    if scan.text[scan.at] != "P":
        raise BasicError("this keyword isn't a value", "TO")
    scan.at += 1
    return _machine("TOP", "where the program ends on a machine isn't known here")(scan)


def _time(scan: Scan) -> Evaluate:
    if scan.text[scan.at] == "$":
        scan.at += 1
        return lambda basic: basic.time_text()
    return lambda basic: basic.time()


def _report(scan: Scan) -> Evaluate:
    if scan.text[scan.at] != "$":
        raise BasicError("this keyword isn't a value", "REPORT")
    scan.at += 1
    return constant("")


def _machine(name: str, reason: str) -> Callable[[Scan], Evaluate]:
    """A function that stops the program; its values are read where it has any."""

    def reader(scan: Scan) -> Evaluate:
        def read(basic: Basic) -> Value:
            basic.machine_wanted(reason, name)

        return read

    return reader


def _machine_with(name: str, reason: str, parenthesis: bool = False) -> None:
    stop = _machine(name, reason)

    def reader(scan: Scan) -> Evaluate:
        if parenthesis:
            _comma_list(scan, 1, 2, name)
        else:
            factor(scan)
        return stop(scan)

    FACTORS[T[name]] = reader


def _random(scan: Scan) -> Evaluate:
    """RND, RND(n): other numbers at each run, so bytes that depend on them aren't the program's."""
    if scan.text[scan.at] == "(":
        scan.at += 1
        expression(scan)
        scan.need(")")
    return _machine("RND", "random numbers differ at each run")(scan)


def _get_text(scan: Scan) -> Evaluate:
    if scan.take("#"):
        handle = factor(scan)
        return lambda basic: basic.filing.get_line(integer_of(handle(basic)))
    return _machine("GET$", "somebody at a machine would press a key")(scan)


def _of_file(name: str, work: Callable[["Basic", int], int]) -> None:
    def reader(scan: Scan) -> Evaluate:
        scan.need("#")
        handle = factor(scan)
        return lambda basic: work(basic, integer_of(handle(basic)))

    FACTORS[T[name]] = reader


_of_file("BGET", lambda basic, handle: basic.filing.get_byte(handle))
_of_file("EOF", lambda basic, handle: -1 if basic.filing.at_end(handle) else 0)
_of_file("EXT", lambda basic, handle: basic.filing.extent(handle))
_of_file("PTR", lambda basic, handle: basic.filing.pointer(handle))

for _name, _reason in (
    ("ADVAL", "a machine's ports would answer this"),
    ("INKEY", "somebody at a machine would press a key"),
    ("INKEY$", "somebody at a machine would press a key"),
    ("USR", "code is called, and a machine would answer"),
):
    _machine_with(_name, _reason)
_machine_with("POINT(", "a machine's screen would answer this", parenthesis=True)
for _name, _reason in (
    ("GET", "somebody at a machine would press a key"),
    ("POS", "a machine's screen would answer this"),
    ("VPOS", "a machine's screen would answer this"),
    ("COUNT", "a machine's screen would answer this"),
    ("BEAT", "a machine's sound would answer this"),
    ("MODE", "a machine's screen would answer this"),
    ("WIDTH", "a machine's screen would answer this"),
    ("PAGE", "where the program begins on a machine isn't known here"),
    ("QUIT", "how BASIC was started isn't known here"),
):
    FACTORS[T[_name]] = _machine(_name, _reason)


def _tint(scan: Scan) -> Evaluate:
    scan.need("(")
    _comma_list(scan, 1, 2, "TINT")
    return _machine("TINT", "a machine's screen would answer this")(scan)


FACTORS.update(
    {
        T["STR$"]: _str,
        T["LEFT$("]: _left,
        T["RIGHT$("]: _right,
        T["MID$("]: _middle,
        T["STRING$("]: _repeated,
        T["INSTR("]: _search,
        T["DIM"]: _dim,
        T["SUM"]: _sum,
        T["MOD"]: _modulus,
        T["TO"]: _top,
        T["TIME"]: _time,
        T["REPORT"]: _report,
        T["RND"]: _random,
        T["GET$"]: _get_text,
        T["TINT"]: _tint,
        T["PI"]: lambda scan: constant(rounded(math.pi)),
        T["TRUE"]: lambda scan: constant(-1),
        T["FALSE"]: lambda scan: constant(0),
        T["ERR"]: lambda scan: constant(0),
        T["ERL"]: lambda scan: constant(0),
        T["END"]: lambda scan: lambda basic: basic.memory.top,
        T["HIMEM"]: lambda scan: lambda basic: wrapped(basic.memory.himem),
        T["LOMEM"]: lambda scan: lambda basic: basic.memory.heap,
    }
)
