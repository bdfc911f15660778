"""The operators of BBC BASIC V, as its Guide has them ("Expressions")."""

from __future__ import annotations

from .values import (
    BasicError,
    Value,
    checked_string,
    from_integer,
    integer_of,
    number_of,
    rounded,
    wrapped,
)
from .variables import Array


def add(x: Value, y: Value) -> Value:
    """Numbers are added, strings joined."""
    if x.__class__ is int and y.__class__ is int:
        return from_integer(x + y)
    if isinstance(x, Array) or isinstance(y, Array):
        return each(add, x, y)
    if isinstance(x, str) and isinstance(y, str):
        return checked_string(x + y)
    return rounded(number_of(x) + number_of(y))


def subtract(x: Value, y: Value) -> Value:
    if x.__class__ is int and y.__class__ is int:
        return from_integer(x - y)
    if isinstance(x, Array) or isinstance(y, Array):
        return each(subtract, x, y)
    return rounded(number_of(x) - number_of(y))


def multiply(x: Value, y: Value) -> Value:
    if x.__class__ is int and y.__class__ is int:
        return from_integer(x * y)
    if isinstance(x, Array) or isinstance(y, Array):
        return each(multiply, x, y)
    return rounded(float(number_of(x)) * number_of(y))


def divide(x: Value, y: Value) -> Value:
    """`/`, whose result is a real."""
    if isinstance(x, Array) or isinstance(y, Array):
        return each(divide, x, y)
    if number_of(y) == 0:
        number_of(x)
        raise BasicError("division by zero", "/")
    return rounded(number_of(x) / y)


def whole_quotient(x: Value, y: Value) -> int:
    """DIV, which cuts towards zero."""
    first, second = integer_of(x), integer_of(y)
    if second == 0:
        raise BasicError("division by zero", "DIV")
    size = abs(first) // abs(second)
    return wrapped(-size if (first < 0) != (second < 0) else size)


def remainder(x: Value, y: Value) -> int:
    """MOD, whose sign is that of what is divided."""
    first, second = integer_of(x), integer_of(y)
    if second == 0:
        raise BasicError("division by zero", "MOD")
    size = abs(first) % abs(second)
    return -size if first < 0 else size


def power(x: Value, y: Value) -> float:
    """`^`, whose result is a real."""
    base, exponent = float(number_of(x)), float(number_of(y))
    try:
        result = base**exponent
    except ZeroDivisionError:
        raise BasicError("division by zero", "^") from None
    except OverflowError:
        raise BasicError("the number is too big", "^") from None
    if isinstance(result, complex):
        raise BasicError("a number below 0 has no power that isn't whole", "^")
    return rounded(result)


def shift_left(x: Value, y: Value) -> int:
    number, count = integer_of(x), integer_of(y)
    return wrapped(number << count) if 0 <= count < 32 else 0


def shift_right(x: Value, y: Value) -> int:
    """`>>`, which keeps the sign."""
    number, count = integer_of(x), integer_of(y)
    return number >> (count if 0 <= count < 32 else 31)


def shift_right_zeros(x: Value, y: Value) -> int:
    """`>>>`, which fills with zeros."""
    number, count = integer_of(x), integer_of(y)
    return wrapped((number & 0xFFFFFFFF) >> count) if 0 <= count < 32 else 0


def conjunction(x: Value, y: Value) -> int:
    return integer_of(x) & integer_of(y)


def disjunction(x: Value, y: Value) -> int:
    return integer_of(x) | integer_of(y)


def exclusive(x: Value, y: Value) -> int:
    return integer_of(x) ^ integer_of(y)


def _pair(x: Value, y: Value) -> None:
    if isinstance(x, Array) or isinstance(y, Array):
        raise BasicError("arrays aren't compared")
    if isinstance(x, str) != isinstance(y, str):
        raise BasicError("type mismatch: a string and a number are compared")


def equal(x: Value, y: Value) -> int:
    _pair(x, y)
    return -1 if x == y else 0


def unequal(x: Value, y: Value) -> int:
    _pair(x, y)
    return -1 if x != y else 0


def less(x: Value, y: Value) -> int:
    _pair(x, y)
    return -1 if x < y else 0


def greater(x: Value, y: Value) -> int:
    _pair(x, y)
    return -1 if x > y else 0


def at_most(x: Value, y: Value) -> int:
    _pair(x, y)
    return -1 if x <= y else 0


def at_least(x: Value, y: Value) -> int:
    _pair(x, y)
    return -1 if x >= y else 0


def negative(x: Value) -> Value:
    """Unary minus, of an array each element."""
    if x.__class__ is int:
        return from_integer(-x)
    if isinstance(x, Array):
        return Array(x.name, x.sizes, [negative(item) for item in x.values])
    return -number_of(x)


def each(operator, x, y) -> Array:
    """An operator on two arrays of one shape, or on an array and a value."""
    if isinstance(x, Array) and isinstance(y, Array):
        if x.sizes != y.sizes:
            raise BasicError("the arrays don't have the same sizes", y.name)
        return Array(x.name, x.sizes, [operator(a, b) for a, b in zip(x.values, y.values)])
    if isinstance(x, Array):
        return Array(x.name, x.sizes, [operator(a, y) for a in x.values])
    return Array(y.name, y.sizes, [operator(x, b) for b in y.values])


def matrix_product(x: Value, y: Value) -> Array:
    """`.`: the product of two matrices, or of a matrix and a vector."""
    if not (isinstance(x, Array) and isinstance(y, Array)):
        raise BasicError("this multiplies arrays alone", ".")
    rows, inner = (x.sizes[0], x.sizes[1]) if len(x.sizes) == 2 else (1, x.sizes[0])
    if len(y.sizes) == 2:
        height, columns = y.sizes
    else:
        height, columns = y.sizes[0], 1
    if len(x.sizes) > 2 or len(y.sizes) > 2 or inner != height:
        raise BasicError("the sizes of the arrays don't fit", ".")
    if rows * columns * inner > 1_000_000:
        raise BasicError("the arrays are too large to be multiplied here", ".")
    values = []
    for row in range(rows):
        for column in range(columns):
            total: Value = 0
            for k in range(inner):
                total = add(total, multiply(x.values[row * inner + k], y.values[k * columns + column]))
            values.append(total)
    both = len(x.sizes) == 2 and len(y.sizes) == 2
    sizes = (rows, columns) if both else (max(rows, columns),)
    return Array(x.name, sizes, values)
