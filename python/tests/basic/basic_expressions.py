"""Random expressions of BASIC, as text, for a comparison with another BASIC."""

from __future__ import annotations

import random

_NUMBER_FUNCTIONS = ("ABS", "SGN", "INT", "NOT", "-", "+")
_LEVELS = (
    "+",
    "-",
    "*",
    "/",
    "^",
    " DIV ",
    " MOD ",
    " AND ",
    " OR ",
    " EOR ",
    "=",
    "<>",
    "<",
    ">",
    "<=",
    ">=",
    "<<",
    ">>",
    ">>>",
)


def number(dice: random.Random, depth: int) -> str:
    """An expression with a number for its value."""
    if depth <= 0 or dice.random() < 0.15:
        return _simple(dice)
    choice = dice.randrange(12)
    if choice < 6:
        return _binary(dice, depth)
    if choice == 6:
        return f"({number(dice, depth - 1)})"
    if choice == 7:
        return dice.choice(_NUMBER_FUNCTIONS) + factor(dice, depth - 1)
    if choice == 8:
        return f"LEN{text_factor(dice, depth - 1)}"
    if choice == 9:
        return f"INSTR({text(dice, depth - 1)},{text(dice, depth - 1)})"
    if choice == 10:
        return f"ASC{text_factor(dice, depth - 1)}"
    return f"({text(dice, depth - 1)}{dice.choice(('=', '<>', '<', '>', '<=', '>='))}{text(dice, depth - 1)})"


def _binary(dice: random.Random, depth: int) -> str:
    operator = dice.choice(_LEVELS)
    left = number(dice, depth - 1)
    if operator in ("<<", ">>", ">>>"):
        return f"({left}{operator}{dice.randrange(32)})"
    if operator == "^":
        return f"{factor(dice, 0)}^{dice.randrange(4)}"
    if operator in ("=", "<>", "<", ">", "<=", ">="):
        return f"({left}{operator}{factor(dice, depth - 1)})"
    return f"{left}{operator}{number(dice, depth - 1)}"


def factor(dice: random.Random, depth: int) -> str:
    """A number that a function takes without parentheses."""
    return _simple(dice) if depth <= 0 or dice.random() < 0.5 else f"({number(dice, depth)})"


def _simple(dice: random.Random) -> str:
    choice = dice.randrange(6)
    if choice == 0:
        return f"&{dice.randrange(1 << dice.choice((4, 8, 16, 31))):X}"
    if choice == 1:
        return f"%{dice.randrange(1, 256):b}"
    if choice == 2:
        return f"{dice.randrange(1000)}.{dice.choice(('5', '25', '125'))}"
    if choice == 3:
        return dice.choice(("TRUE", "FALSE", "PI", "-1"))
    return str(dice.randrange(1 << dice.choice((2, 4, 8, 16))))


def text(dice: random.Random, depth: int) -> str:
    """An expression with a string for its value."""
    if depth <= 0 or dice.random() < 0.3:
        return _string(dice)
    choice = dice.randrange(7)
    inner = text(dice, depth - 1)
    small = dice.randrange(6)
    if choice == 0:
        return f"{inner}+{text(dice, depth - 1)}"
    if choice == 1:
        return f"LEFT$({inner},{small})"
    if choice == 2:
        return f"RIGHT$({inner},{small})"
    if choice == 3:
        return f"MID$({inner},{small + 1},{dice.randrange(4)})"
    if choice == 4:
        return f"STRING$({small},{_string(dice)})"
    if choice == 5:
        return f"STR$({dice.randrange(-999, 1000)})"
    return f"CHR${dice.randrange(65, 91)}"


def text_factor(dice: random.Random, depth: int) -> str:
    """A string that a function takes."""
    return f"({text(dice, depth)})"


def _string(dice: random.Random) -> str:
    return '"' + "".join(dice.choice("abcAB 12") for _ in range(dice.randrange(5))) + '"'
