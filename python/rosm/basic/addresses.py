"""Which words hold an address of the program itself, so that they are right at its origin alone."""

from __future__ import annotations

from typing import TYPE_CHECKING

from .expressions import NAME
from .tokens import T
from .values import BasicError, Value

if TYPE_CHECKING:
    from .interpreter import Basic

_SHIFT = 0x1000  # by how much the program would stand elsewhere


def moves_with_program(basic: Basic, start: int, value: Value) -> bool:
    """Whether the expression that was read from `start` up to here would be so much more if labels,
    P% and blocks of DIM stood so much higher. One that calls an FN isn't worked out again."""
    text = basic.text[start : basic.at]
    if T["FN"] in text or T["EVAL"] in text or '"' in text:
        return False
    variables = basic.variables
    names = {found.group() for found in NAME.finditer(text)}
    kept = {name: variables[name] for name in names if name in variables and is_address(basic, name)}
    if not kept:
        return False
    try:
        for name, address in kept.items():
            variables[name] = address + _SHIFT
        return basic.line.values[start][0](basic) == value + _SHIFT
    except BasicError:
        return False
    finally:
        variables.update(kept)


def is_address(basic: Basic, name: str) -> bool:
    """Whether a variable is P%, a label, or where DIM has a block."""
    if name == "P%" or name in basic.assembly.laid.names:
        return True
    return basic.variables[name] in basic.memory.starts
