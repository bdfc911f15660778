"""Data, ALIGN and OPT of the assembler, and the table of all its operations."""

from __future__ import annotations

from typing import TYPE_CHECKING, Callable

from ..arm2 import BASIC
from .addresses import moves_with_program
from .operands import COMMENTS
from .tokens import T
from .values import BasicError, string_of

if TYPE_CHECKING:
    from .assembly import Assembly


def number_directive(size: int) -> Callable[[Assembly], None]:
    """EQUB, EQUW or EQUD."""

    def work(assembly: Assembly) -> None:
        start = assembly.basic.at
        value = assembly.basic.evaluate()
        if isinstance(value, str):
            raise BasicError("type mismatch: a number is wanted here; EQUS takes a string", assembly.mnemonic)
        moves = size == 4 and moves_with_program(assembly.basic, start, value)
        assembly.laid.moving[assembly.target()] = moves
        assembly.lay_number(value, size)
        assembly.single()

    return work


def text_directive(assembly: Assembly) -> None:
    """EQUS."""
    value = assembly.basic.evaluate()
    if not isinstance(value, str):
        raise BasicError("type mismatch: a string is wanted here; EQUB takes a number", assembly.mnemonic)
    assembly.lay(string_of(value).encode("latin-1", "replace"))
    assembly.single()


def align(assembly: Assembly) -> None:
    """ALIGN: zeros up to a multiple of 4."""
    basic = assembly.basic
    if not basic.at_end() and basic.text[basic.at] not in (*COMMENTS, T["REM"]):
        raise BasicError("BASIC's ALIGN takes no number", basic.word())
    count = -assembly.here() & 3
    if count:
        assembly.lay(bytes(count))


def option(assembly: Assembly) -> None:
    """OPT: its value may come from an FN that lays bytes of its own."""
    assembly.option = assembly.basic.cut(assembly.basic.evaluate()) & 0xFF
    assembly.fresh = True


DIRECTIVES: dict[str, Callable[[Assembly], None]] = {
    "EQUB": number_directive(1),
    "DCB": number_directive(1),
    "EQUW": number_directive(2),
    "DCW": number_directive(2),
    "EQUD": number_directive(4),
    "DCD": number_directive(4),
    "EQUS": text_directive,
    "DCS": text_directive,
    "ALIGN": align,
    "OPT": option,
}
_OPERATIONS = frozenset(BASIC) | frozenset(DIRECTIVES)
_LONGEST = max(map(len, _OPERATIONS))


def longest(letters: str) -> str:
    """The longest front of some letters that is an operation; empty where there is none."""
    for size in range(min(_LONGEST, len(letters)), 0, -1):
        if letters[:size] in _OPERATIONS:
            return letters[:size]
    return ""
