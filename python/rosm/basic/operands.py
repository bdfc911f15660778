"""Operands of instructions as BASIC's assembler reads them: a Reader for the ARM2's grammar.

A register is R0 to R15, PC, SP or LR in either case, or else a factor and never an expression, so
that `{a-b}` is a range. A number is an expression. An address is one too, from which P% + 8 is
taken.
"""

from __future__ import annotations

import re
from typing import TYPE_CHECKING

from .. import swis
from ..arm2 import Operation, Place
from .expressions import END, NAME, Scan, factor
from .values import BasicError, Value, integer_of

if TYPE_CHECKING:
    from .interpreter import Basic

_REGISTER = re.compile(r"(?:R(1[0-5]|[0-9])|(PC)|(LR)|(SP))(?![A-Za-z0-9_`%$(])", re.IGNORECASE)
_SHIFT = re.compile(r"LSL|ASL|LSR|ASR|ROR|RRX|lsl|asl|lsr|asr|ror|rrx")
_WRITE_BACK = re.compile(r"[A-Za-z_`][A-Za-z0-9_`]*%?! *(?:,|\]|:|;|\\|\n)")
COMMENTS = (";", "\\")


class Operands:
    """Reads operands at the place where the program stands."""

    exchanges_multiply = False

    def __init__(self, basic: Basic) -> None:
        self.basic = basic
        self.address = 0  # of the instruction

    def register(self) -> int:
        basic = self.basic
        basic.blank()
        start = basic.at
        known = basic.line.operands.get(start)
        if known is None:
            found = _REGISTER.match(basic.text, start)
            if found is None:
                return self._register_factor()
            number, pc, lr, _ = found.groups()
            which = int(number) if number else 15 if pc else 14 if lr else 13
            known = basic.line.operands[start] = (which, found.end(), found.group())
        elif len(known) == 2:
            return self._register_factor()
        which, basic.at, name = known
        if name in basic.variables and basic.variables[name] != which:
            basic.warn(f"this is the register R{which}, and not the variable of its name", name)
        return which

    def _register_factor(self) -> int:
        """A register by a variable or an expression in parentheses."""
        basic = self.basic
        start = basic.at
        if _WRITE_BACK.match(basic.text, start):
            word = basic.word()
            raise BasicError(f"BASIC reads `{word}!` as a word in memory; write ({word})!", word + "!")
        missing = basic.assembly.missing
        value = integer_of(self._factor())
        if basic.assembly.missing != missing:
            return 0  # a name that the first pass doesn't know
        if not 0 <= value <= 15:
            raise BasicError(f"no register has the number {value}", Scan(basic.text, start).word())
        return value

    def _factor(self) -> Value:
        basic = self.basic
        known = basic.line.operands.get(basic.at)
        if known is None:
            scan = Scan(basic.text, basic.at)
            start = basic.at
            known = (factor(scan), scan.at)
            basic.line.operands[start] = known
        basic.at = known[1]
        return known[0](basic)

    def number(self) -> int:
        return self.basic.integer()

    def place(self) -> Place:
        return Place(15, self.basic.integer() - self.address - 8)

    def distance(self) -> int:
        return self.basic.integer() - self.address - 8

    def swi(self) -> int:
        basic = self.basic
        value = basic.evaluate()
        if not isinstance(value, str):
            return basic.cut(value)
        number = swis.swi_number(value)
        if number is None:
            raise BasicError("no SWI of this name is known; give its number", f'"{value}"')
        return number

    def shift_name(self) -> str | None:
        basic = self.basic
        basic.blank()
        found = _SHIFT.match(basic.text, basic.at)
        if found is None:
            return None
        whole = NAME.match(basic.text, basic.at).group()
        if whole != found.group() and whole in basic.variables:
            return None
        basic.at = found.end()
        return found.group().upper()

    def register_list(self) -> int:
        basic = self.basic
        basic.need("{")
        bits = 0
        while True:
            first = last = self.register()
            if basic.take("-"):
                last = self.register()
            if last < first:
                raise BasicError(f"the range goes from R{first} down to R{last}", "-")
            bits |= (1 << last + 1) - (1 << first)
            if not basic.take(","):
                break
        basic.need("}")
        return bits

    def literal(self, operation: Operation, register: int) -> int:
        raise BasicError("BASIC's assembler has no pools of words; use EQUD and its label", "=")

    def take(self, sign: str) -> bool:
        return self.basic.take(sign)

    def need(self, sign: str) -> None:
        self.basic.need(sign)

    def end(self) -> None:
        basic = self.basic
        if basic.blank() not in (":", END, *COMMENTS) and not basic.word() == "REM":
            raise BasicError("this isn't understood behind the operands", basic.word())

    def warn(self, reason: str) -> None:
        self.basic.warn(reason, self.basic.assembly.mnemonic)
