"""Operands of instructions in ObjAsm's spelling, for the table of the ARM2."""

from __future__ import annotations

from ..arm2 import Operation, Place, encode_immediate
from ..messages import SourceError
from ..swis import near_swi, swi_number
from .areas import Area
from .expressions import Expressions, wanted
from .symbols import REGISTERS, Undefined
from .values import Distance, ImportBase, RegisterBase, Value, kind_of

_SHIFTS = frozenset({"LSL", "ASL", "LSR", "ASR", "ROR", "RRX"})


class Operands(Expressions):
    """The Reader of an instruction's operands."""

    exchanges_multiply = True

    def register(self) -> int:
        """The register that stands next: R0 to R15, a name that RN gave, or a usual one."""
        token = self.next()
        if token.kind == "name":
            name = str(token.value)
            number = self.assembler.symbols.registers.get(name)
            if number is None:
                number = REGISTERS.get(name)
            if number is not None:
                return number
            other = self.assembler.symbols.others.get(name)
            if other:
                raise SourceError(f"a register is wanted, and this is the name of {other}", token.text)
            if name in self.assembler.symbols.known:
                raise SourceError("a register is wanted, and this is a number or an address; RN names "
                                  "registers", token.text)
        raise wanted("a register", token)

    def place_of(self, value: Value, word: str) -> Place:
        """An address as a register and a distance."""
        if isinstance(value, Distance):
            if isinstance(value.base, RegisterBase):
                return Place(value.base.number, value.offset)
            if isinstance(value.base, Area) and value.base is not self.assembler.area:
                self.warn("the address is in another area: ObjAsm refuses this, and the distance "
                          "is right only where the areas are as here")
            return Place(15, self.assembler.address_of(value, word) - self.assembler.address() - 8)
        raise SourceError(f"an address is wanted, and this is {kind_of(value)}; "
                          "write [register,#number]", word)

    def place(self) -> Place:
        start = self.index
        value = self.value()
        return self.place_of(value, self.words_from(start))

    def distance(self) -> int:
        start = self.index
        value = self.value()
        address = self.assembler.address_of(value, self.words_from(start))
        if not 0 <= address < 1 << 26:
            raise SourceError("the target is no address below 2^26", self.words_from(start))
        return address - self.assembler.address() - 8

    def swi(self) -> int:
        """A SWI by expression; names that the source doesn't have are looked up in the table."""
        token = self.peek()
        if token.kind == "text" and len(str(token.value)) != 1:
            self.next()
            number = swi_number(str(token.value))
            if number is None:
                raise SourceError("no SWI of the table has this name; EQU or --bind gives one its number"
                                  + near_swi(str(token.value)), token.text)
            return number
        return SwiExpressions.of(self).number()

    def shift_name(self) -> str | None:
        token = self.peek()
        name = token.text.upper()
        if token.kind == "name" and name in _SHIFTS:
            self.next()
            return name
        return None

    def register_list(self) -> int:
        """`{r0-r3,lr}`, or a name that RLIST gave."""
        token = self.peek()
        if token.kind == "name" and str(token.value) in self.assembler.symbols.lists:
            self.next()
            return self.assembler.symbols.lists[str(token.value)]
        self.need("{")
        registers = 0
        if self.take("}"):
            return 0
        while True:
            first = last = self.register()
            if self.take("-"):
                last = self.register()
            if last < first:
                raise SourceError(f"the range goes down, from R{first} to R{last}")
            more = (2 << last) - (1 << first)
            if registers & more:
                self.warn("a register is in the list twice")
            registers |= more
            if not self.take(","):
                break
        self.need("}")
        return registers

    def literal(self, operation: Operation, register: int) -> int:
        """`LDR r,=value`: MOV or MVN where the number is known and has one, else a pool's word."""
        start = self.index
        tokens = [token for token in self.tokens[start:] if token.kind != "end"]
        name = str(tokens[0].value) if len(tokens) == 1 and tokens[0].kind == "name" else ""
        text = " ".join(token.text for token in tokens)
        try:
            value: Value | None = self.value()
            unknown = None
        except Undefined as error:
            value, unknown = None, error
            self.index = len(self.tokens) - 1
        is_load = operation.bits & 1 << 20 and not operation.bits & 1 << 22
        if not is_load:
            raise SourceError("= goes only with LDR of a word", text)
        if isinstance(value, str):
            value = ord(value) if len(value) == 1 else value
        if isinstance(value, (str, bool)):
            raise SourceError(f"a number or an address is wanted, and this is {kind_of(value)}", text)
        if isinstance(value, Distance) and isinstance(value.base, RegisterBase):
            raise SourceError("an offset from a register is no number", text)
        condition = operation.bits & 15 << 28
        if type(value) is int and not self.assembler.in_pool():
            for code, number in ((13, value), (15, ~value)):
                field = encode_immediate(number)
                if field is not None:
                    return condition | 1 << 25 | code << 21 | register << 12 | field
        offset = self.assembler.pool_word(name, text, value)
        if unknown:
            raise unknown
        if offset is None:
            return 0
        distance = offset - self.assembler.area.here() - 8
        if not -4095 <= distance <= 4095:
            raise SourceError(f"the pool is {abs(distance)} bytes away, and 4095 is the most; "
                              "LTORG lays it nearer", text)
        return (operation.bits | 1 << 24 | (1 << 23 if distance >= 0 else 0) | 15 << 16
                | register << 12 | abs(distance))


class SwiExpressions(Expressions):
    """An expression of a SWI's number, in which names of the table of SWIs count last."""

    @staticmethod
    def of(reader: Expressions) -> "SwiExpressions":
        found = SwiExpressions.__new__(SwiExpressions)
        found.__dict__ = reader.__dict__
        return found

    def of_symbol(self, name: str, word: str) -> Value:
        try:
            return super().of_symbol(name, word)
        except Undefined as error:
            number = swi_number(name)
            if number is None:
                raise Undefined(f"{error.reason}, and no SWI of the table has it; EQU or --bind gives it "
                                f"a number{near_swi(name)}", word) from None
            return number


__all__ = ["ImportBase", "Operands"]
