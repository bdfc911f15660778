"""Words of the ARM2's instructions, from operands that a dialect's Reader reads.

This module knows no dialect: it asks for registers, numbers and signs in the order in which the
data sheet has them ("Assembler syntax" of each instruction), and makes the words.
"""

from __future__ import annotations

from typing import NamedTuple, Protocol

from .messages import SourceError
from .mnemonics import BASIC, CONDITIONS, OBJASM, Form, Operation, why_not

__all__ = ["BASIC", "CONDITIONS", "OBJASM", "Form", "Operation", "Place", "Reader", "assemble",
           "encode_immediate", "fault_of", "why_not"]

SHIFTS = {"LSL": 0, "ASL": 0, "LSR": 1, "ASR": 2, "ROR": 3}
WORD = 0xFFFFFFFF

# The operation that does the same with the other number, and how the number turns.
_INVERTED = {13: 15, 15: 13, 0: 14, 14: 0, 5: 6, 6: 5}
_NEGATED = {4: 2, 2: 4, 10: 11, 11: 10}


class Place(NamedTuple):
    """An address as a base register and a distance; the PC's is the instruction's address + 8."""

    register: int
    distance: int


class Reader(Protocol):
    """What a dialect reads for the operand grammar. Each raises SourceError where it can't."""

    exchanges_multiply: bool  # MUL r0,r0,r1 is laid as MUL r0,r1,r0

    def register(self) -> int:
        """The register that stands next."""

    def number(self) -> int:
        """The expression that stands next, of which the low 32 bits count."""

    def place(self) -> Place:
        """The address that stands next, for LDR, STR and ADR."""

    def distance(self) -> int:
        """For a branch: the target that stands next less this instruction's address and 8."""

    def swi(self) -> int:
        """The number of a SWI, by name or expression."""

    def shift_name(self) -> str | None:
        """A shift's name (LSL, ASL, LSR, ASR, ROR, RRX), or None, and nothing is read."""

    def register_list(self) -> int:
        """The list in braces that stands next, as 16 bits."""

    def literal(self, operation: Operation, register: int) -> int:
        """The word of LDR after `=` was taken: MOV, MVN or a load from a pool."""

    def take(self, sign: str) -> bool:
        """Whether the sign stands next; then it is read."""

    def need(self, sign: str) -> None:
        """Reads the sign that must stand next."""

    def end(self) -> None:
        """Raises where anything is left of the statement."""

    def warn(self, reason: str) -> None:
        """Warns of this statement."""


def encode_immediate(value: int) -> int | None:
    """A number as a byte and its rotation, the least that gives it, or None."""
    value &= WORD
    for turn in range(16):
        byte = (value << 2 * turn | value >> 32 - 2 * turn) & WORD
        if byte < 256:
            return turn << 8 | byte
    return None


def signed(value: int) -> int:
    """The low 32 bits as a number with a sign."""
    value &= WORD
    return value - (1 << 32) if value >> 31 else value


def hexadecimal(value: int) -> str:
    """A number for a message."""
    return f"&{value & WORD:X}"


def assemble(operation: Operation, reader: Reader) -> list[int]:
    """The words of one statement, whose operands the reader has before it."""
    words = _FORMS[operation.form](operation, reader)
    reader.end()
    for word in words:
        fault = fault_of(word)
        if fault:
            reader.warn(f"the machine stops at this instruction with {fault}")
    return words


def data(operation: Operation, reader: Reader) -> list[int]:
    """ADD Rd,Rn,op2, or ADD Rd,op2 where Rn is Rd."""
    target = reader.register()
    reader.need(",")
    if reader.take("#"):
        return [number_operand(operation.bits | target << 16 | target << 12, reader)]
    first = reader.register()
    if not reader.take(","):
        return [operation.bits | target << 16 | target << 12 | first]
    shift = reader.shift_name()
    if shift:
        return [operation.bits | target << 16 | target << 12 | shifted(first, shift, reader)]
    return [second_operand(operation.bits | first << 16 | target << 12, reader)]


def move(operation: Operation, reader: Reader) -> list[int]:
    """MOV Rd,op2."""
    target = reader.register()
    reader.need(",")
    return [second_operand(operation.bits | target << 12, reader)]


def test(operation: Operation, reader: Reader) -> list[int]:
    """CMP Rn,op2."""
    first = reader.register()
    reader.need(",")
    return [second_operand(operation.bits | first << 16, reader)]


def second_operand(word: int, reader: Reader) -> int:
    """The word with its last operand: a number, or a register that is shifted."""
    if reader.take("#"):
        return number_operand(word, reader)
    register = reader.register()
    if not reader.take(","):
        return word | register
    shift = reader.shift_name()
    if shift is None:
        raise SourceError("a shift is wanted behind this comma: LSL, LSR, ASR, ROR or RRX")
    return word | shifted(register, shift, reader)


def number_operand(word: int, reader: Reader) -> int:
    """The word with the number behind `#`, turned into the opposite operation where needed."""
    value = reader.number()
    if reader.take(","):
        return word | 1 << 25 | written_rotation(value, reader.number())
    code = word >> 21 & 15
    field = encode_immediate(value)
    if field is not None:
        return word | 1 << 25 | field
    for codes, turned in ((_INVERTED, ~value), (_NEGATED, -value)):
        field = encode_immediate(turned)
        if code in codes and field is not None:
            return word & ~(15 << 21) | codes[code] << 21 | 1 << 25 | field
    raise SourceError(f"no instruction has the number {hexadecimal(value)}: "
                      "it is no byte rotated by an even number of bits")


def written_rotation(byte: int, turn: int) -> int:
    """A byte and a rotation as they are written."""
    if not 0 <= byte & WORD <= 255:
        raise SourceError(f"the number before a rotation is a byte, 0 to 255, and not {signed(byte)}")
    if turn & 1 or not 0 <= turn <= 30:
        raise SourceError(f"a rotation is an even number from 0 to 30, and not {signed(turn)}")
    return turn << 7 | byte & 255


def shifted(register: int, shift: str, reader: Reader) -> int:
    """The bits of a register that is shifted by a number or a register."""
    if shift == "RRX":
        return 3 << 5 | register
    kind = SHIFTS[shift]
    if not reader.take("#"):
        return reader.register() << 8 | kind << 5 | 1 << 4 | register
    return shift_bits(signed(reader.number()), shift, reader) | register


def shift_bits(amount: int, shift: str, reader: Reader) -> int:
    """The bits of a shift by a number."""
    kind = SHIFTS[shift]
    last = 32 if kind in (1, 2) else 31
    if amount == 0:
        if kind:
            reader.warn(f"{shift} #0 is laid as LSL #0")
        return 0
    if not 0 < amount <= last:
        raise SourceError(f"{shift} is by 0 to {last}, and not by {amount}")
    return (amount & 31) << 7 | kind << 5


def multiply(operation: Operation, reader: Reader) -> list[int]:
    """MUL Rd,Rm,Rs and MLA Rd,Rm,Rs,Rn."""
    target = reader.register()
    reader.need(",")
    first = reader.register()
    reader.need(",")
    second = reader.register()
    added = 0
    if operation.form is Form.MULTIPLY_ADD:
        reader.need(",")
        added = reader.register()
    if target == first != second and reader.exchanges_multiply:
        first, second = second, first
        reader.warn("the first two registers may not be one: the factors are laid exchanged")
    return [operation.bits | target << 16 | added << 12 | second << 8 | first]


def transfer(operation: Operation, reader: Reader) -> list[int]:
    """LDR and STR of an address in brackets, of a place, or LDR of a number behind `=`."""
    register = reader.register()
    reader.need(",")
    if reader.take("["):
        return [bracketed(operation, operation.bits | register << 12, reader)]
    if operation.user:
        raise SourceError("T goes only with an offset behind the bracket, as in [r1],#4")
    if reader.take("="):
        return [reader.literal(operation, register)]
    return [at_place(operation.bits | register << 12, reader.place())]


def at_place(word: int, place: Place) -> int:
    """The word of a transfer at a distance from a register."""
    distance = signed(place.distance)
    if not -4095 <= distance <= 4095:
        raise SourceError(f"the place is {abs(distance)} bytes away, and 4095 is the most")
    up = 0 if distance < 0 else 1 << 23
    return word | 1 << 24 | up | place.register << 16 | abs(distance)


def bracketed(operation: Operation, word: int, reader: Reader) -> int:
    """The word of a transfer whose `[` was read."""
    word |= reader.register() << 16
    if reader.take("]"):
        if reader.take(","):
            return offset(word, reader) | (1 << 21 if operation.user else 0)
        if reader.take("!"):
            word |= 1 << 21
        elif operation.user:
            return word | 1 << 23 | 1 << 21
        word |= 1 << 24 | 1 << 23
    else:
        reader.need(",")
        word = offset(word, reader) | 1 << 24
        reader.need("]")
        word |= 1 << 21 if reader.take("!") else 0
    if operation.user:
        raise SourceError("T goes only with an offset behind the bracket, as in [r1],#4")
    return word


def offset(word: int, reader: Reader) -> int:
    """The word with the offset that stands next: a number or a register that is shifted."""
    if reader.take("#"):
        value = signed(reader.number())
        if not -4095 <= value <= 4095:
            raise SourceError(f"an offset is -4095 to 4095, and not {value}")
        return word | (0 if value < 0 else 1 << 23) | abs(value)
    up = 0 if reader.take("-") else 1 << 23
    if up:
        reader.take("+")
    register = reader.register()
    word |= 1 << 25 | up | register
    if reader.take(","):
        word |= offset_shift(reader)
    return word


def offset_shift(reader: Reader) -> int:
    """The shift of an offset, which is by a number."""
    shift = reader.shift_name()
    if shift is None:
        raise SourceError("a shift is wanted behind this comma: LSL, LSR, ASR, ROR or RRX")
    if shift == "RRX":
        return 3 << 5
    if not reader.take("#"):
        raise SourceError("the offset of LDR and STR is shifted by a number, and not by a register")
    return shift_bits(signed(reader.number()), shift, reader)


def block(operation: Operation, reader: Reader) -> list[int]:
    """LDM and STM."""
    word = operation.bits | reader.register() << 16
    if reader.take("!"):
        word |= 1 << 21
    reader.need(",")
    registers = reader.register_list()
    if not registers:
        raise SourceError("the list has no register")
    word |= registers
    return [word | 1 << 22 if reader.take("^") else word]


def branch(operation: Operation, reader: Reader) -> list[int]:
    """B and BL, whose distances count modulo 2^26."""
    distance = signed(reader.distance())
    if distance & 3:
        raise SourceError("a branch goes to a multiple of 4")
    if not -(1 << 26) < distance < 1 << 26:
        raise SourceError("the target is no address below 2^26")
    return [operation.bits | distance >> 2 & 0xFFFFFF]


def swi(operation: Operation, reader: Reader) -> list[int]:
    """SWI."""
    number = reader.swi()
    if not 0 <= number & WORD <= 0xFFFFFF:
        raise SourceError(f"a SWI's number is 0 to &FFFFFF, and not {hexadecimal(number)}")
    return [operation.bits | number & 0xFFFFFF]


def address(operation: Operation, reader: Reader) -> list[int]:
    """ADR: ADD or SUB of a register and a number."""
    register = reader.register()
    reader.need(",")
    place = reader.place()
    up, down = encode_immediate(place.distance), encode_immediate(-place.distance)
    word = operation.bits | 1 << 25 | place.register << 16 | register << 12
    if up is not None:
        return [word | 4 << 21 | up]
    if down is not None:
        return [word | 2 << 21 | down]
    raise SourceError(f"no single instruction has the distance {signed(place.distance)}; ADRL may")


def long_address(operation: Operation, reader: Reader) -> list[int]:
    """ADRL: two words always, of which the second has the low eight bits of the distance."""
    register = reader.register()
    reader.need(",")
    place = reader.place()
    distance = signed(place.distance)
    code = 4 if distance >= 0 else 2
    low, high = low_byte(abs(distance))
    field = encode_immediate(high)
    if field is None:
        raise SourceError(f"two instructions don't have the distance {distance}")
    word = operation.bits | 1 << 25 | code << 21 | register << 12
    second = encode_immediate(low)
    assert second is not None  # eight bits from an even place
    return [word | place.register << 16 | field, word | register << 16 | second]


def low_byte(size: int) -> tuple[int, int]:
    """A number as its eight bits from the lowest that is set, at an even place, and the rest."""
    if size == 0:
        return 0, 0
    place = (size & -size).bit_length() - 1 & ~1
    low = size & 255 << place
    return low, size - low


def nothing(operation: Operation, reader: Reader) -> list[int]:
    """NOP: MOV R0,R0."""
    return [operation.bits]


_FORMS = {Form.DATA: data, Form.MOVE: move, Form.TEST: test, Form.MULTIPLY: multiply,
          Form.MULTIPLY_ADD: multiply, Form.TRANSFER: transfer, Form.BLOCK: block,
          Form.BRANCH: branch, Form.SWI: swi, Form.ADR: address, Form.ADRL: long_address,
          Form.NOP: nothing}


def fault_of(word: int) -> str | None:
    """The fault with which the machine stops at a word that this module made, if it does."""
    rd, rn, rs, rm = word >> 12 & 15, word >> 16 & 15, word >> 8 & 15, word & 15
    if word & 0x0FC000F0 == 0x90:
        if 15 in (rn, rm, rs) or (word >> 21 & 1 and rd == 15):
            return "PcOperand"
        return "MultiplySame" if rn == rm else None
    if word & 0x0E000090 == 0x10 and rs == 15:
        return "PcOperand"
    if word >> 26 & 3 == 1:
        return transfer_fault(word, rn, rd, rm)
    if word >> 25 & 7 == 4:
        if rn == 15:
            return "PcOperand"
        loads_pc = word >> 20 & 1 and word >> 15 & 1
        return "UserBankWriteback" if word >> 21 & 3 == 3 and not loads_pc else None
    return None


def transfer_fault(word: int, base: int, register: int, index: int) -> str | None:
    """The fault of LDR and STR."""
    writes = word >> 21 & 1 or not word >> 24 & 1
    if (word >> 25 & 1 and index == 15) or (base == 15 and writes):
        return "PcOperand"
    return "PcOperand" if word >> 22 & 1 and register == 15 else None
