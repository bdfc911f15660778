"""All spellings of the ARM2's instructions: one table for ObjAsm, one for BASIC.

A spelling is an operation, a condition and an ending (S, P, B, T, a mode). The tables are made
when the module is read, and no spelling may mean two things: that is checked as they are made.
"""

from __future__ import annotations

from dataclasses import dataclass
from enum import Enum

CONDITIONS = ("EQ", "NE", "CS", "CC", "MI", "PL", "VS", "VC",
              "HI", "LS", "GE", "LT", "GT", "LE", "AL", "NV")
CONDITION_CODES = {name: code for code, name in enumerate(CONDITIONS)} | {"HS": 2, "LO": 3, "": 14}

DATA_CODES = {"AND": 0, "EOR": 1, "SUB": 2, "RSB": 3, "ADD": 4, "ADC": 5, "SBC": 6, "RSC": 7,
              "ORR": 12, "BIC": 14}
TEST_CODES = {"TST": 8, "TEQ": 9, "CMP": 10, "CMN": 11}
MOVE_CODES = {"MOV": 13, "MVN": 15}

# The bits P (before) and U (up) of a transfer of many registers, by its mode.
MODES = {"IA": 1, "IB": 3, "DA": 0, "DB": 2}
LOAD_STACKS = {"FD": "IA", "FA": "DA", "ED": "IB", "EA": "DB"}
STORE_STACKS = {"FD": "DB", "FA": "IB", "ED": "DA", "EA": "IA"}

S_BIT, P_FIELD = 1 << 20, 15 << 12


class Form(Enum):
    """Which operands an operation takes."""

    DATA = "data"
    MOVE = "move"
    TEST = "test"
    MULTIPLY = "multiply"
    MULTIPLY_ADD = "multiply and add"
    TRANSFER = "transfer"
    BLOCK = "block"
    BRANCH = "branch"
    SWI = "swi"
    ADR = "adr"
    ADRL = "adrl"
    NOP = "nop"


@dataclass(frozen=True)
class Operation:
    """What a spelling means: its form, the operation's name, and the bits that it sets."""

    form: Form
    name: str
    bits: int
    user: bool = False  # T: as if in user mode


class Table(dict[str, Operation]):
    """Spellings in capitals. A spelling that means two things is a mistake in this module."""

    def add(self, spelling: str, operation: Operation) -> None:
        known = self.setdefault(spelling, operation)
        assert known == operation, f"{spelling} means two things: {known} and {operation}"


def condition_and(front: str, ending: str, both_orders: bool) -> list[tuple[str, int]]:
    """The spellings of an operation with an ending, each with its condition's code."""
    spellings = []
    for condition, code in CONDITION_CODES.items():
        spellings.append((front + condition + ending, code))
        if both_orders:
            spellings.append((front + ending + condition, code))
    return spellings


def add_forms(table: Table, front: str, endings: list[tuple[str, int]], form: Form, bits: int,
              both_orders: bool, user: bool = False) -> None:
    """Adds an operation with each of its endings and each condition."""
    for ending, more in endings:
        for spelling, code in condition_and(front, ending, both_orders):
            table.add(spelling, Operation(form, front, code << 28 | bits | more, user))


def data_processing(table: Table, both_orders: bool) -> None:
    """The sixteen operations, and the multiplications."""
    flags = [("", 0), ("S", S_BIT)]
    for name, code in DATA_CODES.items():
        add_forms(table, name, flags, Form.DATA, code << 21, both_orders)
    for name, code in MOVE_CODES.items():
        add_forms(table, name, flags, Form.MOVE, code << 21, both_orders)
    for name, code in TEST_CODES.items():
        bits = code << 21 | S_BIT
        add_forms(table, name, [("", 0), ("S", 0)], Form.TEST, bits, both_orders)
        for spelling, condition in condition_and(name, "P", both_orders):
            # TSTPLS is TST, PL and S, and not TSTP and LS.
            if spelling != name + "PLS":
                table.add(spelling, Operation(Form.TEST, name, condition << 28 | bits | P_FIELD))
    add_forms(table, "MUL", flags, Form.MULTIPLY, 0x90, both_orders)
    add_forms(table, "MLA", flags, Form.MULTIPLY_ADD, 0x200090, both_orders)


def transfers(table: Table, both_orders: bool) -> None:
    """LDR and STR with B and T, LDM and STM with their modes."""
    for name, load in (("LDR", S_BIT), ("STR", 0)):
        for ending, byte, user in (("", 0, False), ("B", 1 << 22, False), ("T", 0, True),
                                   ("BT", 1 << 22, True)):
            add_forms(table, name, [(ending, byte)], Form.TRANSFER, 0x04000000 | load, both_orders,
                      user)
    for name, load, stacks in (("LDM", S_BIT, LOAD_STACKS), ("STM", 0, STORE_STACKS)):
        modes = [(mode, code << 23) for mode, code in MODES.items()]
        modes += [(stack, MODES[mode] << 23) for stack, mode in stacks.items()]
        if both_orders:
            modes.append(("", MODES["IA"] << 23))
        add_forms(table, name, modes, Form.BLOCK, 0x08000000 | load, both_orders)


def the_rest(table: Table, both_orders: bool) -> None:
    """Branches, SWI and the address operations."""
    add_forms(table, "B", [("", 0)], Form.BRANCH, 0x0A000000, both_orders)
    add_forms(table, "BL", [("", 0)], Form.BRANCH, 0x0B000000, both_orders)
    add_forms(table, "SWI", [("", 0)], Form.SWI, 0x0F000000, both_orders)
    add_forms(table, "ADR", [("", 0)], Form.ADR, 0, both_orders)
    if both_orders:
        for spelling, code in condition_and("ADR", "L", True):
            table.add(spelling, Operation(Form.ADRL, "ADRL", code << 28))
        add_forms(table, "NOP", [("", 0)], Form.NOP, 0x01A00000, both_orders)


def spellings(both_orders: bool) -> Table:
    """The table of a dialect: ObjAsm takes an ending before the condition too, BASIC doesn't."""
    table = Table()
    data_processing(table, both_orders)
    transfers(table, both_orders)
    the_rest(table, both_orders)
    return table


OBJASM = spellings(both_orders=True)
BASIC = spellings(both_orders=False)


def later_operations() -> dict[str, str]:
    """Operations that people know and the ARM2 has not, with the reason."""
    names: dict[str, str] = {}
    later = "the ARM2 doesn't have this instruction"
    for name in ("MRS", "MSR", "SWP", "SWPB", "UMULL", "UMLAL", "SMULL", "SMLAL", "BX", "BLX", "CLZ",
                 "BKPT", "LDRH", "LDRSB", "LDRSH", "LDRD", "STRH", "STRD", "PLD", "QADD", "QSUB",
                 "SVC", "MOVW", "MOVT", "REV", "PUSH", "POP", "ORN", "SDIV", "UDIV", "LDREX",
                 "STREX", "DMB", "DSB", "ISB", "WFI"):
        names[name] = later
    names["PUSH"] = "the ARM2 doesn't have this; write STMFD sp!,{..}"
    names["POP"] = "the ARM2 doesn't have this; write LDMFD sp!,{..}"
    names["SVC"] = "the ARM2's name for this is SWI"
    for name in ("CDP", "LDC", "STC", "MCR", "MRC", "CDP2", "LDC2", "STC2", "MCR2", "MRC2"):
        names[name] = "the machine has no coprocessor"
    for name in ("ADF", "MUF", "SUF", "RSF", "DVF", "RDF", "POW", "RPW", "RMF", "FML", "FDV", "FRD",
                 "POL", "MVF", "MNF", "ABS", "RND", "SQT", "LOG", "LGN", "EXP", "SIN", "COS", "TAN",
                 "ASN", "ACS", "ATN", "URD", "NRM", "LDF", "STF", "LFM", "SFM", "FLT", "FIX", "WFS",
                 "RFS", "WFC", "RFC", "CMF", "CNF", "CMFE", "CNFE"):
        names[name] = "the machine has no floating point"
    return names


LATER = later_operations()
_LATER_ENDINGS = ("", "S", "L", "B", "H", "D", "SB", "SH", "FD", "EA", "IA", "DB", "E")
_FLOAT_ENDINGS = ("", "S", "D", "E", "P", "M", "Z", "SP", "SM", "SZ", "DP", "DM", "DZ", "EP", "EM", "EZ",
                  "FD", "EA", "IA", "DB", "FA", "ED", "IB", "DA")


def why_not(word: str) -> str | None:
    """Why a word that looks like an instruction is none of the ARM2's, or None for other words."""
    capitals = word.upper()
    for size in range(len(capitals), 1, -1):
        front, rest = capitals[:size], capitals[size:]
        if front not in LATER:
            continue
        if rest in CONDITION_CODES:
            return LATER[front]
        endings = _FLOAT_ENDINGS if "floating" in LATER[front] else _LATER_ENDINGS
        for condition in CONDITION_CODES:
            if rest.startswith(condition) and rest[len(condition):] in endings:
                return LATER[front]
    for front in ("LDR", "STR"):
        for ending in ("H", "SB", "SH", "D"):
            if capitals.startswith(front) and capitals.endswith(ending):
                if capitals[3:len(capitals) - len(ending)] in CONDITION_CODES:
                    return LATER["LDRH"]
    return None
