"""Directives that give names: numbers, registers, variables, layouts, imported names."""

from __future__ import annotations

from typing import TYPE_CHECKING, Callable

from ..messages import SourceError
from .expressions import Expressions, wanted
from .operands import Operands
from .symbols import NOTHING, Import, Variable
from .tokens import Line, no_label, plain_name
from .values import Distance, ImportBase, RegisterBase, Value, add, as_number, as_text, as_truth

if TYPE_CHECKING:
    from .assembler import Assembler

Directive = Callable[["Assembler", Line], None]


def named(line: Line) -> str:
    """The name before a directive that gives it something."""
    if not line.label or line.label[0].isdigit():
        raise SourceError("a name is wanted in the first column", line.operation)
    return plain_name(line.label)


def equ(assembler: "Assembler", line: Line) -> None:
    """`name EQU e` and `name * e`."""
    name = named(line)
    reader = Expressions(assembler, line.operands)
    value = reader.value()
    reader.end()
    if isinstance(value, bool):
        raise SourceError("EQU wants a number or an address, and this is a truth", line.operands)
    if isinstance(value, str):
        value = as_number(value, line.operands)
    assembler.symbols.define(name, value, assembler.position())


def rn(assembler: "Assembler", line: Line) -> None:
    """`name RN 12`."""
    name = named(line)
    number = small_number(assembler, line, "a register")
    registers = assembler.symbols.registers
    if registers.get(name, number) != number:
        raise SourceError(f"the name is R{registers[name]} already", name)
    registers[name] = number


def small_number(assembler: "Assembler", line: Line, what: str) -> int:
    """The number of a register: 0 to 15."""
    reader = Expressions(assembler, line.operands, strict=True)
    number = reader.number()
    reader.end()
    if number > 15:
        raise SourceError(f"the number of {what} is 0 to 15, and not {number}", line.operands)
    return number


def other_register(what: str) -> Directive:
    """CN, CP and FN: names that no instruction of the ARM2 takes."""
    def directive(assembler: "Assembler", line: Line) -> None:
        name = named(line)
        small_number(assembler, line, what)
        assembler.symbols.others[name] = what
    return directive


def rlist(assembler: "Assembler", line: Line) -> None:
    """`name RLIST {r0-r3}`."""
    name = named(line)
    reader = Operands(assembler, line.operands)
    registers = reader.register_list()
    reader.end()
    assembler.symbols.lists[name] = registers


def names_of(assembler: "Assembler", line: Line) -> list[str]:
    """The names behind GBLA and its kin, parted by commas."""
    no_label(line)
    reader = Expressions(assembler, line.operands)
    names = []
    while True:
        token = reader.next()
        if token.kind != "name":
            raise wanted("a name", token)
        names.append(str(token.value))
        if not reader.take(","):
            break
    reader.end()
    return names


def declare_global(kind: str) -> Directive:
    """GBLA, GBLL and GBLS."""
    def directive(assembler: "Assembler", line: Line) -> None:
        for name in names_of(assembler, line):
            known = assembler.symbols.known.get(name)
            if known and (known.external or known.given == assembler.symbols.pass_number):
                raise SourceError("the name has a value that is no variable's", name)
            assembler.symbols.variables[name] = Variable(kind, NOTHING[kind])
    return directive


def declare_local(kind: str) -> Directive:
    """LCLA, LCLL and LCLS, in macros."""
    def directive(assembler: "Assembler", line: Line) -> None:
        frame = assembler.frames[-1]
        if frame.macro is None:
            raise SourceError("local variables are a macro's, and none is being read", line.operation)
        for name in names_of(assembler, line):
            frame.variables[name] = Variable(kind, NOTHING[kind])
    return directive


def set_variable(kind: str) -> Directive:
    """SETA, SETL and SETS."""
    wanted: dict[str, Callable[[Value, str], Value]] = {"A": as_number, "L": as_truth, "S": as_text}

    def directive(assembler: "Assembler", line: Line) -> None:
        name = named(line)
        variable = assembler.variable(name)
        if variable is None:
            raise SourceError(f"no line GBL{kind} or LCL{kind} declares this variable", name)
        if variable.kind != kind:
            raise SourceError(f"the variable was declared by GBL{variable.kind} or LCL{variable.kind}",
                              name)
        reader = Expressions(assembler, line.operands, strict=True)
        value = reader.value()
        reader.end()
        variable.value = wanted[kind](value, line.operands)
    return directive


def layout(assembler: "Assembler", line: Line) -> None:
    """`^ e` and `^ e,register`: where the next names of a layout count from."""
    no_label(line)
    reader = Operands(assembler, line.operands, strict=True)
    start: Value = 0 if reader.at_end() else reader.value()
    if isinstance(start, str):
        start = as_number(start)
    if reader.take(","):
        start = Distance(RegisterBase(reader.register()), as_number(start))
    reader.end()
    if isinstance(start, bool):
        raise SourceError("a number is wanted, and this is a truth", line.operands)
    assembler.layout = start


def layout_field(assembler: "Assembler", line: Line) -> None:
    """`name # size`."""
    reader = Expressions(assembler, line.operands, strict=True)
    size = 0
    try:
        size = reader.number()
        reader.end()
    finally:
        if line.label:
            assembler.symbols.define(named(line), assembler.layout, assembler.position(), size)
        assembler.layout = add(assembler.layout, size)


def import_name(assembler: "Assembler", line: Line) -> None:
    """IMPORT and EXTERN: a name of another file."""
    no_label(line)
    reader = Expressions(assembler, line.operands)
    token = reader.next()
    if token.kind != "name":
        raise wanted("a name", token)
    name = str(token.value)
    words = " ".join(word.text for word in reader.tokens[1:]).upper()
    weak = "WEAK" in words.split()
    for word in words.replace(",", " ").replace("[", " ").replace("]", " ").split():
        if word not in ("WEAK", "FPREGARGS", "LEAF", "NOINTWORK"):
            raise SourceError("this isn't known behind the name: WEAK, FPREGARGS and LEAF are", word)
    assembler.imports[name] = Import(weak, assembler.position())
    known = assembler.symbols.known.get(name)
    if known and known.given and is_import(known.value, name):
        known.given = assembler.symbols.pass_number
        return
    if known and known.given and not known.external:
        assembler.warn("it is imported, and this source has it itself", name)
        return
    assembler.symbols.define(name, Distance(ImportBase(name), 0), assembler.position())


def is_import(value: Value, name: str) -> bool:
    """Whether a symbol's value is that of an imported name."""
    return isinstance(value, Distance) and value.base == ImportBase(name)


def export_name(assembler: "Assembler", line: Line) -> None:
    """EXPORT, GLOBAL, STRONG and KEEP: makes no bytes; the name must be there."""
    no_label(line)
    reader = Expressions(assembler, line.operands)
    assembler.note_once(line.operation, "it is for a linker; it makes no bytes")
    if reader.at_end() and line.operation.upper() in ("KEEP", "STRONG"):
        return
    token = reader.next()
    if token.kind != "name":
        raise wanted("a name", token)
    assembler.exports[str(token.value)] = assembler.position()


NAMING: dict[str, Directive] = {
    "EQU": equ, "*": equ, "RN": rn, "CN": other_register("a coprocessor's register"),
    "CP": other_register("a coprocessor"), "FN": other_register("a floating-point register"),
    "RLIST": rlist, "^": layout, "MAP": layout, "#": layout_field, "FIELD": layout_field,
    "IMPORT": import_name, "EXTERN": import_name, "EXPORT": export_name, "GLOBAL": export_name,
    "STRONG": export_name, "KEEP": export_name}
for _kind in "ALS":
    NAMING["GBL" + _kind] = declare_global(_kind)
    NAMING["LCL" + _kind] = declare_local(_kind)
    NAMING["SET" + _kind] = set_variable(_kind)
