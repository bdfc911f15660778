"""Directives that lay bytes: data, rooms, alignment, pools, areas."""

from __future__ import annotations

from typing import TYPE_CHECKING, Callable

from ..files import read_bytes
from ..messages import SourceError
from .areas import LARGEST
from .expressions import Expressions
from .symbols import Undefined
from .tokens import Line, no_label, plain_name
from .values import WORD, Value, as_number, kind_of

if TYPE_CHECKING:
    from .assembler import Assembler

Directive = Callable[["Assembler", Line], None]


def each_item(assembler: "Assembler", line: Line, lay: Callable[[Expressions, int], None]) -> None:
    """Lays each item of a list; one that is wrong is reported, and the others are laid still."""
    reader = Expressions(assembler, line.operands)
    if reader.at_end():
        raise SourceError("a value is wanted here", line.operation)
    item = 0
    while True:
        begin = reader.index
        warn_of_here(assembler, reader, item)
        try:
            lay(reader, item)
            if not reader.at_end() and not reader.take(","):
                raise SourceError("a comma or the end is wanted here", reader.peek().text)
        except SourceError as error:
            assembler.error(error)
            reader.index = max(begin, reader.index)
            skip_item(reader)
        item += 1
        if reader.at_end():
            if reader.tokens[reader.index - 1].text == ",":
                raise SourceError("a value is wanted behind the comma", line.operation)
            return


def skip_item(reader: Expressions) -> None:
    """Goes on behind the next comma outside parentheses."""
    depth = 0
    while not reader.at_end():
        token = reader.next()
        depth += (token.text == "(") - (token.text == ")")
        if token.text == "," and depth <= 0 and token.kind == "sign":
            return


def warn_of_here(assembler: "Assembler", reader: Expressions, item: int) -> None:
    """`.` in a list is the line's place, and not the item's."""
    if not item:
        return
    index = reader.index
    while reader.tokens[index].kind != "end" and reader.tokens[index].text != ",":
        token = reader.tokens[index]
        if token.kind == "sign" and token.text == ".":
            assembler.warn("in a list this is where the line begins, and not the item", ".")
        index += 1


def dcd(aligned: bool, both: bool = True) -> Directive:
    """DCD, `&` and DCDU: words."""
    def directive(assembler: "Assembler", line: Line) -> None:
        if aligned:
            assembler.align(4, line.operation)
        assembler.define_label(line.label)
        if line.glued and line.operation == "&" and line.operands[0].isdigit():
            assembler.warn(f"this lays the word {line.operands} of decimal digits: & is DCD here",
                           "&" + line.operands)

        def lay(reader: Expressions, item: int) -> None:
            start, begin = len(assembler.area.data), reader.index
            try:
                assembler.lay_word(word_value(reader.value()), reader.words_from(begin))
            finally:
                if len(assembler.area.data) == start:
                    assembler.lay(bytes(4))
        each_item(assembler, line, lay)
    return directive


def word_value(value: Value) -> Value:
    """A value that a word can have."""
    if isinstance(value, bool):
        raise SourceError("a number or an address is wanted, and this is a truth")
    return value


def dci(assembler: "Assembler", line: Line) -> None:
    """DCI: words that are instructions."""
    dcd(aligned=True)(assembler, line)
    assembler.row_is_code = True


def dcw(aligned: bool) -> Directive:
    """DCW and DCWU: numbers of two bytes."""
    def directive(assembler: "Assembler", line: Line) -> None:
        if aligned:
            assembler.align(2, line.operation)
        assembler.define_label(line.label)

        def lay(reader: Expressions, item: int) -> None:
            value = 0
            try:
                value = in_range(reader.number(), -32768, 65535, "two bytes hold")
            finally:
                assembler.lay((value & 0xFFFF).to_bytes(2, "little"))
        each_item(assembler, line, lay)
    return directive


def in_range(value: int, least: int, most: int, what: str) -> int:
    """A number of 32 bits between two bounds, of which the first may be negative."""
    signed = value - (1 << 32) if value >> 31 else value
    if least <= signed <= most:
        return signed
    raise SourceError(f"{what} {least} to {most}, and not {signed}")


def dcb(assembler: "Assembler", line: Line) -> None:
    """DCB and `=`: bytes and texts."""
    assembler.define_label(line.label)

    def lay(reader: Expressions, item: int) -> None:
        begin = reader.index
        data = bytes(1)
        try:
            value = reader.value()
            if isinstance(value, str):
                data = value.encode("latin-1", "replace")
            else:
                number = as_number(value, reader.words_from(begin))
                data = bytes([in_range(number, -128, 255, "a byte holds") & 255])
        finally:
            assembler.lay(data)
    each_item(assembler, line, lay)


def space(assembler: "Assembler", line: Line) -> None:
    """SPACE and `%`: zero bytes."""
    assembler.define_label(line.label)
    reader = Expressions(assembler, line.operands, strict=True)
    size = reader.number()
    reader.end()
    if size > LARGEST:
        raise SourceError(f"a room has {LARGEST} bytes at most, and not {size}", line.operands)
    assembler.lay(bytes(size))


def align(assembler: "Assembler", line: Line) -> None:
    """ALIGN, `ALIGN n` and `ALIGN n,offset`, from the area's start. A label stands behind the zeros."""
    step, offset = 4, 0
    reader = Expressions(assembler, line.operands, strict=True)
    if not reader.at_end():
        step = reader.number()
        if reader.take(","):
            offset = reader.number()
        reader.end()
    if step == 0 or step & step - 1 or step > 65536:
        raise SourceError("ALIGN wants a power of two, 65536 at most", line.operands)
    missing = assembler.align(step, offset=offset)
    if line.label and missing:
        assembler.warn("the label comes after the zero bytes", line.label)
    assembler.define_label(line.label)


def ltorg(assembler: "Assembler", line: Line) -> None:
    """LTORG: the pool's words stand here."""
    assembler.define_label(line.label)
    if line.operands:
        raise SourceError("nothing may follow LTORG", line.operands)
    assembler.lay_pool(assembler.area)
    assembler.line_offset = assembler.area.here()


def incbin(assembler: "Assembler", line: Line) -> None:
    """INCBIN and BIN: the bytes of a file."""
    assembler.define_label(line.label)
    name = line.operands.strip('"')
    if not name:
        raise SourceError("a file's name is wanted", line.operation)
    assembler.lay(read_bytes(assembler.library.find(name)))


def area(assembler: "Assembler", line: Line) -> None:
    """`AREA name,attributes`: lays what follows in this area."""
    no_label(line)
    words = split_attributes(line.operands)
    if not words or not words[0]:
        raise SourceError("an area's name is wanted", line.operation)
    name = plain_name(words[0])
    found = assembler.area_named(name)
    again = name in assembler.seen_areas
    assembler.seen_areas.add(name)
    assembler.area = found
    assembler.scope = assembler.sequence
    assembler.routine = ""
    if not again:
        found.position = assembler.position()
    set_attributes(assembler, line, words[1:], again)


def split_attributes(text: str) -> list[str]:
    """The words of a line AREA, which commas outside bars part."""
    words, start, bars = [], 0, False
    for place, sign in enumerate(text):
        if sign == "|":
            bars = not bars
        elif sign == "," and not bars:
            words.append(text[start:place].strip())
            start = place + 1
    return words + [text[start:].strip()] if text.strip() else []


_PASSIVE = frozenset({"REL", "PIC", "A32BIT", "INTERWORK", "REENTRANT", "NOSWSTACKCHECK", "LINKONCE",
                      "ASSOC", "NOALLOC", "CODEALIGN"})


def set_attributes(assembler: "Assembler", line: Line, words: list[str], again: bool) -> None:
    """What the words behind an area's name say."""
    found = assembler.area
    capitals = [word.upper() for word in words]
    for word, capital in zip(words, capitals):
        if capital.startswith("ALIGN"):
            power = Expressions(assembler, word.partition("=")[2], strict=True).number()
            if not 2 <= power <= 16:
                raise SourceError("ALIGN= in a line AREA is a power of two from 2 to 16", word)
            found.alignment = 1 << power
        elif capital in ("COMMON", "COMDEF", "ABS") or capital.startswith("BASED"):
            raise SourceError("areas of this kind aren't laid here", word)
        elif capital in _PASSIVE:
            assembler.note_once(word, "it is for a linker; no byte depends on it")
        elif capital not in ("CODE", "DATA", "READONLY", "READWRITE", "NOINIT"):
            raise SourceError("no area has this attribute", word)
    if again:
        return
    found.code = "DATA" not in capitals and "NOINIT" not in capitals
    found.zeros = "NOINIT" in capitals
    found.readonly = "READONLY" in capitals or (found.code and "READWRITE" not in capitals)


def org(assembler: "Assembler", line: Line) -> None:
    """ORG: the address of the area, or, behind bytes, of what follows."""
    no_label(line)
    reader = Expressions(assembler, line.operands, strict=True)
    address = reader.number()
    reader.end()
    found = assembler.area
    if not found.data:
        found.fixed = address
        return
    start = found.address if found.fixed is None else found.fixed
    missing = address - start - len(found.data)
    if missing < 0:
        raise SourceError(f"the area is at &{start + len(found.data) & WORD:X} already", line.operands)
    if missing > LARGEST:
        raise SourceError(f"the gap is {missing} bytes, and {LARGEST} is the most", line.operands)
    assembler.lay(bytes(missing))
    assembler.line_offset = found.here()


def entry(assembler: "Assembler", line: Line) -> None:
    """ENTRY: where the program begins."""
    assembler.define_label(line.label)
    if line.operands:
        raise SourceError("nothing may follow ENTRY", line.operands)
    if assembler.entry is not None:
        first = assembler.entry[1]
        raise SourceError(f"the program begins at {first.file}:{first.line} already", line.operation)
    assembler.entry = (assembler.here(), assembler.position())


def rout(assembler: "Assembler", line: Line) -> None:
    """ROUT: numbered labels belong to what stands from here on."""
    if line.operands:
        raise SourceError("nothing may follow ROUT", line.operands)
    if line.label and line.label[0].isdigit():
        raise SourceError("a routine has a name, and no number", line.label)
    assembler.define_label(line.label)
    assembler.scope = assembler.sequence
    assembler.routine = plain_name(line.label) if line.label else ""


DATA: dict[str, Directive] = {
    "DCD": dcd(aligned=True), "&": dcd(aligned=True), "DCDU": dcd(aligned=False), "DCI": dci,
    "DCW": dcw(aligned=True), "DCWU": dcw(aligned=False), "DCB": dcb, "=": dcb, "SPACE": space,
    "%": space, "ALIGN": align, "LTORG": ltorg, "INCBIN": incbin, "BIN": incbin, "AREA": area,
    "ORG": org, "ENTRY": entry, "ROUT": rout}

