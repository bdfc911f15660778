"""A program as an ELF file whose symbols and lines are the source's own, for GDB and binutils.

The file follows the System V ABI ("Object Files"), "ELF for the ARM Architecture" and the DWARF
Debugging Information Format, version 2. A word that a macro made has the macro's file and line.
"""

from __future__ import annotations

import os
import struct
from dataclasses import dataclass

from .program import Label, Program, Row
from .routines import sizes

_TEXT = 2  # the number of the section with the bytes
_ENTRY_SIZE = 16


@dataclass(frozen=True)
class Section:
    """A section: its name, type, flags, address, contents, and what its header adds."""

    name: str
    kind: int
    data: bytes
    flags: int = 0
    address: int = 0
    link: int = 0
    info: int = 0
    align: int = 1
    entry: int = 0


class Names:
    """A table of names that end in zero bytes."""

    def __init__(self) -> None:
        self.data = bytearray(b"\0")

    def add(self, name: str) -> int:
        """Where the name stands in the table."""
        place = len(self.data)
        self.data += name.encode("latin-1", "replace").replace(b"\0", b"?") + b"\0"
        return place


def unsigned_leb(value: int) -> bytes:
    """A number in groups of seven bits, the lowest first (DWARF, "Variable Length Data")."""
    out = bytearray()
    while True:
        group, value = value & 127, value >> 7
        out.append(group | (128 if value else 0))
        if not value:
            return bytes(out)


def signed_leb(value: int) -> bytes:
    """A number with a sign in groups of seven bits."""
    out = bytearray()
    while True:
        group, value = value & 127, value >> 7
        done = (value == 0 and not group & 64) or (value == -1 and group & 64)
        out.append(group | (0 if done else 128))
        if done:
            return bytes(out)


def debug_rows(program: Program) -> list[Row]:
    """The rows that belong to a line of a file."""
    return [row for row in program.sorted_rows() if row.position.line > 0]


def line_section(program: Program) -> bytes:
    """`.debug_line`: for each row its address, its file and its line."""
    rows = debug_rows(program)
    files: dict[str, int] = {program.path: 1} if program.path else {}
    for row in rows:
        files.setdefault(row.position.file, len(files) + 1)
    table = b"".join(os.fsencode(file) + b"\0\0\0\0" for file in files)
    lengths = bytes([0, 1, 1, 1, 1, 0, 0, 0, 1])
    header = struct.pack("<BBbBB", 1, 1, -5, 14, 10) + lengths + b"\0" + table + b"\0"
    code, file, line = bytearray(), 1, 1
    for row in rows:
        code += b"\0\5\2" + struct.pack("<I", row.address)
        if files[row.position.file] != file:
            file = files[row.position.file]
            code += b"\4" + unsigned_leb(file)
        code += b"\3" + signed_leb(row.position.line - line) + b"\1"
        line = row.position.line
    code += b"\0\5\2" + struct.pack("<I", program.end()) + b"\0\1\1"
    body = struct.pack("<HI", 2, len(header)) + header + bytes(code)
    return struct.pack("<I", len(body)) + body


_ABBREVIATIONS = bytes([1, 0x11, 0, 0x10, 6, 0x11, 1, 0x12, 1, 3, 8, 0x25, 8, 0x13, 5, 0, 0, 0])


def unit_section(program: Program, producer: str) -> bytes:
    """`.debug_info`: one unit of assembler from the first address to the last."""
    rows = debug_rows(program)
    name = program.path or (rows[0].position.file if rows else program.name)
    body = struct.pack("<HIB", 2, 0, 4) + bytes([1]) + struct.pack("<III", 0, program.origin, program.end())
    body += os.fsencode(name) + b"\0" + producer.encode() + b"\0" + struct.pack("<H", 0x8001)
    return struct.pack("<I", len(body)) + body


def mapping_symbols(program: Program, names: Names) -> bytes:
    """`$a` where instructions begin and `$d` where data does."""
    out, kind = bytearray(), None
    places = {"$a": names.add("$a"), "$d": names.add("$d")}
    for row in program.sorted_rows():
        wanted = "$a" if row.code else "$d"
        if wanted != kind:
            out += struct.pack("<IIIBBH", places[wanted], row.address, 0, 0, 0, _TEXT)
            kind = wanted
    return bytes(out)


def label_symbols(labels: list[Label], lengths: dict[int, int], names: Names) -> bytes:
    """The labels as global symbols of no type, some with the length of the routine that begins there."""
    out = bytearray()
    for label in labels:
        length = lengths.get(label.address, 0)
        out += struct.pack("<IIIBBH", names.add(label.name), label.address, length, 16, 0, _TEXT)
    return bytes(out)


def sections_of(program: Program, producer: str) -> list[Section]:
    """All sections but the first, which is empty, and the last, which has their names."""
    names = Names()
    local = bytes(_ENTRY_SIZE) + mapping_symbols(program, names)
    symbols = local + label_symbols(program.sorted_labels(), sizes(program), names)
    return [
        Section(".symtab", 2, symbols, link=3, info=len(local) // _ENTRY_SIZE, align=4, entry=_ENTRY_SIZE),
        Section(".text", 1, program.data, flags=7, address=program.origin, align=4),
        Section(".strtab", 3, bytes(names.data)),
        Section(".debug_line", 1, line_section(program)),
        Section(".debug_info", 1, unit_section(program, producer)),
        Section(".debug_abbrev", 1, _ABBREVIATIONS)]


def elf_of(program: Program, producer: str = "rosm") -> bytes:
    """The whole file: its header, a segment, the sections' headers, and their contents.

    `producer` is the program that a debugger is to name as the one that assembled it.
    """
    names = Names()
    sections = sections_of(program, producer)
    places = [names.add(section.name) for section in sections] + [names.add(".shstrtab")]
    sections.append(Section(".shstrtab", 3, bytes(names.data)))
    headers, contents = bytearray(40), bytearray()
    start = 52 + 32 + 40 * (len(sections) + 1)
    offsets = []
    for section, name in zip(sections, places):
        contents += bytes(-(start + len(contents)) % section.align)
        offsets.append(start + len(contents))
        headers += struct.pack("<10I", name, section.kind, section.flags, section.address, offsets[-1],
                               len(section.data), section.link, section.info, section.align, section.entry)
        contents += section.data
    size = len(program.data)
    entry = program.origin if program.entry is None else program.entry
    header = b"\x7fELF\1\1\1" + bytes(9) + struct.pack(
        "<HHIIIIIHHHHHH", 2, 40, 1, entry, 52, 84, 0x05000000, 52, 32, 1, 40, len(sections) + 1,
        len(sections))
    segment = struct.pack("<8I", 1, offsets[_TEXT - 1], program.origin, program.origin, size, size, 7, 4)
    return header + segment + bytes(headers) + bytes(contents)
