"""A program as a block `ASM name origin` .. `END` for scripts of rosm.

The bytes are settled, so the block has only DCD and DCB, each with its source's line as a comment,
and all labels on lines of their own. The grammar is that of docs/ASSEMBLER.md: labels of 1 to 63
letters, digits and `_`, no digit first, no register's name; no tabs; the comments are ASCII.
"""

from __future__ import annotations

import re
from typing import Iterator

from .program import Program, Row

LONGEST_LABEL = 63
WORDS_IN_LINE, BYTES_IN_LINE = 4, 16
_PLAIN = re.compile(r"[A-Za-z_][A-Za-z0-9_]*\Z")
_REGISTER = re.compile(r"(r([0-9]|1[0-5])|sp|lr|pc)\Z", re.IGNORECASE)


def label_for(name: str, used: set[str]) -> str:
    """A name as the block can have it: other signs as `_` and their code, and no name twice."""
    text = "".join(sign if sign.isascii() and (sign.isalnum() or sign == "_")
                   else f"_{ord(sign):02X}" for sign in name) or "_"
    if text[0].isdigit() or _REGISTER.match(text):
        text = "_" + text
    text = text[:LONGEST_LABEL]
    found, count = text, 1
    while found in used:
        count += 1
        ending = f"_{count}"
        found = text[:LONGEST_LABEL - len(ending)] + ending
    used.add(found)
    return found


def comment(text: str) -> str:
    """A source's line as a comment: ASCII without control characters, tabs as spaces."""
    clean = "".join(sign if " " <= sign <= "~" else "?" for sign in text.expandtabs(8))
    return f" ; {clean.strip()}" if clean.strip() else ""


def data_lines(address: int, data: bytes) -> Iterator[str]:
    """Lines DCD of words at multiples of 4, and DCB of all else."""
    place = 0
    while place < len(data):
        here = address + place
        if here % 4 == 0 and len(data) - place >= 4:
            size = min(len(data) - place & ~3, 4 * WORDS_IN_LINE)
            words = [int.from_bytes(data[place + step:place + step + 4], "little")
                     for step in range(0, size, 4)]
            yield " DCD " + ",".join(f"&{word:08X}" for word in words)
        else:
            size = min(len(data) - place, BYTES_IN_LINE)
            if here % 4 and size > 4 - here % 4 and len(data) - place >= 4 - here % 4 + 4:
                size = 4 - here % 4
            yield " DCB " + ",".join(f"&{byte:02X}" for byte in data[place:place + size])
        place += size


def pieces(program: Program) -> Iterator[tuple[int, int, Row | None]]:
    """The program's bytes in pieces, each of one row or of none, cut at every label."""
    places = {label.address for label in program.labels}
    address = program.origin
    rows = program.sorted_rows()
    for row in rows + [None]:
        start = program.end() if row is None else row.address
        end = program.end() if row is None else row.address + row.length
        cuts = sorted(place for place in places if address <= place <= end)
        for owner, last in ((None, start), (row, end)):
            for cut in [cut for cut in cuts if address < cut < last] + [last]:
                if cut > address:
                    yield address, cut - address, owner
                    address = cut


def block_of(program: Program) -> str:
    """The whole block, with a line END."""
    lines = [f"ASM {program.name} &{program.origin:X}"]
    used: set[str] = set()
    by_address: dict[int, list[str]] = {}
    outside: list[str] = []
    for label in program.sorted_labels():
        if program.origin <= label.address <= program.end():
            name = label_for(label.name, used)
            # A line that is just END, in any case, would end the block: a sign parts it from that.
            note = f" ; {comment(label.name)[3:]}" if name != label.name or name.lower() == "end" else ""
            by_address.setdefault(label.address, []).append(name + note)
        else:
            outside.append(f" ; {comment(label.name)[3:]} is &{label.address:X}, outside the program")
    last: Row | None = None
    for address, length, row in pieces(program):
        lines += by_address.pop(address, [])
        note = comment(row.position.text) if row and row is not last else ""
        last = row
        for number, line in enumerate(data_lines(address, program.bytes_at(address, length))):
            lines.append(line + (note if number == 0 else ""))
    lines += by_address.pop(program.end(), [])
    return "\n".join(lines + outside + ["END"]) + "\n"
