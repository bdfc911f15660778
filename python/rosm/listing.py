"""A listing of a program, and the comparison of a program with another's bytes."""

from __future__ import annotations

from typing import Iterator

from .block import data_lines
from .program import Program, Row, RowIndex

WIDTH = 4  # words or bytes in a line of the listing


def mark(row: Row) -> str:
    """`+` for a line that a macro or an FN brought, else a space."""
    return "+" if any(call.kind != "GET" for call in row.position.calls) else " "


def units(address: int, data: bytes) -> Iterator[tuple[int, str]]:
    """The bytes as words at multiples of 4 and bytes elsewhere, each with its address."""
    place = 0
    while place < len(data):
        here = address + place
        if here % 4 == 0 and len(data) - place >= 4:
            yield here, f"{int.from_bytes(data[place:place + 4], 'little'):08X}"
            place += 4
        else:
            size = min(4 - here % 4, len(data) - place)
            yield here, " ".join(f"{byte:02X}" for byte in data[place:place + size])
            place += size


def listing_of(program: Program) -> str:
    """Address, word, the source's line as it stands; `..` stands for zeros that go on."""
    lines: list[str] = []
    labels = program.sorted_labels()
    covered = program.origin
    for row in program.sorted_rows():
        if row.address > covered:
            count = row.address - covered
            lines.append(f"{covered:08X} {count} byte{'s' if count > 1 else ''} that no line made")
        data = program.bytes_at(row.address, row.length)
        shown = list(units(row.address, data))
        if len(shown) > 2 * WIDTH and not any(data):
            shown = [(row.address, f"{'00' * 4} .. {len(data)} bytes")]
        text = row.position.text.expandtabs(8).rstrip()
        for number, (address, word) in enumerate(shown):
            source = f"{row.position.line:5}{mark(row)} {text}" if number == 0 else ""
            lines.append(f"{address:08X} {word:<11} {source}".rstrip())
        covered = max(covered, row.address + row.length)
    if program.relocated:
        lines += ["", "Words that hold an address of the program itself, right at this origin alone"]
        lines += [f"{address:08X}" for address in sorted(program.relocated)]
    if labels:
        lines += ["", "Labels"] + [f"{label.address:08X} {label.name}" for label in labels]
    return "\n".join(lines) + "\n"


def compare(program: Program, original: bytes, name: str) -> tuple[int, str]:
    """How many words differ from the original's, and a line for each with what made it."""
    index = RowIndex(program)
    size = max(len(program.data), len(original))
    lines, differ = [], 0
    for place in range(0, size, 4):
        ours, theirs = program.data[place:place + 4], original[place:place + 4]
        if ours == theirs:
            continue
        differ += 1
        row = index.at(program.origin + place)
        made = f"{row.position.short()}: {row.position.text.strip()}" if row else "no line"
        lines.append(f"{program.origin + place:08X} {shown_word(ours)} here, {shown_word(theirs)} "
                     f"in {name}; {made}")
    total = (size + 3) // 4
    sizes = "" if len(original) == len(program.data) else \
        f"; {len(program.data)} bytes here, {len(original)} there"
    lines.append(f"{differ} of {total} words differ{sizes}")
    return differ, "\n".join(lines) + "\n"


def shown_word(data: bytes) -> str:
    """Up to four bytes as a word, or `--------` where there are none."""
    if len(data) == 4:
        return f"{int.from_bytes(data, 'little'):08X}"
    return " ".join(f"{byte:02X}" for byte in data) or "--------"


__all__ = ["compare", "data_lines", "listing_of"]
