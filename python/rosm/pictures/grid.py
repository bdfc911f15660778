"""Marks under the bytes of a view of memory that have changed."""

from __future__ import annotations

from .boxes import ADDRESSES, Row, View

ROW_BYTES = 16
# the characters of an address, a colon and 16 bytes
ROW_WIDTH = 57


def grid_lines(view: View, before: View | None, room: int) -> list[str]:
    """Each row that has a byte which has changed, with `^^` under each, in lines of so many
    characters: where 16 bytes have no room, 8 stand in a line."""
    olds = {row.address: row for row in reversed(before.rows)} if before else {}
    size = ROW_BYTES if room >= ROW_WIDTH else ROW_BYTES // 2
    lines = []
    for row in view.rows:
        if old := olds.get(row.address):
            for first in range(0, ROW_BYTES, size):
                lines += part_lines(row, old, first, first + size)
    return lines


def part_lines(row: Row, old: Row, first: int, end: int) -> list[str]:
    """Some bytes of a row, and the marks under them, where one of them has changed."""
    new = row.bytes[first:end]
    changed = [one != other for one, other in zip(new, old.bytes[first:end])]
    if not any(changed):
        return []
    shown = "".join(" --" if byte is None else f" {byte:02X}" for byte in new)
    marks = "".join(" ^^" if is_changed else "   " for is_changed in changed)
    return [f"{(row.address + first) % ADDRESSES:08X}:{shown}", f"changed  {marks}".rstrip()]
