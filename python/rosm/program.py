"""What an assembly comes to: bytes at an origin, labels, the lines that made them, and messages.

Both languages hand over a Program; the modules `block`, `listing` and `elf` make files of it.
"""

from __future__ import annotations

from bisect import bisect_right
from dataclasses import dataclass, field

from .messages import MessageList, Position


@dataclass(frozen=True)
class Label:
    """A name of an address, as the source spells it, and where the source defines it."""

    name: str
    address: int
    position: Position


@dataclass(frozen=True)
class Row:
    """Bytes that one line made, one after another. `code` says that they are instructions.

    Rows of a program don't overlap; a line may have several (a pool's words, a loop's rounds).
    """

    address: int
    length: int
    position: Position
    code: bool = False


@dataclass
class Program:
    """An assembled program.

    `data` is what stands from `origin` on. `entry` is the address of the first instruction where
    the source says one. `path` is the source's file, where all of it stands in one. `relocated` are
    addresses of words that hold an address of the program itself, so that they are right at the origin
    alone.
    """

    origin: int
    data: bytes
    entry: int | None = None
    name: str = "program"
    path: str = ""
    labels: list[Label] = field(default_factory=list)
    rows: list[Row] = field(default_factory=list)
    relocated: list[int] = field(default_factory=list)
    messages: MessageList = field(default_factory=MessageList)

    def end(self) -> int:
        """The address behind the last byte."""
        return self.origin + len(self.data)

    def bytes_at(self, address: int, length: int) -> bytes:
        """Bytes of the program from an address on; fewer where it ends before."""
        start = max(address - self.origin, 0)
        return self.data[start:max(address + length - self.origin, 0)]

    def sorted_rows(self) -> list[Row]:
        """The rows by their addresses, without those of no bytes."""
        return sorted((row for row in self.rows if row.length > 0), key=lambda row: row.address)

    def sorted_labels(self) -> list[Label]:
        """The labels by their addresses; those of one address in the source's order."""
        return sorted(self.labels, key=lambda label: label.address)


class RowIndex:
    """Finds the row that made the byte at an address."""

    def __init__(self, program: Program) -> None:
        self.rows = program.sorted_rows()
        self.starts = [row.address for row in self.rows]

    def at(self, address: int) -> Row | None:
        """The row whose bytes have the address, or None."""
        place = bisect_right(self.starts, address) - 1
        if place < 0:
            return None
        row = self.rows[place]
        return row if address < row.address + row.length else None
