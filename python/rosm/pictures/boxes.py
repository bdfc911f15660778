"""The boxes of a view: what stands in memory, from low addresses to high."""

from __future__ import annotations

from dataclasses import dataclass
from enum import Enum

ADDRESSES = 1 << 32
# a picture has no box that ends behind this address
LAST_END = ADDRESSES - 1
HEADER_BYTES = 8
DESCRIPTOR_BYTES = 16


class Kind(Enum):
    """What a box stands for: its word in the lines below a picture, and its sign in the bar."""

    DESCRIPTOR = ("descriptor", "d")
    LIVE = ("live", "#")
    FREE = ("free", ".")
    ROOM = ("room", " ")
    BLOCK = ("block", "#")
    AREA = ("area", "#")
    UNUSED = ("unused", "~")
    POOL = ("pool", "p")
    MODULE = ("module", "#")
    WORD = ("word", "w")
    HEADER = ("header", "h")
    # what a block has behind a heap that lies in it
    REST = ("rest", "#")

    @property
    def word(self) -> str:
        return self.value[0]

    @property
    def sign(self) -> str:
        return self.value[1]


# what is there as long as its heap, its block, its area or the machine is
LASTING = (Kind.DESCRIPTOR, Kind.UNUSED, Kind.POOL, Kind.HEADER, Kind.REST)
# a block of a heap, or room between such
CARVED = (Kind.LIVE, Kind.FREE)


@dataclass(frozen=True)
class Holder:
    """The word in a flex block's bytes that is the anchor of another block."""

    address: int
    offset: int


@dataclass(frozen=True)
class Box:
    """A box of a picture. `detail` is a flex block's anchor, or what stands in a private word."""

    kind: Kind
    address: int
    size: int
    name: str = ""
    detail: int = 0
    holder: Holder | None = None

    @property
    def end(self) -> int:
        """The address behind the last byte."""
        return self.address + self.size

    @property
    def rank(self) -> int:
        """Where it stands among others: by its address; the page pool, which is at none, last."""
        return ADDRESSES if self.kind is Kind.POOL else self.address


@dataclass(frozen=True)
class Row:
    """A row of memory: up to 16 bytes, None where no memory is mapped."""

    address: int
    bytes: tuple[int | None, ...]


@dataclass(frozen=True)
class View:
    """What a view shows. `thing` is what it looks at: views of the same thing are compared.

    `start` and `end` are those of a heap, else 0.
    """

    thing: tuple[str, int]
    boxes: tuple[Box, ...] = ()
    rows: tuple[Row, ...] = ()
    start: int = 0
    end: int = 0


def sorted_boxes(boxes: list[Box | None]) -> tuple[Box, ...]:
    """The boxes that are there, from low addresses to high."""
    return tuple(sorted((box for box in boxes if box), key=lambda box: box.rank))


def between(kind: Kind, start: int, end: int) -> Box | None:
    """The bytes from one address up to another, where there are some."""
    return Box(kind, start, end - start) if start < end <= LAST_END else None


def heap_view(start: int, base: int, end: int, items: list[tuple[str, int, int]]) -> View:
    """The view of a heap with its items: "live" or "free", the address and the bytes."""
    boxes: list[Box | None] = [Box(Kind.DESCRIPTOR, start, DESCRIPTOR_BYTES)]
    boxes += [Box(Kind.LIVE if kind == "live" else Kind.FREE, at, size) for kind, at, size in items]
    boxes.append(between(Kind.ROOM, start + base, start + end))
    return View(("heap", start), sorted_boxes(boxes), start=start, end=start + end)


def flex_view(start: int, end: int, used: int, blocks: list[Box]) -> View:
    """The view of the flex store with its blocks, each behind its header."""
    boxes: list[Box | None] = []
    for block in blocks:
        header = between(Kind.HEADER, max(block.address - HEADER_BYTES, 0), block.address)
        boxes += [block, header]
    boxes.append(between(Kind.ROOM, start + used, end))
    return View(("flex", 0), sorted_boxes(boxes))


def area_boxes(base: int, size: int, most: int, name: str) -> list[Box | None]:
    """A dynamic area, and what it may grow by."""
    area = Box(Kind.AREA, base, size, name) if size < ADDRESSES else None
    return [area, between(Kind.UNUSED, base + size, base + most)]
