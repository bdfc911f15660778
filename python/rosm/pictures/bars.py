"""A picture as text: rows of a bar, marks and addresses under it, and lines that say more."""

from __future__ import annotations

from .boxes import ADDRESSES, Box, Kind
from .layout import Drawn, Layout

LINE_WIDTH = 100
# room for an address behind the last box of a row
ADDRESS_DIGITS = 8
LENGTH_BYTES = 4
# by whether a box is wider than its share: where a heap in a block begins, where it ends, elsewhere
EDGES = {False: ("[", "]", "|"), True: ("{", "}", "/")}


def bar_lines(layout: Layout, room: int) -> list[str]:
    """The picture in lines of at most so many characters."""
    lines = []
    rest = layout.boxes
    while rest:
        count = row_length(rest, room - ADDRESS_DIGITS)
        row, rest = rest[:count], rest[count:]
        lines += row_lines(row, None if rest else layout.end)
    lines += [f"{box_words(one.box)} {one.change}" for one in layout.boxes if one.change]
    lines += [f"{box_words(box)} gone" for box in layout.gone]
    return lines + list_lines(layout.boxes, room)


def row_length(boxes: list[Drawn], room: int) -> int:
    """How many boxes a row takes: as many as have room with their edges, and one at least."""
    left = room - 1
    for place, one in enumerate(boxes):
        if left <= one.width:
            return max(place, 1)
        left -= one.width + 1
    return len(boxes)


def row_lines(boxes: list[Drawn], end: int | None) -> list[str]:
    """A row of the bar, the marks under what has changed, and the addresses."""
    bar, marks, addresses = "|", " ", ""
    for one in boxes:
        if len(addresses) < len(bar) and one.box.kind is not Kind.POOL:
            addresses = addresses.ljust(len(bar)) + f"{one.box.address:X}"
        bar += one.box.kind.sign * one.width + edge_of(one)
        marks += ("^" if one.change else " ") * one.width + " "
    if end is not None and len(addresses) < len(bar):
        addresses = addresses.ljust(len(bar)) + f"{end:X}"
    marks = marks.rstrip()
    return [bar, *([marks] if marks else []), addresses]


def edge_of(one: Drawn) -> str:
    """The right edge of a box."""
    begins, ends, other = EDGES[one.is_widened]
    return begins if one.depth < one.behind else ends if one.behind < one.depth else other


def box_words(box: Box) -> str:
    """The address of a box, and what it is; the page pool is at no address."""
    return box.kind.word if box.kind is Kind.POOL else f"{box.address:08X} {box.kind.word}"


def list_lines(boxes: list[Drawn], room: int) -> list[str]:
    """The blocks' own addresses, the free chain of each heap, and anchors that lie in blocks."""
    live = [one.box.address for one in boxes if one.box.kind is Kind.LIVE]
    lines = folded("blocks", [f" {(at + LENGTH_BYTES) % ADDRESSES:08X}" for at in live], "", room)
    for heap in [one.box.address for one in boxes if one.box.kind is Kind.DESCRIPTOR]:
        free = [one.box.address for one in boxes if one.box.kind is Kind.FREE and one.heap == heap]
        lines += folded("free chain", [f" {at:08X} ->" for at in free], " end", room)
    anchors = [one.box for one in boxes if one.box.holder]
    return lines + [f"anchor {box.detail:08X} -> {box.address:08X}" for box in anchors]


def folded(front: str, words: list[str], end: str, room: int) -> list[str]:
    """Words of one length behind a front, so many in a line as have room with the end."""
    if not words:
        return []
    most = max((room - len(front) - len(end)) // len(words[0]), 1)
    rows = ["".join(words[place:place + most]) for place in range(0, len(words), most)]
    lines = [front + rows[0], *(" " * len(front) + row for row in rows[1:])]
    lines[-1] += end
    return lines
