"""Where the boxes of a picture stand in its bar: heaps inside the blocks that have them."""

from __future__ import annotations

from dataclasses import dataclass

from .boxes import ADDRESSES, Box, Kind, View
from .changes import gone_boxes, histories

# the most characters of a line of which a bar has a part, and what is no part of the bar
MOST_WIDTH = 1352
BESIDE = 20
UNUSED_WIDTH = 4


@dataclass(frozen=True)
class Shown:
    """A box, what has become of it, where its heap starts, and in how many heaps that lies."""

    box: Box
    change: str
    heap: int
    depth: int

    @property
    def rank(self) -> tuple[int, int]:
        """At one address, what a block has behind a heap in it comes first."""
        return self.box.rank, 127 - min(self.depth, 127) if self.box.kind is Kind.REST else 128


@dataclass(frozen=True)
class Drawn:
    """A box with its place in a bar.

    `behind` is the depth of the next box. A box that is widened has more characters than its share.
    """

    box: Box
    change: str
    heap: int
    depth: int
    behind: int
    width: int
    is_widened: bool


@dataclass(frozen=True)
class Layout:
    """The boxes of a picture, the address behind the last, and the boxes that are gone."""

    boxes: list[Drawn]
    end: int | None
    gone: list[Box]


def layout_of(views: list[View], before: list[View], width: int) -> Layout:
    """The picture of a view, or of a heap and of those in its blocks, in lines of that width."""
    shown, gone = nested_boxes(views, before)
    shared = max(min(width, MOST_WIDTH) - BESIDE, 0) * 3 // 4
    sizes = [seen_bytes(shown, place) for place in range(len(shown))]
    total = max(sum(scaled_by(one.box, size) for one, size in zip(shown, sizes)), 1)
    boxes = []
    for place, (one, size) in enumerate(zip(shown, sizes)):
        share = min(scaled_by(one.box, size) * shared // total, shared)
        least = least_width(one.box, size)
        behind = shown[place + 1].depth if place + 1 < len(shown) else 0
        boxes.append(Drawn(one.box, one.change, one.heap, one.depth, behind,
                           max(share, least), share < least))
    return Layout(boxes, end_of(shown), gone)


def seen_bytes(shown: list[Shown], place: int) -> int:
    """How many bytes of a box stand before the next one, which may lie in it."""
    box = shown[place].box
    if place + 1 == len(shown):
        return box.size
    return min(box.size, max(shown[place + 1].box.rank - box.rank, 0))


def scaled_by(box: Box, size: int) -> int:
    """What an area may grow by is no memory yet, and counts nothing."""
    return 0 if box.kind is Kind.UNUSED else size


def least_width(box: Box, size: int) -> int:
    if box.kind is Kind.UNUSED:
        return UNUSED_WIDTH
    return min(size, 1) if box.kind is Kind.REST else 1


def end_of(shown: list[Shown]) -> int | None:
    """Where a heap or the flex store ends."""
    if shown and shown[-1].box.kind in (Kind.LIVE, Kind.FREE, Kind.ROOM, Kind.REST):
        return min(shown[-1].box.end, ADDRESSES - 1)
    return None


def nested_boxes(views: list[View], before: list[View]) -> tuple[list[Shown], list[Box]]:
    """The boxes of views, from low addresses to high, and those of the views before that are gone."""
    older = {view.thing: view for view in reversed(before)}
    shown: list[Shown] = []
    gone: list[Box] = []
    for view in views:
        depth = sum(1 for outer in views if outer.start < view.start < outer.end)
        found = histories(view.boxes, older.get(view.thing))
        gone += gone_boxes(found, view.boxes, older.get(view.thing))
        is_new = bool(before) and view.thing not in older
        for history in found:
            change = "new" if is_new and history.box.kind is Kind.DESCRIPTOR else history.change
            shown.append(Shown(history.box, change, view.start, depth))
        shown += rest_behind(view, views, depth)
    there = {view.thing for view in views}
    gone += [box for view in before if view.thing not in there for box in view.boxes[:1]]
    return sorted(shown, key=lambda one: one.rank), gone


def rest_behind(view: View, views: list[View], depth: int) -> list[Shown]:
    """What the block round a heap has behind it, up to the next heap or the block's end."""
    limit = ADDRESSES
    for other in views:
        if view.end <= other.start:
            limit = min(limit, other.start)
        for box in other.boxes:
            if box.kind is Kind.LIVE and box.address < view.start < box.end:
                limit = min(limit, box.end)
    if depth == 0 or not view.end <= limit < ADDRESSES:
        return []
    return [Shown(Box(Kind.REST, view.end, limit - view.end), "", 0, depth - 1)]
