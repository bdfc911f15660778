"""What has become of each box since the last picture of the same thing, and which are gone."""

from __future__ import annotations

from dataclasses import dataclass

from .boxes import CARVED, LASTING, Box, Kind, View

MODULE_AREA = 0x01800000
# how deep blocks that hold the anchors of others are followed
DEEP = 8


@dataclass(frozen=True)
class History:
    """A box, the number of the older box that it was, and what has become of it, in words."""

    box: Box
    older: int | None
    change: str


def histories(boxes: tuple[Box, ...], before: View | None) -> list[History]:
    """What each box was, and what has become of it."""
    olds = compared_with(boxes, before)
    return [History(box, None, "") for box in boxes] if olds is None else Comparison(olds, boxes).all()


def gone_boxes(found: list[History], boxes: tuple[Box, ...], before: View | None) -> list[Box]:
    """The older boxes that are no more."""
    olds = compared_with(boxes, before) or ()
    kept = {history.older for history in found}
    carved = {box.address for box in boxes if box.kind in CARVED}
    return [old for place, old in enumerate(olds) if old.kind not in LASTING and place not in kept
            and not (old.kind in CARVED and old.address in carved)]


def compared_with(boxes: tuple[Box, ...], before: View | None) -> tuple[Box, ...] | None:
    """The older boxes, unless a heap was made anew since: its end is another, and not all its
    blocks are as they were."""
    if before is None or is_made_anew(before.boxes, boxes):
        return None
    return before.boxes


def is_made_anew(olds: tuple[Box, ...], news: tuple[Box, ...]) -> bool:
    if not (is_heap(olds) and is_heap(news)) or olds[-1].end == news[-1].end:
        return False
    there = {(box.address, box.size) for box in news if box.kind is Kind.LIVE}
    return any((old.address, old.size) not in there for old in olds if old.kind is Kind.LIVE)


def is_heap(boxes: tuple[Box, ...]) -> bool:
    return bool(boxes) and boxes[0].kind is Kind.DESCRIPTOR


def live_sizes(boxes: tuple[Box, ...]) -> list[int]:
    return [box.size for box in boxes if box.kind is Kind.LIVE]


class Comparison:
    """The boxes of two pictures of one thing."""

    def __init__(self, olds: tuple[Box, ...], news: tuple[Box, ...]) -> None:
        self.olds, self.news = olds, news
        # the module area's blocks slide where it is tidied
        self.is_tidied = (
            is_heap(olds) and is_heap(news) and olds[0].address == news[0].address == MODULE_AREA
            and live_sizes(olds) == live_sizes(news)
        )
        self.places: dict[tuple[Kind, int], int] = {}
        for place, old in enumerate(olds):
            self.places.setdefault((old.kind, old.address), place)

    def all(self) -> list[History]:
        found, first = [], 0
        for box in self.news:
            in_order = box.kind is Kind.BLOCK or box.kind is Kind.LIVE and self.is_tidied
            older = self.older_of(box, first if in_order else 0)
            found.append(History(box, older, self.change(box, older)))
            if in_order and older is not None:
                first = older + 1
        return found

    def older_of(self, box: Box, first: int) -> int | None:
        """The number of the older box that this one was, from the first on."""
        if box.kind not in (Kind.BLOCK, Kind.DESCRIPTOR, Kind.ROOM, Kind.POOL, Kind.MODULE) \
                and not (box.kind is Kind.LIVE and self.is_tidied):
            return self.places.get((box.kind, box.address))
        for place in range(first, len(self.olds)):
            if self.is_older(box, self.olds[place]):
                return place
        return None

    def is_older(self, box: Box, old: Box) -> bool:
        if box.kind is not old.kind:
            return False
        if box.kind is Kind.LIVE:
            return box.size == old.size
        if box.kind is Kind.BLOCK:
            return self.is_same_anchor(old, box, DEEP)
        return box.kind is not Kind.MODULE or box.name == old.name

    def is_same_anchor(self, old: Box, new: Box, deep: int) -> bool:
        """Whether the anchor of an older block can be that of a newer one."""
        if old.holder is None or new.holder is None:
            return old.holder is new.holder and old.detail == new.detail
        one = block_at(self.olds, old.holder.address)
        other = block_at(self.news, new.holder.address)
        if one is None or other is None:
            return True
        may_be = old.holder.offset == new.holder.offset or one.size != other.size
        return may_be and (deep == 0 or self.is_same_anchor(one, other, deep - 1))

    def change(self, box: Box, place: int | None) -> str:
        """What has become of a box that was this older one, if it was there."""
        if box.kind in (Kind.DESCRIPTOR, Kind.UNUSED, Kind.HEADER, Kind.REST):
            return ""
        old = None if place is None else self.olds[place]
        if box.kind is Kind.FREE:
            return self.free_change(box, old)
        return "new" if old is None else change_between(old, box)

    def free_change(self, box: Box, old: Box | None) -> str:
        if old is not None and old.size == box.size:
            return ""
        if self.is_tidied:
            return "left by what moved"
        free = [older for older in self.olds if older.kind is Kind.FREE]
        if any(is_within(box, older) for older in free):
            return "cut"
        return "joined" if any(is_within(older, box) for older in free) else "freed"


def block_at(boxes: tuple[Box, ...], address: int) -> Box | None:
    """The first flex block whose bytes begin there."""
    return next((box for box in boxes if box.kind is Kind.BLOCK and box.address == address), None)


def is_within(inner: Box, outer: Box) -> bool:
    return outer.address <= inner.address and inner.end <= outer.end


def change_between(old: Box, new: Box) -> str:
    """What has become of a box that was this one."""
    if new.kind in (Kind.ROOM, Kind.POOL):
        return "grown" if old.size < new.size else "shrunk" if new.size < old.size else ""
    if new.kind is Kind.MODULE and new.size != old.size:
        return "replaced"
    if new.address != old.address:
        return "slid" if new.kind is Kind.BLOCK else f"moved from {old.address:08X}"
    if new.size != old.size:
        return "resized"
    if new.kind in (Kind.LIVE, Kind.MODULE):
        return ""
    is_same = new.detail == old.detail and (new.kind is Kind.BLOCK or new.name == old.name)
    return "" if is_same else "changed"
