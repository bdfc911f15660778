"""The heaps of a machine, as records change them."""

from __future__ import annotations

from dataclasses import dataclass, field
from typing import Any

from .boxes import View, heap_view


class RecordError(Exception):
    """Why records can't be what a machine wrote."""


@dataclass
class Heap:
    """A heap: where its base and its end are, and its items: kind and bytes by their addresses."""

    base: int = 0
    end: int = 0
    items: dict[int, tuple[str, int]] = field(default_factory=dict)

    def take(self, change: dict[str, Any]) -> None:
        """Changes it as a record says. All that goes goes before anything comes."""
        self.base, self.end = change.get("base", self.base), change.get("end", self.end)
        items = change.get("items", [])
        for item in items:
            if item[0] != "+" and self.items.pop(item[2], None) is None:
                raise RecordError(f"there is no item of a heap at &{item[2]:X}, where one goes")
        for item in items:
            if item[0] == "+":
                self.items[item[2]] = (item[1], item[3])
            elif item[0] == "=":
                self.items[item[4]] = (item[1], item[5])


class Heaps:
    """All heaps, in the order in which they were made."""

    def __init__(self) -> None:
        self.heaps: dict[int, Heap] = {}

    def take(self, record: dict[str, Any]) -> None:
        """Changes them as a record says."""
        if "start" in record or "reset" in record:
            self.heaps.clear()
        for change in record.get("reset", record).get("heaps", []):
            if change.get("gone"):
                if self.heaps.pop(change["heap"], None) is None:
                    raise RecordError(f"no heap starts at &{change['heap']:X}, where one goes")
            else:
                self.heaps.setdefault(change["heap"], Heap()).take(change)

    def view(self, start: int) -> View:
        """What HEAP shows of the heap that starts there."""
        heap = self.heaps[start]
        items = [(kind, at, size) for at, (kind, size) in sorted(heap.items.items())]
        return heap_view(start, heap.base, heap.end, items)

    def inside(self, outer: View) -> list[View]:
        """What HEAP would show of each heap that lies in a block of this one."""
        return [self.view(start) for start in self.heaps if outer.start < start < outer.end]
