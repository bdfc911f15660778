"""Areas and their literal pools, and the order in which a linker lays areas down."""

from __future__ import annotations

from dataclasses import dataclass, field
from typing import Hashable

from ..messages import Position

LARGEST = 4 << 20  # bytes of one area


@dataclass(eq=False)
class PoolEntry:
    """A word of a pool: its value (a number, or a Distance), and the line that first asked for it."""

    key: Hashable
    value: object
    position: Position


@dataclass(eq=False)
class Row:
    """Bytes of an area that one line made."""

    offset: int
    length: int
    position: Position
    code: bool


@dataclass(eq=False)
class Area:
    """An area: what is known from pass to pass, and what this pass has laid so far."""

    name: str
    number: int  # in the order of first lines
    code: bool = True
    readonly: bool = True
    zeros: bool = False  # NOINIT: behind all that has bytes
    alignment: int = 4
    position: Position | None = None
    address: int = 0  # as the pass before ended
    fixed: int | None = None  # the address that ORG gave
    pools: list[int] = field(default_factory=list)  # offsets, as the pass before ended
    data: bytearray = field(default_factory=bytearray)
    rows: list[Row] = field(default_factory=list)
    relocated: list[int] = field(default_factory=list)
    waiting: list[PoolEntry] = field(default_factory=list)
    waiting_keys: dict[Hashable, int] = field(default_factory=dict)
    pools_laid: list[int] = field(default_factory=list)

    def begin_pass(self) -> None:
        """Forgets what the pass before laid, and keeps where its pools stood."""
        self.pools = self.pools_laid
        self.pools_laid, self.waiting, self.waiting_keys = [], [], {}
        self.data, self.rows, self.relocated = bytearray(), [], []

    def here(self) -> int:
        """The offset of the next byte."""
        return len(self.data)

    def pool_place(self, index: int) -> int | None:
        """Where the word of the pool that is waiting will stand; None before the first pass ends."""
        number = len(self.pools_laid)
        return self.pools[number] + 4 * index if number < len(self.pools) else None

    def rank(self) -> tuple[bool, bool, bool, str, int]:
        """Read-only before writable, code before data, zeros last; by name, then by first line."""
        return not self.readonly, self.zeros, not self.code, self.name, self.number


def place_areas(areas: list[Area], origin: int, linked: bool) -> bool:
    """Gives each area its address; returns whether one moved.

    What stands before all areas comes first. An area with ORG stands where that says.
    """
    named = [area for area in areas if area.name]
    order = [area for area in areas if not area.name]
    order += sorted(named, key=Area.rank) if linked else named
    address, moved = origin, False
    for area in order:
        step = max(4, area.alignment)
        address = (address + step - 1) // step * step if area.data or area.name else address
        start = address if area.fixed is None else area.fixed
        moved |= start != area.address
        area.address = start
        address = start + len(area.data)
    return moved


def linker_names(areas: list[Area], origin: int) -> dict[str, int]:
    """The names that a linker gives addresses: where the image's parts and each area begin and end.

    A part without areas begins and ends where the one before it ends. `Image$$RW$$Limit` isn't given where
    there are areas with NOINIT, since manuals differ in whether these are before it.
    """
    found: dict[str, int] = {}
    named = [area for area in areas if area.name]
    at = origin
    for part, its in (("RO", [area for area in named if area.readonly and not area.zeros]),
                      ("RW", [area for area in named if not area.readonly and not area.zeros]),
                      ("ZI", [area for area in named if area.zeros])):
        found[f"Image$${part}$$Base"] = min((area.address for area in its), default=at)
        at = max((area.address + len(area.data) for area in its), default=at)
        found[f"Image$${part}$$Limit"] = at
    if any(area.zeros for area in named):
        del found["Image$$RW$$Limit"]
    for area in named:
        found[f"{area.name}$$Base"] = area.address
        found[f"{area.name}$$Limit"] = area.address + len(area.data)
    return found


def order_differs(areas: list[Area]) -> bool:
    """Whether the linker's order is another than the source's, among areas with bytes."""
    full = [area for area in areas if area.data and area.name]
    return sorted(full, key=Area.rank) != full
