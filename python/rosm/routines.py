"""Routines of a program: which of its labels begin one, and how long one is that has labels within it.

GDB takes each symbol among code for a function, up to the next one, unless a symbol before it has a size
that reaches further. So the label of a loop ends the routine that it stands in, and `bt` loses the caller,
where that routine's own symbol has no size.
"""

from __future__ import annotations

from bisect import bisect_right

from .program import Program

_ALWAYS, _NEVER = 14, 15
_PC = 15


def sizes(program: Program) -> dict[int, int]:
    """How many bytes a routine has, by its address: of each routine that has a label within it."""
    flow = Flow(program)
    starts = flow.starts()
    places = sorted({label.address for label in program.labels})
    found: dict[int, int] = {}
    for place, following in zip(starts, [*starts[1:], program.end()]):
        if any(place < other < following for other in places):
            found[place] = following - place
    return found


class Flow:
    """Where the instructions of a program lead."""

    def __init__(self, program: Program) -> None:
        self.places = sorted({label.address for label in program.labels})
        self.words: dict[int, int] = {}
        for row in program.sorted_rows():
            if row.code:
                for at in range(row.address, row.address + row.length - 3, 4):
                    self.words[at] = int.from_bytes(program.bytes_at(at, 4), "little")
        self.branches: list[tuple[int, int]] = []
        self.called: set[int] = set()
        for at, word in self.words.items():
            target = branch_target(at, word)
            if target is None:
                continue
            if word >> 24 & 1:
                self.called.add(target)
            else:
                self.branches.append((at, target))

    def starts(self) -> list[int]:
        """Where routines begin: at the first label, and at each that doesn't stand within one."""
        reached = {target for _, target in self.branches}
        sure = [place for place in self.places
                if place == self.places[0] or place in self.called or place not in reached]
        found: list[int] = []
        for place in self.places:
            if place in sure or not self.is_within(found[-1], place, first_behind(sure, place)):
                found.append(place)
        return found

    def is_within(self, start: int, place: int, end: int | None) -> bool:
        """Whether the routine that begins at `start` and ends before `end` goes on at a label behind it.

        Something in it branches to the label, and it comes there from before: by that branch, by going on
        to the next instruction, or by a branch over the label.
        """
        inside = [(at, to) for at, to in self.branches if start <= at and (end is None or at < end)]
        if not any(to == place for _, to in inside):
            return False
        leads_on = any(at < place <= to and (end is None or to < end) for at, to in inside)
        return leads_on or self.goes_on_to(place)

    def goes_on_to(self, place: int) -> bool:
        """Whether an instruction stands right before an address that doesn't always lead elsewhere."""
        word = self.words.get(place - 4)
        return word is not None and not always_leaves(word)


def first_behind(places: list[int], place: int) -> int | None:
    """The first of sorted addresses that is behind another, if there is one."""
    index = bisect_right(places, place)
    return places[index] if index < len(places) else None


def branch_target(at: int, word: int) -> int | None:
    """Where B or BL leads (ARM2 data sheet, "Branch and branch with link"); None for another word."""
    if word >> 25 & 7 != 5 or word >> 28 == _NEVER:
        return None
    offset = (word & 0xFFFFFF) - (word << 1 & 0x1000000)
    return at + 8 + 4 * offset & 0x3FFFFFC


def always_leaves(word: int) -> bool:
    """Whether an instruction always leads elsewhere than to the next one: it is B, or it sets R15."""
    if word >> 28 != _ALWAYS:
        return False
    group = word >> 25 & 7
    if group == 5:
        return not word >> 24 & 1
    if group == 4:
        return bool(word >> 20 & 1 and word >> _PC & 1)
    if group in (2, 3):
        return bool(word >> 20 & 1) and word >> 12 & 15 == _PC
    is_test = word >> 23 & 3 == 2
    return group in (0, 1) and not is_test and word >> 12 & 15 == _PC
