"""Records of a run, so that the machine can be looked at after any of its moments.

A moment is the start, a step, or a line of the script that takes no step and changes something.
Nothing is replayed to look at one: each cell keeps the moments at which it was written.
"""

from __future__ import annotations

import json
from bisect import bisect_right
from typing import Any

from ..pictures.state import Heaps, RecordError
from .cells import Cell

Record = dict[str, Any]
MODES = ("USR", "FIQ", "IRQ", "SVC")
FLAGS = ("N", "Z", "C", "V", "I", "F")
# what an answer has where its line changed the machine
CHANGES = ("regs", "flags", "mode", "pc", "mem", "heaps", "flex", "flex_store", "areas", "pool", "modules",
           "places", "reset")
WHOLE = ("areas", "pool", "modules", "flex_store")


def banked(number: int, mode: str) -> str:
    """The name of the register Rn, 0 to 14, that a mode sees."""
    if mode == "FIQ" and number >= 8:
        return f"R{number}_fiq"
    if mode in ("IRQ", "SVC") and number >= 13:
        return f"R{number}_{mode.lower()}"
    return f"R{number}" if number < 8 else f"R{number}_usr"


class History:
    """The machine after each moment of a run, of which the last is `last`."""

    def __init__(self, start: Record) -> None:
        if start.get("start") != 1:
            raise RecordError("the first record is none of kind start, of version 1")
        self.texts = [json.dumps(start)]
        self.steps = [0]
        self.registers: dict[str, Cell[int]] = {name: Cell(value) for name, value in start["regs"].items()}
        self.flags: dict[str, Cell[int]] = {name: Cell(value) for name, value in start["flags"].items()}
        self.mode: Cell[str] = Cell(start["mode"])
        self.pc: Cell[int] = Cell(start["pc"])
        self.words: dict[int, Cell[int]] = {at: Cell(word) for at, _, word in start["mem"]}
        self.whole: dict[str, Cell[Any]] = {name: Cell(start["flex" if name == "flex_store" else name])
                                            for name in WHOLE}
        self.fixed: Cell[list[tuple[int, int]]] = Cell(fixed_ranges(start))
        self.places: Cell[dict[str, int]] = Cell({})
        self.flex: Cell[dict[int, tuple[int, int]]] = Cell({})
        # None where steps that weren't recorded one by one may have entered or left some
        self.frames: Cell[tuple[Record, ...] | None] = Cell(())
        self.heap_changes: list[tuple[int, Record]] = [(0, {"start": 1, "heaps": start["heaps"]})]
        self.printed: list[tuple[int, str]] = []
        self.lost: list[int] = []

    @property
    def last(self) -> int:
        return len(self.texts) - 1

    def moment_of_step(self, step: int) -> int:
        """The last moment at which so many steps were taken, or fewer where they weren't recorded one by one."""
        return bisect_right(self.steps, step) - 1

    def record(self, moment: int) -> Record:
        """The record of a moment."""
        found: Record = json.loads(self.texts[moment])
        return found

    # ---- records come

    def take(self, record: Record, text: str) -> None:
        """A record of a step or an answer comes."""
        if "step" in record:
            self._new(text, record["step"])
            self._take_step(record)
        elif any(key in record for key in CHANGES):
            if not record.get("steps"):
                self._new(text, self.steps[-1])
            if "reset" in record:
                self._reset(record["reset"])
            self._change(record)
            if "pc" in record:
                self.pc.put(self.last, record["pc"])

    def _new(self, text: str, steps: int) -> None:
        self.texts.append(text)
        self.steps.append(steps)

    def _take_step(self, record: Record) -> None:
        self._change(record)
        if "next" in record:
            self.pc.put(self.last, record["next"])
        elif "pc" in record and "stop" not in record and "skip" not in record:
            self.pc.put(self.last, (record["pc"] + 4) & 0xFFFFFFFF)
        self._take_frames(record)
        if "out" in record:
            self.printed.append((self.last, record["out"]))

    def _take_frames(self, record: Record) -> None:
        frames = self.frames.newest()
        if "skip" in record:
            self.frames.put(self.last, None)
        if frames is None or "skip" in record:
            return
        if "leaves" in record:
            frames = tuple(frame for frame in frames if frame["frame"] < record["leaves"])
        if "enters" in record:
            frames = (*frames, record["enters"])
        if frames is not self.frames.newest():
            self.frames.put(self.last, frames)

    def _change(self, record: Record) -> None:
        """What a record says is otherwise."""
        now = self.last
        for name, value in record.get("regs", {}).items():
            self.registers[name].put(now, value)
        for name, value in record.get("flags", {}).items():
            self.flags[name].put(now, value)
        if "mode" in record:
            self.mode.put(now, record["mode"])
        for at, old, word in record.get("mem", ()):
            self._write(at, old, word)
        if "more" in record:
            self.lost.append(now)
        for name in WHOLE:
            if name in record:
                self.whole[name].put(now, record[name])
        if "flex" in record:
            self.flex.put(now, flex_after(self.flex.newest(), record["flex"]))
        if "places" in record:
            self.places.put(now, places_after(self.places.newest(), record["places"]))
        if "heaps" in record:
            self.heap_changes.append((now, {"heaps": record["heaps"]}))

    def _write(self, at: int, old: int, word: int) -> None:
        cell = self.words.get(at)
        if cell is None:
            cell = self.words[at] = Cell(old)
        cell.put(self.last, word)

    def _reset(self, state: Record) -> None:
        """A fresh machine."""
        now = self.last
        for name, value in state["regs"].items():
            self.registers[name].put(now, value)
        for name, value in state["flags"].items():
            self.flags[name].put(now, value)
        self.mode.put(now, state["mode"])
        self.pc.put(now, state["pc"])
        fresh = {at: word for at, _, word in state["mem"]}
        for at in {*fresh, *self.words}:
            self._write(at, 0, fresh.get(at, 0))
        for name in WHOLE:
            self.whole[name].put(now, state["flex" if name == "flex_store" else name])
        self.fixed.put(now, fixed_ranges(state))
        self.places.put(now, {})
        self.flex.put(now, {})
        self.frames.put(now, ())
        self.heap_changes.append((now, {"reset": {"heaps": state["heaps"]}}))

    def cut(self, moment: int) -> None:
        """Forgets what came after a moment."""
        cells: list[Cell[Any]] = [*self.registers.values(), *self.flags.values(), *self.words.values(),
                                  *self.whole.values(), self.mode, self.pc, self.fixed, self.places, self.flex,
                                  self.frames]
        for cell in cells:
            cell.cut(moment)
        del self.texts[moment + 1:], self.steps[moment + 1:]
        self.heap_changes = [change for change in self.heap_changes if change[0] <= moment]
        self.printed = [piece for piece in self.printed if piece[0] <= moment]
        self.lost = [lost for lost in self.lost if lost <= moment]

    # ---- the machine after a moment

    def register(self, number: int, moment: int) -> int:
        """Rn, 0 to 15, as the mode then sees it; R15 is the program counter without the flags."""
        if number == 15:
            return self.pc.at(moment)
        return self.registers[banked(number, self.mode.at(moment))].at(moment)

    def word(self, at: int, moment: int) -> int:
        """The word at an address that is a multiple of 4, 0 where no memory is mapped."""
        cell = self.words.get(at)
        return cell.at(moment) if cell else 0

    def is_known(self, at: int, moment: int) -> bool:
        """Whether the records say what a word is: of very many that a step writes they have the first."""
        lost = [each for each in self.lost if each <= moment]
        cell = self.words.get(at)
        return not lost or cell is not None and cell.written(moment) >= lost[-1]

    def mapped(self, moment: int) -> list[tuple[int, int]]:
        """The ranges of memory that are mapped: address and bytes, by address."""
        areas = [(area["base"], area["size"]) for area in self.whole["areas"].at(moment)]
        return sorted([*self.fixed.at(moment), *(area for area in areas if area[1])])

    def heaps(self, moment: int) -> Heaps:
        """All heaps."""
        heaps = Heaps()
        for at, change in self.heap_changes:
            if at > moment:
                break
            heaps.take(change)
        return heaps

    def output(self, moment: int, after: int = -1) -> str:
        """What was printed up to a moment, after another."""
        return "".join(text for at, text in self.printed if after < at <= moment)


def fixed_ranges(state: Record) -> list[tuple[int, int]]:
    """The mapped memory that is no dynamic area's, whose sizes change."""
    bases = {area["base"] for area in state["areas"]}
    return [(at, size) for at, size in state["mapped"] if at not in bases]


def flex_after(blocks: dict[int, tuple[int, int]], changes: list[Any]) -> dict[int, tuple[int, int]]:
    """Flex blocks, address and size by their anchors, with such changes."""
    after = {anchor: block for anchor, block in blocks.items() if ["-", anchor] not in changes}
    after.update({change[1]: (change[2], change[3]) for change in changes if change[0] != "-"})
    return after


def places_after(places: dict[str, int], changes: list[Any]) -> dict[str, int]:
    """Where images are, with such changes."""
    after = dict(places)
    for name, at in changes:
        if at is None:
            after.pop(name, None)
        else:
            after[name] = at
    return after
