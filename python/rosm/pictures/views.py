"""What the answer to a view shows, as boxes: HEAP, FLEX, AREAS, MODULES and MEM.

The lines of an answer are the machine's own words for what stands there.
"""

from __future__ import annotations

import re
from typing import Callable

from .boxes import ADDRESSES, Box, Holder, Kind, Row, View, area_boxes, flex_view, heap_view, sorted_boxes

PAGE_BYTES = 4096
HEX = "([0-9A-F]{8})"
HEAP = re.compile(rf"heap {HEX} base (\d+) end (\d+)")
ITEM = re.compile(rf"(live|free) {HEX} (\d+)")
FLEX = re.compile(rf"flex {HEX} {HEX} used (\d+)")
BLOCK = re.compile(rf"block anchor {HEX} at {HEX} size (\d+)(?: in {HEX} offset (\d+))?")
AREA = re.compile(rf"area \d+ base {HEX} size (\d+) max (\d+) (.*)", re.DOTALL)
POOL = re.compile(r"pool (\d+) pages")
MODULE = re.compile(rf"module (.*) at {HEX} length (\d+)", re.DOTALL)
INSTANCE = re.compile(rf"  (.*) word {HEX} {HEX}( preferred)?", re.DOTALL)
ROW = re.compile(rf"{HEX}:((?: (?:[0-9A-F]{{2}}|--))+)")


def number(digits: str) -> int:
    """The number of eight hexadecimal digits."""
    return int(digits, 16)


def read_heap(lines: list[str]) -> View | None:
    """A line for the heap, and one for each item."""
    first, items = HEAP.fullmatch(lines[0]), [ITEM.fullmatch(line) for line in lines[1:]]
    if not first or not all(items):
        return None
    found = [(item[1], number(item[2]), int(item[3])) for item in items if item]
    return heap_view(number(first[1]), int(first[2]), int(first[3]), found)


def flex_block(found: re.Match[str]) -> Box:
    holder = Holder(number(found[4]), int(found[5])) if found[4] else None
    return Box(Kind.BLOCK, number(found[2]), int(found[3]), detail=number(found[1]), holder=holder)


def read_flex(lines: list[str]) -> View | None:
    """A line for the store, and one for each block."""
    first, blocks = FLEX.fullmatch(lines[0]), [BLOCK.fullmatch(line) for line in lines[1:]]
    if not first or not all(blocks):
        return None
    return flex_view(number(first[1]), number(first[2]), int(first[3]),
                     [flex_block(block) for block in blocks if block])


def read_areas(lines: list[str]) -> View | None:
    """A line for each area, and one for the pool."""
    areas, pool = [AREA.fullmatch(line) for line in lines[:-1]], POOL.fullmatch(lines[-1])
    if not pool or not all(areas):
        return None
    boxes: list[Box | None] = []
    for area in areas:
        if area:
            boxes += area_boxes(number(area[1]), int(area[2]), int(area[3]), area[4])
    size = int(pool[1]) * PAGE_BYTES
    boxes.append(Box(Kind.POOL, 0, size) if size < ADDRESSES else None)
    return View(("areas", 0), sorted_boxes(boxes))


def module_box(line: str) -> Box | None:
    if found := MODULE.fullmatch(line):
        return Box(Kind.MODULE, number(found[2]), int(found[3]), found[1])
    if found := INSTANCE.fullmatch(line):
        return Box(Kind.WORD, number(found[2]), 4, found[1], number(found[3]))
    return None


def read_modules(lines: list[str]) -> View | None:
    """A line for each module, and one for each of its instances."""
    boxes = [module_box(line) for line in lines]
    return View(("modules", 0), sorted_boxes(boxes)) if all(boxes) else None


def read_memory(lines: list[str]) -> View | None:
    """A line for each 16 bytes."""
    found = [ROW.fullmatch(line) for line in lines]
    if not all(found):
        return None
    rows = tuple(Row(number(row[1]), byte_values(row[2])) for row in found if row)
    return View(("memory", rows[0].address), rows=rows)


def byte_values(text: str) -> tuple[int | None, ...]:
    return tuple(None if byte == "--" else int(byte, 16) for byte in text.split())


READERS: dict[str, Callable[[list[str]], View | None]] = {
    "HEAP": read_heap,
    "FLEX": read_flex,
    "AREAS": read_areas,
    "MODULES": read_modules,
    "MEM": read_memory,
}


def view_of(command: str, lines: list[str]) -> View | None:
    """The view that the answer to a command shows; None where it is no view, or shows nothing."""
    reader = READERS.get(command)
    return reader(lines) if reader and lines else None
