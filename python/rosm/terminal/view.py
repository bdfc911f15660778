"""The machine in a few lines of text: registers, flags, and heaps as bars."""

from __future__ import annotations

from ..machine.history import FLAGS, History
from ..pictures.state import Heap

# pieces of a line: a style, and a text
Piece = tuple[str, str]
MOST_HEAPS = 2
REGISTER_WIDTH = 13
LEAST_COLUMNS, LEAST_ROWS = 60, 14


def view_lines(history: History, columns: int, rows: int) -> list[list[Piece]]:
    """What there is room for: nothing in a small terminal."""
    if columns < LEAST_COLUMNS or rows < LEAST_ROWS:
        return []
    lines = [status_line(history), *register_lines(history, columns)]
    heaps = [(start, heap) for start, heap in history.heaps(history.last).heaps.items() if heap.items]
    lines += [heap_line(start, heap, columns) for start, heap in heaps[-MOST_HEAPS:]]
    return lines[:rows // 3]


def status_line(history: History) -> list[Piece]:
    """Where the machine stands, flags and mode."""
    now = history.last
    flags = "".join(name if history.flags[name].at(now) else name.lower() for name in FLAGS)
    return [("class:name", "at "), ("class:value", f"&{history.register(15, now):X}"),
            ("class:name", "  "), ("class:value", f"{flags} {history.mode.at(now)}"),
            ("class:name", f"  {history.steps[-1]} steps")]


def register_lines(history: History, columns: int) -> list[list[Piece]]:
    """R0 to R14, so many in a line as there is room for; what the last moment wrote stands out."""
    now = history.last
    count = max(columns // REGISTER_WIDTH, 1)
    lines = []
    for first in range(0, 15, count):
        line: list[Piece] = []
        for number in range(first, min(first + count, 15)):
            value = history.register(number, now)
            is_new = number < 15 and now > 0 and was_written(history, number)
            line += [("class:name", f"R{number}".ljust(4)), ("class:new" if is_new else "class:value", f"{value:08X}"),
                     ("", " ")]
        lines.append(line)
    return lines


def was_written(history: History, number: int) -> bool:
    from ..machine.history import banked
    cell = history.registers[banked(number, history.mode.at(history.last))]
    return cell.written(history.last) == history.last


def heap_line(start: int, heap: Heap, columns: int) -> list[Piece]:
    """A heap as a bar: # a block, . free, a blank behind the last used byte."""
    front = f"heap &{start:X} "
    width = max(columns - len(front) - 3, 10)
    line: list[Piece] = [("class:name", front + "|")]
    line += [(style, sign * (until - since)) for style, sign, since, until in bar_parts(start, heap, width)]
    return [*line, ("class:name", "|")]


def bar_parts(start: int, heap: Heap, width: int) -> list[tuple[str, str, int, int]]:
    """The parts of a bar, each with its style, its sign and its places."""
    total = max(heap.end, 1)
    edges = [("class:descriptor", "d", 0, 16)]
    edges += [("class:live" if kind == "live" else "class:free", "#" if kind == "live" else ".", at - start,
               at - start + size) for at, (kind, size) in sorted(heap.items.items())]
    edges.append(("class:name", " ", max(heap.base, 16), heap.end))
    parts = []
    place = 0
    for style, sign, _, until in edges:
        end = min(max(until * width // total, place), width)
        parts.append((style, sign, place, end))
        place = end
    return parts
