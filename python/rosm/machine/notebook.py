"""A machine in a notebook: tables without scripts, so that they stay when a notebook is sent or printed."""

from __future__ import annotations

from typing import TYPE_CHECKING

from .parts import Heap, escaped

if TYPE_CHECKING:
    from . import Machine

BAR_WIDTH = 480
SHOWN_OUTPUT = 2000
SHOWN_STEPS = 6
TABLE = '<table style="font-family:monospace;text-align:left">'
CHANGED = ' style="background:#ffe9a8;color:#000;font-weight:bold"'


def machine_table(machine: Machine) -> str:
    """Registers, flags, the last steps, heaps and the end of the output."""
    changed = changed_names(machine)
    rows = []
    for first in range(0, 16, 4):
        cells = "".join(register_cell(machine, number, changed) for number in range(first, first + 4))
        rows.append(f"<tr>{cells}</tr>")
    head = (f"<p>at <code>&amp;{machine.pc:X}</code>, <code>{machine.flags} {machine.mode}</code>,"
            f" {machine.steps} steps{moment_text(machine)}</p>")
    parts = [head, TABLE + "".join(rows) + "</table>"]
    trace = machine.trace(SHOWN_STEPS)
    if len(trace):
        parts.append(trace._repr_html_())
    parts += [heap_table(heap) for heap in machine.heaps() if heap.items]
    if machine.output:
        parts.append(f"<pre>{escaped(machine.output[-SHOWN_OUTPUT:])}</pre>")
    return f'<div class="rosm-machine">{"".join(parts)}</div>'


def moment_text(machine: Machine) -> str:
    last = machine.history.last
    return "" if machine.moment == last else f"; moment {machine.moment} of {last}"


def changed_names(machine: Machine) -> set[str]:
    """The registers that the present moment wrote."""
    history = machine.history
    return {name for name, cell in history.registers.items()
            if machine.moment and cell.written(machine.moment) == machine.moment}


def register_cell(machine: Machine, number: int, changed: set[str]) -> str:
    from .history import banked
    is_changed = number < 15 and banked(number, machine.mode) in changed
    mark = CHANGED if is_changed else ""
    return f"<th>R{number}</th><td{mark}>{machine.r[number]:08X}</td>"


def heap_table(heap: Heap) -> str:
    """A heap as a bar to scale, with its items below."""
    total = max(heap.end, 1)
    boxes = [(0, 16, "#7a869a", "descriptor")]
    for item in heap.items:
        colour = "#4c8bd6" if item.is_live else "#e3e3e3"
        boxes.append((item.item - heap.start, item.size, colour, str(item)))
    parts = []
    for at, size, colour, title in boxes:
        left, width = at * BAR_WIDTH / total, max(size * BAR_WIDTH / total, 1)
        parts.append(f'<rect x="{left:.1f}" y="1" width="{width:.1f}" height="20" fill="{colour}"'
                     f' stroke="#333" stroke-width="0.5"><title>{escaped(title)}</title></rect>')
    bar = (f'<svg width="{BAR_WIDTH + 2}" height="22" role="img" aria-label="heap &amp;{heap.start:X}">'
           f'<rect x="0" y="1" width="{BAR_WIDTH}" height="20" fill="none" stroke="#333"/>'
           f'{"".join(parts)}</svg>')
    live, free = heap.live, heap.free
    about = (f"heap <code>&amp;{heap.start:X}</code>, {heap.end} bytes: {len(live)} blocks of"
             f" {sum(item.size for item in live)}, {len(free)} free of {sum(item.size for item in free)}")
    return f"<p>{about}<br>{bar}</p>"

