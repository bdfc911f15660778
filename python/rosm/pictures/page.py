"""A script and its answers as text, with a picture under each view."""

from __future__ import annotations

from typing import Iterable, Iterator

from .bars import bar_lines
from .boxes import View
from .grid import grid_lines
from .layout import layout_of
from .records import Entry, Reader, Tally
from .state import RecordError
from .transcript import Answers
from .views import view_of

LINE_WIDTH = 100
ANSWER, GUEST, TRACE, STEPS = "       ", "     : ", "     | ", "     = "
PASSED, FAILED, REFUSED = "     + ", "     ! ", "     ? "
SPELT = {"\\": "\\\\", "\r": "\\r", "\t": "\\t", "\n": "\n"}
LEGEND_WIDTH = 89
LEGEND = """\
signs: d descriptor, # block, area or module, . free, p page pool, w private word,
~ what an area may grow by, / ends a box that is not to scale, ^ under what has changed
h header of a flex block, [ ] a heap in a block, { } the same beside what is not to scale
"""
NARROW_LEGEND = """\
signs: d descriptor, . free,
# block, area or module,
p page pool, w private word,
~ what an area may grow by,
/ ends a box not to scale,
^ under what has changed
h header of a flex block,
[ ] a heap in a block,
{ } the same, as / for |
"""


def spelt(text: str) -> str:
    """Bytes as a terminal shows them: `\\x1B` for one that isn't a printing character."""
    return "".join(SPELT.get(sign) or (sign if " " <= sign <= "~" else f"\\x{ord(sign):02X}")
                   for sign in text)


def lines_of(text: str) -> list[str]:
    """The lines of a text. A return before a line feed belongs to that line's end."""
    parts = text.split("\n")
    last = parts.pop()
    return [part.removesuffix("\r") for part in parts] + ([last] if last else [])


def guest_text(printed: str) -> str:
    """What a guest printed, without a return behind a line feed: OS_NewLine prints the two."""
    return printed.replace("\n\r", "\n")


def behind(front: str, text: str) -> list[str]:
    """The lines of a text, each behind a front."""
    return [front + spelt(line) for line in lines_of(text)]


class TextPage:
    """Writes a page of a script. `has_signs`: a sign stands before what a line EXPECT and a line
    that is refused are answered, and under registers that differ from those of the last REGS."""

    def __init__(self, width: int = LINE_WIDTH, has_signs: bool = True) -> None:
        self.width, self.has_signs = width, has_signs
        self.registers: list[str] = []
        self.views: dict[tuple[str, int], list[View]] = {}
        self.is_drawn = False

    def lines(self, records: Iterable[str], transcript: Iterable[str] | None = None) -> Iterator[str]:
        """The lines of the page, as the records come. RecordError: what is wrong with them.

        With the transcript of the same script they have its traces, too.
        """
        reader = Reader(records)
        answers = None if transcript is None else Answers(transcript)
        for entry in reader.entries():
            if answers:
                add_trace(entry, answers, reader)
            yield from self.entry_lines(entry, reader)
        if reader.tally and (summary := tally_lines(reader.tally)):
            yield from ["", *(ANSWER + line for line in summary)]
        if self.is_drawn:
            yield ""
            is_wide = self.width >= len(ANSWER) + LEGEND_WIDTH
            yield from behind(ANSWER, LEGEND if is_wide else NARROW_LEGEND)

    def entry_lines(self, entry: Entry, reader: Reader) -> list[str]:
        """The lines of the script under their numbers, what was printed, the answer, the picture."""
        lines = [f"{number:5}  {spelt(line)}" for number, line in enumerate(entry.lines, entry.number)]
        lines += behind(GUEST, guest_text(entry.printed)) + behind(TRACE, entry.trace)
        answer = behind(front_of(entry) if self.has_signs else ANSWER, entry.answer)
        lines += self.marked(answer) if entry.command == "REGS" and self.has_signs else answer
        if entry.steps > 1:
            lines.append(f"{STEPS}{entry.steps} steps")
        picture = [ANSWER + line for line in self.picture(entry, reader)]
        self.is_drawn |= bool(picture)
        return lines + picture

    def marked(self, answer: list[str]) -> list[str]:
        """The answer to REGS with `^` under each word that isn't as it was in the last one."""
        lines = []
        for place, line in enumerate(answer):
            lines.append(line)
            if place < len(self.registers):
                lines += carets(line, self.registers[place])
        self.registers = answer
        return lines

    def picture(self, entry: Entry, reader: Reader) -> list[str]:
        """The picture of the view that a line asks for, if it does, since the last of the same."""
        view = view_of(entry.command, lines_of(entry.answer)) if not entry.refused else None
        if view is None:
            return []
        views = [view]
        if entry.command == "HEAP":
            check_heap(entry, view, reader)
            views += reader.heaps.inside(view)
        before = self.views.get(view.thing, [])
        self.views[view.thing] = views
        room = self.width - len(ANSWER)
        if view.rows:
            return grid_lines(view, before[0] if before else None, room)
        return bar_lines(layout_of(views, before, self.width), room)


def add_trace(entry: Entry, answers: Answers, reader: Reader) -> None:
    """Puts the trace of a line in, where it has one: what stands before how its steps ended."""
    whole = answers.of_next(len(entry.lines))
    if reader.tally:
        # how many passed stands behind the last answer
        whole = whole.removesuffix("".join(f"{line}\n" for line in tally_lines(reader.tally)))
    if entry.command == "REPEAT":
        # all that is answered stands there, each trace before its ending
        entry.answer = whole
        return
    if not whole.endswith(entry.answer):
        raise RecordError(f"line {entry.number}: the transcript has another answer than the records")
    if (front := whole[:len(whole) - len(entry.answer)]) != entry.printed:
        entry.printed, entry.trace = "", front


def check_heap(entry: Entry, view: View, reader: Reader) -> None:
    """The records of what steps left must come to what the view shows."""
    if view.start not in reader.heaps.heaps or reader.heaps.view(view.start) != view:
        raise RecordError(f"line {entry.number}: by its records the heap isn't as its view shows it")


def front_of(entry: Entry) -> str:
    if entry.passed is False:
        return FAILED
    return REFUSED if entry.refused else PASSED if entry.passed else ANSWER


def carets(line: str, before: str) -> list[str]:
    """`^` under each word of a line that isn't the one at its place in another line."""
    new, old = line.removeprefix(ANSWER).split(" "), before.removeprefix(ANSWER).split(" ")
    others = [*old, *new[len(old):]]
    marks = [("^" if word != other else " ") * len(word) for word, other in zip(new, others)]
    shown = " ".join(marks).rstrip()
    return [ANSWER + shown] if shown else []


def tally_lines(tally: Tally) -> list[str]:
    """How many lines passed, failed and were refused, where a line expects something."""
    if not tally.expects:
        return []
    refused = f", {tally.refused} refused" if tally.refused else ""
    return [f"{tally.passed} passed, {tally.failed} failed{refused}"]
