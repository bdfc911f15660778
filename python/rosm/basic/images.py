"""What comes out: the bytes that a program laid, with their lines and labels."""

from __future__ import annotations

import re
from array import array
from dataclasses import dataclass, field
from typing import TYPE_CHECKING

from ..messages import Position, SourceError
from ..program import Label, Program, Row
from .memory import Block, Memory
from .tokens import T
from .values import BasicError

if TYPE_CHECKING:
    from .interpreter import Basic
    from .lines import Line


MOST_RECORDS = 1_000_000  # pieces that are laid, and labels


@dataclass(slots=True)
class Record:
    """Bytes of one statement: where they are laid, where they will run, and what is wrong."""

    target: int
    address: int
    length: int
    position: Position
    code: bool
    fault: SourceError | None
    stage: int  # the pass, counted for each area


@dataclass(slots=True)
class Mark:
    """A label as one pass set it."""

    name: str
    address: int
    target: int
    position: Position


@dataclass
class Area:
    """What was laid in one block of DIM."""

    block: Block | None
    first: int
    end: int
    stage: int = 0  # the pass in which bytes are laid now
    labels: list[Mark] = field(default_factory=list)
    before: list[Mark] = field(default_factory=list)  # the labels of the pass before


class Laid:
    """All bytes that were laid, each by its last record."""

    def __init__(self, memory: Memory) -> None:
        self.memory = memory
        self.records: list[Record] = []
        self.moving: dict[int, bool] = {}  # data by where it is laid: it has an address of the program
        self.names: set[str] = set()  # of labels
        self.by_byte = array("i")  # for each byte from the heap on its record, or -1
        self.marks: dict[tuple[str, Position], Mark] = {}  # each label as it was set last
        self.areas: dict[int, Area] = {}
        self.last_area: Area | None = None

    def begins(self, target: int) -> bool:
        """Whether a new pass begins at an address: this pass has laid its byte already."""
        offset = target - self.memory.heap
        if not 0 <= offset < len(self.by_byte) or self.by_byte[offset] < 0:
            return False
        area = self.area(target)
        if self.records[self.by_byte[offset]].stage != area.stage:
            return False
        area.before, area.labels = area.labels, []
        area.stage += 1
        return True

    def area(self, target: int) -> Area:
        """The area of an address."""
        area = self.last_area
        if not (area and area.block and area.block.has(target)):
            block = self.memory.block_at(target)
            key = block.address if block else -1
            area = self.areas.get(key)
            if area is None:
                area = self.areas[key] = Area(block, target, target)
            self.last_area = area
        return area

    def add(
        self,
        target: int,
        address: int,
        data: bytes,
        position: Position,
        code: bool,
        fault: SourceError | None,
    ) -> None:
        """Notes bytes that were laid."""
        if not data:
            return
        area = self.area(target)
        area.first = min(area.first, target)
        area.end = max(area.end, target + len(data))
        self._note(Record(target, address, len(data), position, code, fault, area.stage))

    def _note(self, record: Record) -> None:
        """Gives bytes their record; the same bytes of the pass before have it no more."""
        by_byte, start = self.by_byte, record.target - self.memory.heap
        end = start + record.length
        if end > len(by_byte):
            by_byte.extend([-1] * (end - len(by_byte) + 4096))
        number = by_byte[start]
        known = self.records[number] if number >= 0 else None
        if known and known.target == record.target and known.length == record.length:
            self.records[number] = record
        else:
            number = len(self.records)
            if number >= MOST_RECORDS:
                raise BasicError(f"the program lays more than {MOST_RECORDS} pieces")
            self.records.append(record)
        by_byte[start:end] = array("i", [number]) * record.length

    def label(self, name: str, address: int, target: int, position: Position) -> None:
        """Notes a label."""
        if len(self.marks) >= MOST_RECORDS:
            raise BasicError(f"the program sets more than {MOST_RECORDS} labels", name)
        self.names.add(name)
        mark = self.marks[name, position] = Mark(name, address, target, position)
        self.area(target).labels.append(mark)

    def pause(self, target: int) -> None:
        """`]`, or the program's end: what P% passed over before it belongs to the area."""
        area = self.last_area
        if area and area.block and area.block.address <= target <= area.block.address + area.block.size:
            area.end = max(area.end, target) if area.end > area.first else area.end


def pieces(laid: Laid, start: int, end: int) -> list[tuple[int, int, Record]]:
    """The bytes from start to end as runs of one record: place, length, record."""
    found: list[tuple[int, int, Record]] = []
    heap, by_byte = laid.memory.heap, laid.by_byte
    place, end = max(start - heap, 0), min(end - heap, len(by_byte))
    while place < end:
        number, first = by_byte[place], place
        while place < end and by_byte[place] == number:
            place += 1
        if number >= 0:
            found.append((first + heap, place - first, laid.records[number]))
    return found


def image_of(basic: Basic, start: int, end: int) -> Program:
    """Memory from start up to end as a program, whose origin is where its bytes will run."""
    laid = basic.assembly.laid
    runs = pieces(laid, start, end)
    distance = runs[0][2].address - runs[0][2].target if runs else 0
    program = Program((start + distance) & 0xFFFFFFFF, basic.memory.read(start, end - start))
    elsewhere = False
    for place, length, record in runs:
        if record.address - record.target != distance and not elsewhere:
            elsewhere = True
            basic.messages.warn(
                record.position,
                "this is laid for another place than what is before it:"
                f" at &{record.address & 0xFFFFFFFF:X}, and the image has it at"
                f" &{place + distance & 0xFFFFFFFF:X}",
            )
        if record.fault:
            basic.messages.error(record.position, record.fault.reason, record.fault.word)
        program.rows.append(Row(place + distance & 0xFFFFFFFF, length, record.position, record.code))
    if program.origin:  # a module has the origin 0, and its words hold offsets
        moving = (place for place, moves in laid.moving.items() if moves and start <= place < end)
        program.relocated = sorted(place + distance & 0xFFFFFFFF for place in moving)
    for mark in laid.marks.values():
        if start <= mark.target <= end:
            program.labels.append(Label(mark.name, mark.target + distance & 0xFFFFFFFF, mark.position))
    return program


def check_passes(basic: Basic) -> None:
    """Warns of labels that the last two passes gave different addresses, and of leftover bytes."""
    for area in basic.assembly.laid.areas.values():
        for old, new in zip(area.before, area.labels):
            if old.name != new.name or old.position != new.position:
                break
            if old.address != new.address:
                basic.messages.warn(
                    new.position,
                    "this label moves between the last two passes, from"
                    f" &{old.address & 0xFFFFFFFF:X} to &{new.address & 0xFFFFFFFF:X}:"
                    " lines before it have the old address",
                    new.name,
                )
                break
    for (name, position), reason in basic.assembly.misread.items():
        basic.messages.warn(position, reason, name)


def check_blocks(basic: Basic) -> None:
    """Warns of addresses of blocks in what is laid, where the block isn't at hand when it runs."""
    laid = basic.assembly.laid
    for address, (name, position) in basic.assembly.blocks.items():
        block = basic.memory.starts[address]
        runs = pieces(laid, address, address + block.size)
        if runs and all(record.address == record.target for _, _, record in runs):
            continue  # it is laid where it will run
        if any(start <= address < end for start, end in basic.filing.ranges) and not runs:
            continue  # it is saved with the rest
        reason = (
            "this is where DIM has the block, and not where its bytes will run"
            if runs
            else "nothing is laid in this block of DIM, so what comes out has its address and not its bytes"
        )
        basic.messages.warn(position, reason, name)


def block_images(basic: Basic) -> list[Program]:
    """The bytes laid in each block of DIM, where the program saves none."""
    images = []
    laid = basic.assembly.laid
    laid.pause(basic.assembly.target())
    for area in sorted(laid.areas.values(), key=lambda area: area.first):
        if area.end <= area.first:
            continue
        program = image_of(basic, area.first, area.end)
        program.name = re.sub(r"[%(].*", "", area.block.name) if area.block else "program"
        images.append(program)
        check_leftover(basic, pieces(laid, area.first, area.end))
    return images


def check_leftover(basic: Basic, runs: list[tuple[int, int, Record]]) -> None:
    """Warns where the last bytes are of an earlier pass than most of the others."""
    sizes: dict[int, int] = {}
    for _, length, record in runs:
        sizes[record.stage] = sizes.get(record.stage, 0) + length
    most = max(sizes, key=lambda stage: sizes[stage])
    place, _, last = runs[-1]
    if last.stage < most:
        basic.messages.warn(
            last.position,
            "an earlier pass laid more bytes than the last: those at" f" &{place:X} are of the earlier one",
        )


_OPENING = re.compile(f"(?:^|[:{T['THEN']}{T['ELSE']}{T['REPEAT']}{T['OTHERWISE']}]) *\\[")
_ASIDE = re.compile('"[^"\n]*"|[;\\\\].*')
_CALLED = re.compile(f"[{T['PROC']}{T['FN']}][A-Za-z0-9_`@]+")


def is_whole(basic: Basic) -> bool:
    """Whether nothing more will be laid, as far as the program's lines show.

    No loop in which bytes were laid goes on, and no `[` lies ahead, here or in a routine that is
    called ahead.
    """
    assembly = basic.assembly
    if not assembly.laid.records and not basic.filing.saved:
        return False
    for frame in basic.frames:
        if any(loop.laid != assembly.laid_count for loop in frame.loops):
            return False
    starts = [basic.line, *(frame.back for frame in basic.frames if frame.back)]
    seen: set[int] = set()
    while starts:
        line: Line | None = starts.pop()
        while line is not None and id(line) not in seen:
            seen.add(id(line))
            text = _ASIDE.sub("", line.text)
            if _OPENING.search(text) and line not in assembly.opened:
                return False
            for name in _CALLED.findall(text):
                if name in basic.listing.routines and T["DEF"] not in text:
                    starts.append(basic.listing.routines[name][0])
            line = line.next
            if line is not None and line.first() == T["DEF"]:
                break
    return True
