"""A machine to talk to: `m = rosm.Machine(); m.asm(".."); m.run(); m.r[0]`. docs/PYTHON.md has all of it.

All that is read is read in records, never in printed text.
"""

from __future__ import annotations

import re
from pathlib import Path
from typing import Any, Iterator

from ..native import Engine, Settings, bytes_of, library_engine
from ..player import player_page
from ..swis import swi_number
from .emptiness import empty_walk
from .history import History
from .parts import (Area, Block, Flags, FlexBlock, Frame, Heap, Instance, Memory, Module, Registers, Unmapped,
                    register_number)
from .session import LIMIT, Answered, Line, MachineError, Session, with_texts
from .sources import Sources, source_of
from .trace import Trace, trace_of

__all__ = ["Answered", "Area", "Block", "Flags", "FlexBlock", "Frame", "Heap", "Instance", "Line", "Machine",
           "MachineError", "Memory", "Module", "Registers", "Session", "Trace", "Unmapped"]

WHERE_IMAGES_BOOT = 0x8000
NAME = re.compile(r"[!-~]{1,63}")
BLOCK_WORDS = re.compile(r"\s*(ASM|HEX)\b", re.IGNORECASE)


class Machine:
    """A store machine, its run so far, and a moment of it that is looked at: the last, or an earlier one.

    `pages`, `app` and `rma` are sizes in pages of 4,096 bytes, `budget` how many steps a line may take,
    `limit` how many steps of a line are recorded one by one. LibraryMissing: librosm.so isn't there.
    """

    def __init__(self, *, pages: int = 256, app: int = 64, rma: int = 16, budget: int = 1_000_000,
                 limit: int = LIMIT, engine: Engine = library_engine) -> None:
        self._session = Session(engine, Settings(pages, app, rma, budget), limit)
        self._moment: int | None = None
        # the program that was assembled last, if it had errors
        self._lost = ""
        self.r = Registers(self)
        self.mem = Memory(self)

    # ---- lines

    def lines(self, *texts: str) -> list[Answered]:
        """Answers lines of a debugging script (docs/DEBUG.md); what came after the present moment goes.

        MachineError: a line is refused; none of them is done then.
        """
        for text in texts:
            if BLOCK_WORDS.match(text):
                raise MachineError(f"{text}: a block has a call of its own, asm or image")
        return self._do(*(Line(text) for text in texts))

    def line(self, text: str) -> Answered:
        """Answers one line."""
        return self.lines(text)[0]

    def _do(self, *lines: Line) -> list[Answered]:
        if lines and (reason := empty_walk(lines[0].text, self._lost, self.history, self.moment)):
            raise MachineError(f"{lines[0].text}: nothing was run: {reason}")
        self._session.cut(self.moment)
        self._moment = None
        return self._session.do(*lines)

    # ---- programs

    def asm(self, source: str, name: str | None = None, at: int = WHERE_IMAGES_BOOT) -> Answered:
        """Assembles a text (docs/ASSEMBLER.md) and puts it into memory.

        The first at &8000 is booted; others are put there. A module has `at=0`: it isn't put anywhere,
        and `load` loads it. MachineError has the line that is refused.
        """
        name = self._name(name)
        lines = [line.removesuffix("\r") for line in source.split("\n")]
        if not lines[-1].strip():
            lines.pop()
        ends = [number for number, line in enumerate(lines, 1) if line.upper() == "END"]
        if ends:
            raise MachineError(f"line {ends[0]}: END ends a block of a script, and isn't wanted here")
        try:
            made = self._do(Line(f"ASM {name} &{at:X}", (*lines, "END")), *self._put(name, at))[0]
        except MachineError as error:
            self._lost = name
            raise with_line(error, lines) from None
        self._lost = ""
        return made

    def image(self, data: bytes, name: str | None = None, at: int = WHERE_IMAGES_BOOT) -> Answered:
        """Puts bytes into memory, as asm does, or makes them an image for `load` where `at` is 0."""
        name = self._name(name)
        rows = [data[start:start + 32].hex(" ") for start in range(0, len(data), 32)]
        return self._do(Line(f"HEX {name}", (*rows, "END")), *self._put(name, at))[0]

    def _name(self, name: str | None) -> str:
        if name is None:
            others = (f"program{count}" for count in range(2, 66))
            name = next(free for free in ("program", *others) if free not in self._images())
        if not NAME.fullmatch(name):
            raise MachineError(f"{name!r} is no name of an image: it has 1 to 63 signs and no space")
        return name

    def _images(self) -> set[str]:
        """The names of images that the lines up to the present moment made."""
        names = [entry.line.text.split(" ")[1] for entry in self._session.entries
                 if entry.line.block and entry.before <= self.moment]
        return set(names)

    def _put(self, name: str, at: int) -> list[Line]:
        """The line that puts an image into memory. What was changed in any way boots no more."""
        if at == 0:
            return []
        boots = self.moment == 0 and at == WHERE_IMAGES_BOOT
        return [Line(f"BOOT {name}" if boots else f"PUT {name} &{at:X}")]

    def load(self, name: str, text: str = "") -> Answered:
        """Loads an image as a module, with a text for its initialisation."""
        return self.line(f"LOAD {name} {text}".rstrip())

    # ---- steps

    def run(self) -> Answered:
        """Takes steps until something stops them."""
        return self.line("RUN")

    def step(self, count: int = 1) -> Answered:
        """Takes so many steps at most."""
        return self.line(f"STEP {count}")

    def call(self, swi: int | str, **registers: int) -> Answered:
        """Calls a SWI by number or name, with registers that are set before: `m.call("OS_Heap", R0=0)`."""
        number = swi_number(swi) if isinstance(swi, str) else swi
        if number is None:
            raise MachineError(f"{swi} is no SWI whose number is known")
        return self.lines(*set_lines(registers), f"CALL &{number:X}")[-1]

    def gosub(self, place: int | str, **registers: int) -> Answered:
        """Calls a routine by address or label, until it goes back to R14."""
        return self.lines(*set_lines(registers), f"GOSUB {spelt(place)}")[-1]

    def finish(self) -> Answered:
        """Takes steps until the innermost open frame of module code has gone back."""
        return self.line("FINISH")

    def stop_at(self, place: int | str) -> Answered:
        """Runs end where they come to an address or a label from now on."""
        return self.line(f"BREAK {spelt(place)}")

    def watch(self, place: int | str) -> Answered:
        """Runs end after a step that changes the word at an address or a label."""
        return self.line(f"WATCH {spelt(place)}")

    def reset(self) -> Answered:
        """A fresh machine; images, labels and breaks stay."""
        return self.line("RESET")

    # ---- time

    @property
    def history(self) -> History:
        return self._session.history

    @property
    def moment(self) -> int:
        """The moment that is looked at: 0 is the start."""
        return self.history.last if self._moment is None else self._moment

    @property
    def steps(self) -> int:
        """How many steps were taken up to the present moment."""
        return self.history.steps[self.moment]

    def go(self, moment: int) -> Machine:
        """Looks at another moment. The next line that is answered begins there."""
        if not 0 <= moment <= self.history.last:
            raise MachineError(f"moment {moment} isn't there: they go from 0 to {self.history.last}")
        self._moment = moment
        return self

    def back(self, count: int = 1) -> Machine:
        """Looks at the machine so many steps before, with all that was set there; at the start at most."""
        return self.go(self.history.moment_of_step(max(self.steps - count, 0)))

    def forward(self, count: int = 1) -> Machine:
        """Looks at the machine so many steps later, at the last moment at most."""
        found = self.history.moment_of_step(self.steps + count)
        # steps that weren't recorded one by one are one moment
        return self.go(found if found > self.moment else min(self.moment + 1, self.history.last))

    def writer(self, place: int | str) -> int:
        """The moment that last wrote a word, by address, or a register, by name; 0 where none did."""
        if isinstance(place, str):
            name = place if place in self.history.registers else self._banked(place)
            return self.history.registers[name].written(self.moment)
        cell = self.history.words.get(place & ~3)
        return cell.written(self.moment) if cell else 0

    def _banked(self, name: str) -> str:
        from .history import banked
        return banked(register_number(name), self.mode)

    # ---- the machine

    def set(self, **values: int | str) -> None:
        """Sets registers, as R0 to R14, SP and LR, PC, and PSR, as `PSR="Zc SVC"`."""
        self.lines(*set_lines(values))

    @property
    def pc(self) -> int:
        return self.history.register(15, self.moment)

    @pc.setter
    def pc(self, place: int) -> None:
        self.set(PC=place)

    @property
    def mode(self) -> str:
        """USR, FIQ, IRQ or SVC."""
        return self.history.mode.at(self.moment)

    @property
    def flags(self) -> Flags:
        return Flags(**{name: bool(cell.at(self.moment)) for name, cell in self.history.flags.items()})

    def registers(self) -> dict[str, int]:
        """R0 to R15 as the present mode sees them."""
        return {f"R{number}": value for number, value in enumerate(self.r)}

    @property
    def output(self) -> str:
        """All that was printed up to the present moment; each byte is the character of its number."""
        return self.history.output(self.moment)

    def heap(self, start: int) -> Heap:
        """The heap whose descriptor is there."""
        for heap in self.heaps():
            if heap.start == start:
                return heap
        raise MachineError(f"no heap starts at &{start:X}")

    def heaps(self) -> list[Heap]:
        """All heaps, in the order in which they were made."""
        found = self.history.heaps(self.moment).heaps
        return [Heap(start, heap.base, heap.end, tuple(Block(at, size, kind == "live")
                for at, (kind, size) in sorted(heap.items.items()))) for start, heap in found.items()]

    def areas(self) -> list[Area]:
        """The dynamic areas by number."""
        return [Area(area["area"], area["base"], area["size"], area["max"], area["name"])
                for area in self.history.whole["areas"].at(self.moment)]

    def modules(self) -> list[Module]:
        """The modules, the oldest first."""
        return [Module(module["title"], module["at"], module["length"],
                       tuple(Instance(each["name"], each["word"], each["preferred"])
                             for each in module["instances"]))
                for module in self.history.whole["modules"].at(self.moment)]

    def flex(self) -> list[FlexBlock]:
        """The blocks of the flex store by address."""
        blocks = [FlexBlock(anchor, *block) for anchor, block in self.history.flex.at(self.moment).items()]
        return sorted(blocks, key=lambda block: block.address)

    def frames(self) -> list[Frame]:
        """The open frames of module code, the innermost first."""
        if self.history.frames.at(self.moment) is None:
            raise MachineError("which frames are open isn't known: steps past the limit were taken")
        return [Frame(frame["frame"], frame["entry"], frame["module"], frame["instance"], frame.get("swi"),
                      frame["caller"]) for frame in reversed(self.history.frames.at(self.moment) or ())]

    def labels(self) -> dict[str, int]:
        """The labels of all programs that were assembled, where they are now."""
        return {label: at + offset for at, image, _ in self._assembled()
                for label, offset in image.get("labels", {}).items()}

    def _assembled(self) -> Iterator[tuple[int, dict[str, Any], tuple[str, ...]]]:
        """What was assembled up to the present moment: where it is now, the image, and the block's lines."""
        places = self.history.places.at(self.moment)
        for entry in self._session.entries:
            image = entry.answered.image
            if image and entry.before <= self.moment:
                yield places.get(image["name"], image["origin"]), image, entry.line.block

    def trace(self, count: int | None = None) -> Trace:
        """The last steps up to the present moment, or all."""
        sources = Sources((at, source_of(image, block)) for at, image, block in self._assembled())
        return trace_of(self.history, self.moment, count, sources)

    # ---- what is kept

    @property
    def script(self) -> str:
        """The lines so far: a debugging script for rosm_debug."""
        return self._session.script()

    def page(self, path: str | Path) -> Path:
        """Writes the player of the whole run to a file: a page of HTML that needs no other."""
        settings = self._session.settings
        records = self._session.engine(bytes_of(self.script), settings).text
        Path(path).write_text(player_page(records), encoding="utf-8")
        return Path(path)

    def __repr__(self) -> str:
        return f"<Machine at &{self.pc:X}, {self.flags} {self.mode}, {self.steps} steps>"

    def _repr_html_(self) -> str:
        from .notebook import machine_table
        return machine_table(self)


def spelt(place: int | str) -> str:
    """An address or a label, as a line has it."""
    return f"&{place:X}" if isinstance(place, int) else place


def set_lines(values: dict[str, int] | dict[str, int | str]) -> list[str]:
    """Lines SET. Numbers may be negative, and count modulo 2^32."""
    lines = []
    for name, value in values.items():
        if name.upper() not in ("PC", "PSR"):
            name = f"R{register_number(name)}"
        text = f"&{value & 0xFFFFFFFF:X}" if isinstance(value, int) else value
        lines.append(f"SET {name.upper()} {text}")
    return lines


def with_line(error: MachineError, lines: list[str]) -> MachineError:
    """The error of a block with the text of each line that it names by its number alone."""
    return MachineError(with_texts(error.answer.text if error.answer else str(error), lines), error.answer)
