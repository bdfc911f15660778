"""The assembler: the state of a pass, statements, and what expressions ask for."""

from __future__ import annotations

from dataclasses import dataclass, field

from .. import arm2
from ..files import Library
from ..messages import Call, MessageList, Position, SourceError
from ..mnemonics import OBJASM, Form, Operation, why_not
from .areas import LARGEST, Area, PoolEntry, Row
from .control import end_of_frame
from .directives import DIRECTIVES, REFUSED
from .frames import Frame, Macro, Substitution, bind_parameters
from .imports import imported, is_of_program
from .operands import Operands
from .symbols import Import, Numbered, NumberedLabels, Symbol, Symbols, Undefined, Variable
from .tokens import Line, Stop, plain_name, split_line
from .values import WORD, Distance, ImportBase, Value, as_number

DEEPEST_CALLS = 200
MOST_BYTES = 16 << 20  # of all areas
MOST_LINES = 1_000_000  # of one pass
MOST_ERRORS = 1000


@dataclass
class Options:
    """What the command line says."""

    files: list[str]
    name: str = "program"
    origin: int | None = None
    bindings: dict[str, int] = field(default_factory=dict)
    rooms: dict[str, int] = field(default_factory=dict)  # imported names with bytes behind the program
    linked: bool = True  # areas in the linker's order
    bars: bool = False  # $name is replaced between bars, too


class Assembler:
    """What lasts from pass to pass, and what this pass has met so far."""

    directives = DIRECTIVES

    def __init__(self, options: Options) -> None:
        self.options = options
        self.library = Library(options.files[1:])
        self.symbols = Symbols()
        self.labels = NumberedLabels()
        self.areas: dict[str, Area] = {}
        self.in_pools: set[int] = set()  # statements whose LDR= has a pool's word
        self.origin = 0x8000 if options.origin is None else options.origin
        self.imports: dict[str, Import] = {}
        self.rooms: dict[str, int] = {}  # addresses, as the pass before ended
        self.linked: dict[str, int] | None = None  # those that a linker gives, as the pass before ended
        self.texts: dict[str, list[tuple[int, str]]] = {}
        for name, value in options.bindings.items():
            self.symbols.bind(name, value)
        self.begin_pass()

    def begin_pass(self) -> None:
        """Forgets what each pass finds anew."""
        self.symbols.begin_pass()
        self.labels.begin_pass()
        for area in self.areas.values():
            area.begin_pass()
        self.messages = MessageList()
        self.frames: list[Frame] = []
        self.macros: dict[str, Macro] = {}
        for found in self.imports.values():
            found.warned = False
        self.exports: dict[str, Position] = {}
        self.layout: Value = 0
        self.option = 0
        self.entry: tuple[Distance, Position] | None = None
        self.sequence = self.scope = self.lines_read = self.laid = 0
        self.routine = ""
        self.noted: set[str] = set()
        self.seen_areas: set[str] = set()
        self.line_offset = 0
        self.line_symbols: list[Symbol] = []
        self.row_is_code = False
        self.area = self.area_named("")

    # Areas and bytes.

    def area_named(self, name: str) -> Area:
        """The area of a name, made where it is new."""
        area = self.areas.get(name)
        if area is None:
            area = self.areas[name] = Area(name, len(self.areas))
        return area

    def here(self) -> Distance:
        """`.`: where the line's bytes begin."""
        return Distance(self.area, self.line_offset)

    def address(self) -> int:
        """The address of the line."""
        return self.area.address + self.line_offset

    def lay(self, data: bytes) -> None:
        """Lays bytes down."""
        if len(self.area.data) + len(data) > LARGEST:
            raise SourceError(f"the area has more than {LARGEST} bytes")
        self.laid += len(data)
        if self.laid > MOST_BYTES:
            self.error(SourceError(f"the source lays more than {MOST_BYTES} bytes; nothing behind is read"))
            raise Stop
        self.area.data += data

    def align(self, step: int, what: str = "", offset: int = 0) -> int:
        """Lays zero bytes up to a multiple; what stands at an odd place is warned of."""
        missing = (offset - len(self.area.data)) % step
        if missing:
            self.lay(bytes(missing))
            if what:
                self.warn(f"{missing} zero bytes are put before it, so that it is at a multiple of {step}",
                          what)
            self.line_offset = self.area.here()
        return missing

    def lay_word(self, value: Value, word: str) -> None:
        """Lays a word: a number or an address."""
        if isinstance(value, Distance) and is_of_program(self, value.base):
            self.area.relocated.append(self.area.here())
        self.lay((self.address_of(value, word) & WORD).to_bytes(4, "little"))

    # What expressions ask for.

    def variable(self, name: str) -> Variable | None:
        """A local variable of the macro that is being read, else a global one."""
        frame = self.frames[-1] if self.frames else None
        if frame is not None and name in frame.variables:
            return frame.variables[name]
        return self.symbols.variables.get(name)

    def address_of(self, value: Value, word: str) -> int:
        """A number, or a place's address; an imported name has that of the command line."""
        if isinstance(value, Distance):
            if isinstance(value.base, Area):
                return value.base.address + value.offset & WORD
            if isinstance(value.base, ImportBase):
                return imported(self, value.base.name) + value.offset & WORD
            raise SourceError(f"an address is wanted, and this is an offset from "
                              f"R{value.base.number}", word)
        return as_number(value, word)

    def builtin(self, name: str) -> Value:
        """A name between braces."""
        if name == "PC":
            return self.here()
        if name == "VAR":
            return self.layout
        known: dict[str, Value] = {"TRUE": True, "FALSE": False, "OPT": self.option, "CONFIG": 26,
                                   "ENDIAN": "little", "CODESIZE": 32, "PCSTOREOFFSET": 12,
                                   "CPU": "ARM2", "ARCHITECTURE": "2"}
        if name not in known:
            raise SourceError("nothing is known under this name", "{" + name + "}")
        if name in ("CPU", "ARCHITECTURE"):
            self.warn(f"it is {known[name]} here", "{" + name + "}")
        return known[name]

    def numbered(self, direction: str, levels: str, number: int, routine: str, word: str) -> Value:
        """The place of `%BT10name`."""
        if routine and routine != self.routine:
            raise SourceError(f"the routine here is {self.routine or 'without a name'}", word)
        frame = self.frames[-1]
        label, other = self.labels.find(self.scope, number, direction, levels, self.sequence, frame.level)
        if label is None:
            where = {"B": "before this line", "F": "behind this line", "": "here"}[direction]
            raise Undefined(f"no label {number} is seen {where}, between the lines ROUT or AREA", word)
        if other is not None and other is not label:
            self.warn(f"this is the label at {label.position.file}:{label.position.line}; by the depth "
                      f"of macros alone it would be the one at {other.position.file}:"
                      f"{other.position.line}", word)
        return label.value

    def in_pool(self) -> bool:
        """Whether this statement's LDR= has a pool's word since the first pass."""
        return self.sequence in self.in_pools

    def pool_word(self, name: str, text: str, value: Value | None) -> int | None:
        """Asks for a word of the pool; its offset in the area, as far as that is known."""
        if self.sequence not in self.in_pools:
            self.in_pools.add(self.sequence)
            self.symbols.moved = True
        key = ("name", name) if name else ("text", text) if value is None else ("value", value)
        area = self.area
        index = area.waiting_keys.get(key)
        if index is None:
            index = area.waiting_keys[key] = len(area.waiting)
            area.waiting.append(PoolEntry(key, value, self.position()))
        elif value is not None and area.waiting[index].value is None:
            area.waiting[index].value = value
        return area.pool_place(index)

    def lay_pool(self, area: Area) -> None:
        """Lays down the words that wait for a pool."""
        if not area.waiting:
            return
        area.data += bytes(-len(area.data) % 4)
        area.pools_laid.append(area.here())
        kept, self.area = self.area, area
        for entry in area.waiting:
            start = area.here()
            try:
                self.lay_word(0 if entry.value is None else entry.value, "")  # type: ignore[arg-type]
            except SourceError as error:
                area.data += bytes(4)
                self.messages.error(entry.position, error.reason, error.word)
            area.rows.append(Row(start, 4, entry.position, False))
        area.waiting, area.waiting_keys, self.area = [], {}, kept

    # Messages.

    def position(self) -> Position:
        """The line that is being read."""
        return self.frames[-1].position() if self.frames else Position(self.options.files[0], 0)

    def warn(self, reason: str, word: str = "") -> None:
        self.messages.warn(self.position(), reason, word)

    def note_once(self, what: str, reason: str) -> None:
        """Notes a directive that makes no bytes, at its first line."""
        if what not in self.noted:
            self.noted.add(what)
            self.messages.note(self.position(), reason, what)

    def error(self, error: SourceError, position: Position | None = None) -> None:
        """Reports an error of the line that is being read, or of another."""
        if len(self.messages.items) < MOST_ERRORS:
            self.messages.error(position or self.position(), error.reason, error.word)
        elif len(self.messages.items) == MOST_ERRORS:
            self.messages.error(Position(self.options.files[0], 0),
                                f"there are more than {MOST_ERRORS} messages; the others aren't shown")

    # Statements.

    def run_frames(self) -> None:
        """Reads lines until no frame is left."""
        while self.frames:
            frame = self.frames[-1]
            if frame.index >= len(frame.lines):
                end_of_frame(self, frame)
                continue
            text = frame.lines[frame.index][1]
            frame.index += 1
            self.lines_read += 1
            if self.lines_read > MOST_LINES:
                self.error(SourceError(f"the source comes to more than {MOST_LINES:,} lines"))
                raise Stop
            try:
                self.read(frame, text)
            except SourceError as error:
                self.error(error)

    def read(self, frame: Frame, text: str) -> None:
        """Reads one line."""
        if "$" in text:
            text = self.substituted(frame, text)
        line = split_line(text)
        if not line.operation and not line.label:
            return
        self.sequence += 1
        area, start = self.area, len(self.area.data)
        self.line_offset = start
        self.line_symbols = []
        self.row_is_code = False
        try:
            self.statement(line)
        finally:
            if len(area.data) > start and self.area is area and self.line_offset < len(area.data):
                area.rows.append(Row(self.line_offset, len(area.data) - self.line_offset,
                                     frame.position(), self.row_is_code))
            for symbol in self.line_symbols:
                self.symbols.set_size(symbol, len(area.data) - self.line_offset)

    def substituted(self, frame: Frame, text: str) -> str:
        """The line with values in place of `$name`."""
        work = Substitution(frame if frame.macro else None, self.symbols.variables, self.options.bars)
        line = work.line(text)
        for word, reason in work.warnings:
            self.warn(reason, word)
        return line

    def statement(self, line: Line) -> None:
        """A directive, a macro's call, an instruction, or a label alone."""
        name = line.operation
        if not name:
            self.define_label(line.label)
            return
        directive = self.directives.get(name)
        if directive is not None:
            directive(self, line)
            return
        macro = self.macros.get(plain_name(name))
        if macro is not None:
            self.call(macro, line, "")
            return
        operation = OBJASM.get(name) or OBJASM.get(name.upper())
        if operation is not None:
            self.instruction(operation, line)
            return
        for front in sorted(self.macros, key=len, reverse=True):
            if self.macros[front].condition and name.startswith(front):
                self.call(self.macros[front], line, name[len(front):])
                return
        self.unknown(line)

    def unknown(self, line: Line) -> None:
        """Refuses an operation, by its reason where that is known."""
        name = line.operation
        reason = REFUSED.get(name.upper()) or why_not(name)
        if line.label:
            self.define_label(line.label)
        if reason is None:
            reason = "this is no instruction, no directive, and no macro defined before this line"
            if not line.label and not line.operands:
                reason += "; a label begins in the first column"
        raise SourceError(reason, name)

    def define_label(self, label: str) -> None:
        """Gives a label the place of this line."""
        if not label:
            return
        if label[0].isdigit():
            self.define_numbered(label)
            return
        self.line_symbols.append(
            self.symbols.define(plain_name(label), self.here(), self.position()))

    def define_numbered(self, label: str) -> None:
        """A numbered label; one that `$label` brings belongs to the level of the call."""
        digits = label[:2] if label[1:2].isdigit() else label[:1]
        routine = label[len(digits):]
        if routine and routine != self.routine:
            raise SourceError(f"the routine here is {self.routine or 'without a name'}", label)
        frame = self.frames[-1]
        level = frame.label_level if self.is_handed(frame) else frame.level
        self.labels.define(self.scope, int(digits),
                           Numbered(self.sequence, level, routine, self.here(), self.position()))

    def is_handed(self, frame: Frame) -> bool:
        """Whether the line's label is what the macro's call had for one."""
        text = frame.lines[frame.index - 1][1]
        return frame.macro is not None and bool(frame.macro.label) and \
            text.startswith("$" + frame.macro.label)

    def instruction(self, operation: Operation, line: Line) -> None:
        """Lays an instruction's words; one that is wrong keeps its room."""
        self.align(4, line.operation)
        self.row_is_code = True
        size = 2 if operation.form is Form.ADRL else 1
        words = [0] * size
        try:
            self.define_label(line.label)
        except SourceError as error:
            self.error(error)
        try:
            words = arm2.assemble(operation, Operands(self, line.operands))
        finally:
            for word in words:
                self.lay(word.to_bytes(4, "little"))

    def call(self, macro: Macro, line: Line, condition: str) -> None:
        """Begins to read a macro's lines."""
        caller = self.frames[-1]
        if len(self.frames) > DEEPEST_CALLS:
            raise SourceError(f"macros and files are more than {DEEPEST_CALLS} deep", macro.name)
        parameters = bind_parameters(macro, line.label, condition, line.operands)
        if line.label and not macro.label:
            self.warn("the macro takes no label; it is the address of the call", line.label)
            self.define_label(line.label)
        elif line.label and not any("$" + macro.label in text for _, text in macro.lines):
            self.warn("the macro doesn't use its label, so nothing has this name", line.label)
        place = caller.position()
        step = Call("macro", macro.name, place.file, place.line, macro.position.file, macro.position.line)
        level = caller.label_level if self.is_handed(caller) else caller.level
        self.frames.append(Frame(macro.position.file, macro.lines, (step,) + caller.calls, macro,
                                 parameters, level=caller.level + (self.sequence,), label_level=level,
                                 first_sequence=self.sequence))
