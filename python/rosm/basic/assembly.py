"""The assembler between `[` and `]`: labels, instructions, data and OPT.

OPT: bit 1 set reports errors; clear, an unknown name is P% and wrong operands lay a zero word. Bit
2 lays bytes at O% in place of P%. Bit 3 checks that they stay below L%. `[` itself sets OPT 3.
"""

from __future__ import annotations

from typing import TYPE_CHECKING

from ..arm2 import BASIC, assemble, why_not
from ..messages import Position, SourceError
from .directives import DIRECTIVES, longest, option
from .expressions import END
from .images import Laid, image_of, is_whole
from .operands import COMMENTS, Operands
from .tokens import NAMES, T
from .values import BasicError, Stop, Value, wrapped

if TYPE_CHECKING:
    from ..program import Program
    from .interpreter import Basic
    from .lines import Line

ERRORS, OFFSET, LIMIT = 2, 4, 8  # bits of OPT
MOST_ERRORS = 1000


class Assembly:
    """What has been laid, and how the next bytes are laid."""

    def __init__(self, basic: Basic) -> None:
        self.basic = basic
        self.active = False  # the program stands between `[` and `]`
        self.option = 3
        self.missing = 0  # how often an unknown name was P%
        self.missing_name = ""
        self.missing_before = 0  # how often when the last bytes were laid
        self.mnemonic = ""
        self.laid_count = 0
        # What names had in this pass before a label of theirs, and where first; None behind it.
        self.used: dict[str, tuple[Value, Line] | None] = {}
        self.misread: dict[tuple[str, Position], str] = {}  # labels that lines before them misread
        self.blocks: dict[int, tuple[str, Position]] = {}  # addresses of blocks that are read
        self.errors = 0
        self.goes_on = False  # the next byte follows the last
        self.fresh = True  # nothing was laid since `[` or OPT
        self.opened: set[Line] = set()  # lines of `[` that were reached
        self.laid = Laid(basic.memory)
        self.operands = Operands(basic)
        basic.variables.setdefault("P%", 0)

    # What the rest of the program asks.

    def forgives(self) -> bool:
        """Whether an unknown name is P% now."""
        return self.active and not self.option & ERRORS

    def unknown_name(self, name: str) -> int:
        self.missing += 1
        self.missing_name = name
        return self.here()

    def note_use(self, name: str, value: Value) -> None:
        """Keeps what a name has that the assembler reads, for labels and blocks of DIM."""
        self.used.setdefault(name, (value, self.basic.line))
        if value in self.basic.memory.starts:
            self.blocks.setdefault(int(value), (name, self.basic.position()))

    def here(self) -> int:
        return self.basic.variables["P%"]

    def enter_routine(self) -> bool:
        return self.active

    def leave_routine(self, active: bool) -> None:
        self.active = active

    def is_whole(self) -> bool:
        return is_whole(self.basic)

    def image(self, start: int, end: int) -> Program:
        return image_of(self.basic, start, end)

    # The statements between `[` and `]`.

    def run(self) -> None:
        """Assembles up to `]`."""
        basic = self.basic
        self.opened.add(basic.line)
        opening = basic.position()
        self.active, self.option, self.fresh = True, 3, True
        while True:
            character = basic.blank()
            if character == "]":
                basic.at += 1
                self.active = False
                self.laid.pause(self.target())
                return
            if character == END:
                if basic.line.next is None:
                    basic.messages.warn(opening, "no ] ends this before the program's end", "[")
                    raise Stop
                basic.next_line()
            elif character == ":":
                basic.at += 1
            else:
                self.guarded(character)

    def guarded(self, character: str) -> None:
        """One statement, whose error is reported and doesn't end the program."""
        basic = self.basic
        basic.steps += 1
        if basic.steps > basic.options.steps:
            raise BasicError(f"the program doesn't end within {basic.options.steps} statements")
        start = basic.at
        try:
            self.statement(character)
            if basic.blank() not in (":", END, *COMMENTS, T["REM"]):
                raise BasicError("this isn't understood here", basic.word())
            if basic.text[basic.at] in (*COMMENTS, T["REM"]):
                basic.skip_line()
        except SourceError as error:
            if getattr(error, "position", None):
                raise
            self.report(error)
            basic.at = start
            self.skip_statement()
            if basic.text[basic.at] in COMMENTS:
                basic.skip_line()

    def report(self, error: SourceError) -> None:
        """Reports an error and goes on, unless there are too many."""
        basic = self.basic
        self.errors += 1
        if self.errors > MOST_ERRORS:
            raise BasicError(f"there are more than {MOST_ERRORS} errors")
        basic.messages.error(basic.position(), error.reason, error.word)

    def skip_statement(self) -> None:
        basic = self.basic
        text, at = basic.text, basic.at
        while text[at] not in (":", END, *COMMENTS):
            closing = text.find('"', at + 1) if text[at] == '"' else -1
            at = closing + 1 if closing > 0 else at + 1
        basic.at = at

    def statement(self, character: str) -> None:
        basic = self.basic
        if character == ".":
            basic.at += 1
            self.begin()
            self.label()
            character = basic.blank()
            if character in (":", END):
                return
        if character in COMMENTS or character == T["REM"]:
            basic.skip_line()
        elif character == T["FN"]:
            self.macro()
        elif character == "=":
            basic.at += 1
            self.either()
        else:
            self.operation(*self.read_mnemonic())

    def begin(self) -> None:
        """Sees, before anything is read behind `[` or OPT, whether a new pass begins."""
        if self.fresh:
            self.fresh = self.goes_on = False
            if self.laid.begins(self.target()):
                self.used.clear()

    def label(self) -> None:
        basic = self.basic
        start = basic.at
        target = basic.place()
        word = basic.text[start : basic.at]
        try:
            target.set(basic, self.here())
        except BasicError as error:
            raise BasicError(error.reason, word) from None
        self.laid.label(target.word(), self.here(), self.target(), basic.position())
        self.check_label(target.word())

    def check_label(self, name: str) -> None:
        """Keeps where lines before a label had another value in the last pass."""
        before = self.used.pop(name, None)
        key = name, self.basic.position()
        self.misread.pop(key, None)  # what a pass before this one misread doesn't count
        if before and before[0] != self.here():
            value, line = before
            shown = f"&{value & 0xFFFFFFFF:X}" if isinstance(value, int) else str(value)
            self.misread[key] = f"line {line.row} took this label as {shown}, and it is"
            self.misread[key] += f" &{self.here() & 0xFFFFFFFF:X}"
        self.used[name] = None  # lines behind the label mean this one

    def macro(self) -> None:
        """An FN as a statement: it may lay what it likes, and its value is dropped."""
        self.begin()
        self.basic.evaluate()

    def target(self) -> int:
        """Where the next byte goes."""
        if not self.option & OFFSET:
            return self.here()
        value = self.basic.variables.get("O%", 0)
        return value

    def read_mnemonic(self) -> tuple[str, str]:
        """The longest front of the letters that stand next that is an operation."""
        basic = self.basic
        start = basic.at
        known = basic.line.operands.get(~start)
        if known is not None:
            word, shown, basic.at = known
            return word, shown
        letters, ends = self.letters()
        upper = letters[:1].isupper()
        run = letters
        for place, letter in enumerate(letters):
            if letter.isupper() != upper:
                run = letters[:place]
                break
        word = longest(run.upper())
        if not word:
            shown = basic.word() if not letters else letters
            reason = why_not(letters) if letters else None
            raise BasicError(reason or "the assembler has no such operation", shown)
        if len(word) < len(run) and basic.text[ends[len(run) - 1]] == " " and why_not(run):
            raise BasicError(str(why_not(run)), run)
        other = longest(letters.upper())
        if len(other) > len(word):
            basic.warn(f"this is read as {word} and a name, and could be {other} and another name", letters)
        if ends[len(word) - 1] < 0:
            raise BasicError("BASIC reads a keyword here that goes on behind the operation", basic.word())
        basic.at = ends[len(word) - 1]
        basic.line.operands[~start] = word, letters[: len(word)], basic.at
        return word, letters[: len(word)]

    def letters(self) -> tuple[str, list[int]]:
        """The letters that stand next, keywords too, and for each where it ends (-1: within one)."""
        basic = self.basic
        found: list[str] = []
        ends: list[int] = []
        at = basic.at
        while True:
            character = basic.text[at]
            at += 1
            if "A" <= character <= "Z" or "a" <= character <= "z":
                found.append(character)
                ends.append(at)
            elif character in NAMES and NAMES[character].isalpha():
                name = NAMES[character]
                found += name
                ends += [-1] * (len(name) - 1) + [at]
            else:
                return "".join(found), ends

    def operation(self, word: str, shown: str) -> None:
        self.mnemonic = shown
        work = DIRECTIVES.get(word)
        if work is option:
            option(self)
            return
        self.begin()
        if work:
            work(self)
        else:
            self.instruction(word)

    def instruction(self, word: str) -> None:
        self.operands.address = here = self.here()
        try:
            if here & 3:
                raise BasicError(f"P% is &{here & 0xFFFFFFFF:X} here, no multiple of 4; ALIGN makes it one")
            words = assemble(BASIC[word], self.operands)
        except SourceError as error:
            if getattr(error, "position", None):
                raise
            if error.word == "":
                error.word = self.mnemonic
            if self.option & ERRORS:
                self.lay(bytes(4), True)
                raise
            self.skip_statement()
            self.lay(bytes(4), True, error)
            return
        self.lay(words[0].to_bytes(4, "little"), True)

    def fault(self) -> SourceError | None:
        """What is wrong with bytes before which, since the last ones, a name was unknown."""
        if self.missing == self.missing_before:
            return None
        self.missing_before = self.missing
        return SourceError(
            "nothing has this name when the bytes are laid for the last time", self.missing_name
        )

    def lay(self, data: bytes, code: bool = False, fault: SourceError | None = None) -> None:
        """Stores bytes, and P% and O% go on."""
        basic, target = self.basic, self.target()
        try:
            if self.option & LIMIT and target + len(data) > basic.variables.get("L%", 0):
                raise BasicError(
                    f"the limit L% is reached: the bytes would end behind"
                    f" &{basic.variables.get('L%', 0) & 0xFFFFFFFF:X}",
                    self.mnemonic,
                )
            basic.memory.check_block(target, len(data), self.goes_on)
            basic.memory.write(target, data)
        except SourceError as error:
            error.position = basic.position()
            error.word = error.word or self.mnemonic
            raise
        self.laid.add(target, self.here(), data, basic.position(), code, self.fault() or fault)
        self.laid_count += len(data)
        self.goes_on = True
        self.advance(len(data))

    def advance(self, count: int) -> None:
        variables = self.basic.variables
        variables["P%"] = wrapped(self.here() + count)
        if self.option & OFFSET:
            variables["O%"] = wrapped(variables.get("O%", 0) + count)

    # Directives.

    def either(self) -> None:
        """`=` takes a number as EQUB, or a string as EQUS."""
        self.mnemonic = "="
        self.begin()
        value = self.basic.evaluate()
        if isinstance(value, str):
            self.lay(value.encode("latin-1", "replace"))
        else:
            self.lay_number(value, 1)
        self.single()

    def single(self) -> None:
        if self.basic.blank() == ",":
            raise BasicError("BASIC takes one value here; each further one wants its own statement", ",")

    def lay_number(self, value: Value, size: int) -> None:
        number = self.basic.cut(value) & (1 << 8 * size) - 1
        self.lay(number.to_bytes(size, "little"))
