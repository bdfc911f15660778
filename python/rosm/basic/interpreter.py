"""The state of a program that is run, and the loop that runs its statements."""

from __future__ import annotations

import sys
import time
from dataclasses import dataclass, field
from typing import TYPE_CHECKING

from ..messages import MessageList, Position, SourceError
from .expressions import END, Evaluate, Given, Scan, expression, place
from .lines import Line, Listing
from .memory import HEAP, Memory
from .tokens import NAMES, T, plain
from .values import BasicError, Stop, Value, integer_of, is_close
from .variables import Array, Target

if TYPE_CHECKING:
    from ..messages import Call
    from .assembly import Assembly
    from .filing import Filing

DEEPEST = 400  # calls within one another
DEEPEST_PYTHON = 20000  # of our own functions, of which each of those calls takes some
MOST_TEXTS = 10_000  # texts of EVAL that are kept as they were read
STEPS_PER_TICK = 1000  # statements of a hundredth of a second, by which TIME goes on
JUMPED = True  # a statement went elsewhere: what follows it isn't looked at


@dataclass
class Options:
    """What the command line says of a listing."""

    heap: int = HEAP  # where DIM begins
    time: str = ""  # what TIME$ is
    steps: int = 5_000_000  # statements that are run at most
    files: list[str] = field(default_factory=list)  # files that the listing may read


@dataclass
class Frame:
    """The program itself, or a PROC or FN that is called."""

    kind: str
    name: str
    calls: tuple[Call, ...]
    loops: list = field(default_factory=list)
    hidden: list = field(default_factory=list)  # what LOCAL hides: (table, name, what it had)
    result: Value = 0
    done: bool = False
    back: Line | None = None  # the line of the call


class Basic:
    """A program, its variables, memory and files, and where it stands."""

    def __init__(self, listing: Listing, options: Options, messages: MessageList) -> None:
        from .assembly import Assembly as NewAssembly
        from .filing import Filing as NewFiling

        self.listing = listing
        self.options = options
        self.messages = messages
        self.memory = Memory(options.heap)
        self.variables: dict[str, Value] = {chr(code) + "%": 0 for code in range(65, 91)}
        self.variables["@%"] = 0x90A
        self.arrays: dict[str, Array] = {}
        self.filing: Filing = NewFiling(self)
        self.assembly: Assembly = NewAssembly(self)
        self.frames = [Frame("main", "", ())]
        self.steps = 0
        self.data: tuple[Line, int] | None = None  # where READ goes on
        self.texts: dict[str, Line] = {}  # what EVAL has read
        self.printed: list[str] = []
        self.clock = 0  # TIME when the program began
        self.passed_over: set[str] = set()
        first = listing.main[0] if listing.main else Line("", 1, 0, "", "")
        self.line, self.text, self.at = first, first.text, 0

    # Where the program stands.

    def go(self, line: Line, at: int) -> None:
        self.line, self.text, self.at = line, line.text, at

    def next_line(self) -> None:
        """Goes to the next line; behind the last the program ends."""
        following = self.line.next
        if following is None:
            raise Stop
        self.line, self.text, self.at = following, following.text, 0

    def skip_line(self) -> bool:
        self.at = len(self.text) - 1
        return JUMPED

    def position(self) -> Position:
        return self.line.position(self.frames[-1].calls)

    def blank(self) -> str:
        """Passes spaces; the character that stands next."""
        text, at = self.text, self.at
        while text[at] == " ":
            at += 1
        self.at = at
        return text[at]

    def take(self, sign: str) -> bool:
        text, at = self.text, self.at
        while text[at] == " ":
            at += 1
        if text.startswith(sign, at):
            self.at = at + len(sign)
            return True
        self.at = at
        return False

    def need(self, sign: str) -> None:
        if not self.take(sign):
            raise BasicError(f"`{plain(sign)}` is wanted here", self.word())

    def word(self) -> str:
        return Scan(self.text, self.at).word()

    def at_end(self) -> bool:
        """Whether the statement ends here."""
        return self.blank() in (":", END, T["ELSE"])

    # Messages.

    def warn(self, reason: str, word: str = "") -> None:
        self.messages.warn(self.position(), reason, word)

    def note(self, reason: str, word: str = "") -> None:
        self.messages.note(self.position(), reason, word)

    def pass_over(self, reason: str, word: str) -> None:
        """Notes once for each kind of statement that nothing is done for it."""
        if word not in self.passed_over:
            self.passed_over.add(word)
            self.note(reason, word)

    def near(self, value: Value, word: str) -> None:
        """Warns where a real that is cut lies next to a whole number."""
        if is_close(value):
            self.warn("a real next to a whole number is cut: BASIC V and VI may differ by one here", word)

    def cut(self, value: Value) -> int:
        """A whole number, with a warning where a real lies next to one."""
        if value.__class__ is float:
            self.near(value, "")
        return integer_of(value)

    def machine_wanted(self, reason: str, name: str) -> None:
        """Ends the program where only a machine could go on: an error unless the bytes are whole."""
        if not self.assembly.is_whole():
            raise BasicError(f"{reason}, and the program's bytes aren't whole here", name)
        self.warn(f"{reason}: the program ends here, and its bytes are taken as they are", name)
        raise Stop

    # Values.

    def unknown(self, name: str) -> Value:
        """A variable that has no value: within the assembler's first pass it is P%."""
        if name[-1] != "$" and self.assembly.forgives():
            return self.assembly.unknown_name(name)
        raise BasicError("no variable has this name so far", name)

    def array(self, name: str) -> Array:
        found = self.arrays.get(name)
        if found is None:
            raise BasicError("no DIM made this array so far", name + ")")
        return found

    def evaluate(self) -> Value:
        """The value of the expression that stands next."""
        line, start = self.line, self.at
        known = line.values.get(start)
        if known is None:
            scan = Scan(self.text, start)
            known = line.values[start] = (expression(scan), scan.at)
        self.at = known[1]
        return known[0](self)

    def integer(self) -> int:
        return self.cut(self.evaluate())

    def place(self) -> Target:
        """The place that stands next, which a statement changes."""
        line, start = self.line, self.at
        known = line.places.get(start)
        if known is None:
            scan = Scan(self.text, start)
            known = line.places[start] = (place(scan), scan.at)
        self.at = known[1]
        return known[0](self)

    def evaluate_text(self, text: str) -> Value:
        """EVAL."""
        from .tokens import tokenise

        line = self.texts.get(text)
        if line is None:
            if len(self.texts) > MOST_TEXTS:
                self.texts.clear()
            line = self.texts[text] = Line(self.line.file, self.line.row, 0, tokenise(text), text)
        known = line.values.get(0)
        if known is None:
            scan = Scan(line.text)
            value: Evaluate = expression(scan)
            if scan.blank() not in (END, ":"):
                raise BasicError(f"EVAL of `{text}` doesn't understand this", scan.word())
            known = line.values[0] = (value, scan.at)
        return known[0](self)

    def call_function(self, name: str, given: list[Given]) -> Value:
        from .calls import call

        return call(self, T["FN"], name, given)

    def time_text(self) -> str:
        """TIME$, as the options have it; else now."""
        text = self.options.time or time.strftime("%a,%d %b %Y.%H:%M:%S")
        self.note(f"TIME$ is taken as {text}", "TIME$")
        return text

    def time(self) -> int:
        """TIME: a machine's clock begins anywhere, and this one at 0."""
        if "TIME" not in self.passed_over:
            self.passed_over.add("TIME")
            self.warn("there is no clock: TIME begins at 0 and goes on by statements that are run", "TIME")
        return self.clock + self.steps // STEPS_PER_TICK

    # Running.

    def run(self, frame: Frame) -> None:
        """Runs statements until the frame is done. Stop comes from END and the last line."""
        from .statements import STATEMENTS, assignment

        limit = self.options.steps
        while not frame.done:
            text, at = self.text, self.at
            while text[at] in " :":
                at += 1
            character = text[at]
            if character == END:
                self.next_line()
                continue
            self.steps += 1
            if self.steps > limit:
                raise BasicError(f"the program doesn't end within {limit} statements")
            self.at = at
            work = STATEMENTS.get(character)
            if work is None:
                if character in NAMES:
                    raise BasicError("no statement begins with this keyword", NAMES[character])
                assignment(self)
            else:
                self.at = at + 1
                if work(self):
                    continue
            self.finish()

    def finish(self) -> None:
        """What follows a statement: a colon, the line's end, or ELSE, which ends the line."""
        character = self.blank()
        if character == T["ELSE"]:
            self.at = len(self.text) - 1
        elif character not in (":", END):
            raise BasicError("this isn't understood behind the statement", self.word())

    def run_program(self) -> None:
        """Runs the whole program; an error ends it and is reported with its line."""
        before = sys.getrecursionlimit()
        sys.setrecursionlimit(max(before, DEEPEST_PYTHON))
        try:
            self.run(self.frames[0])
        except Stop:
            pass
        except SourceError as error:
            self.messages.error(getattr(error, "position", None) or self.position(), error.reason, error.word)
        except RecursionError:
            self.messages.error(self.position(), "too many calls or parentheses within one another")
        finally:
            sys.setrecursionlimit(before)
