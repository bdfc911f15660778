"""A submission, run on each case: what is so, beside what should be."""

from __future__ import annotations

import random
from dataclasses import dataclass, field

from ..machine.history import History
from ..machine.session import Answered, Line, MachineError, Session
from ..machine.sources import Sources
from ..machine.trace import trace_of
from ..native import Engine, Settings
from .cases import Case, Exercise
from .submission import MOST_AT_ONCE, Image, Refused, image_of, shown_bytes

# where a routine goes back to: somewhere here, where no memory is, in each case somewhere else
TRAPS = range(0x3F00000, 0x3FFFF00, 4)
USUAL_STOPS = {"program": "Exit", "routine": "Break", "module": ""}
# how many steps are recorded for the trace of a case that failed, and how many of them it shows
RECORDED_STEPS, SHOWN_STEPS = 5000, 12
SHOWN_BYTES = 200


@dataclass(frozen=True)
class CaseMark:
    """What came of a case. `problems` is empty where it passed."""

    name: str
    points: float
    hidden: bool
    given: str
    problems: list[str]
    steps: int = 0
    hint: str = ""
    trace: str = ""

    @property
    def earned(self) -> float:
        return 0 if self.problems else self.points


@dataclass(frozen=True)
class Mark:
    """What came of a submission. `refused` is why nothing of it was run, in lines."""

    path: str
    refused: str = ""
    cases: list[CaseMark] = field(default_factory=list)

    @property
    def earned(self) -> float:
        return sum(case.earned for case in self.cases)

    @property
    def points(self) -> float:
        return sum(case.points for case in self.cases)

    @property
    def passed(self) -> int:
        return sum(not case.problems for case in self.cases)


def mark(exercise: Exercise, path: str, data: bytes, engine: Engine) -> Mark:
    """Marks what was handed in."""
    try:
        image = image_of(exercise, data, engine)
        if exercise.entry and exercise.entry not in image.labels:
            raise Refused(f"it has no label {exercise.entry}, where it should begin")
    except Refused as error:
        return refused_mark(exercise, path, str(error))
    return Mark(path, "", [mark_case(exercise, number, image, engine) for number in range(len(exercise.cases))])


def refused_mark(exercise: Exercise, path: str, reason: str) -> Mark:
    """A submission of which nothing was run: no case has passed."""
    return Mark(path, reason, [CaseMark(case.name, case.points, case.hidden, given_text(case), [reason],
                                        hint=case.hint) for case in exercise.cases])


def mark_case(exercise: Exercise, number: int, image: Image, engine: Engine) -> CaseMark:
    """Runs a case on a machine of its own."""
    case = exercise.cases[number]
    given = given_text(case)
    run = CaseRun(exercise, case, image, random.Random(f"{exercise.seed} case {number}"))
    try:
        run.go(engine, limit=0)
        problems = run.problems()
        trace = run.trace(engine) if problems and not case.hidden else ""
    except (MachineError, Refused) as error:
        return CaseMark(case.name, case.points, case.hidden, given, [str(error)], hint=case.hint)
    return CaseMark(case.name, case.points, case.hidden, given, problems, run.answered.steps, case.hint, trace)


class CaseRun:
    """A case of a submission: its script, what that was answered, and what is wrong."""

    def __init__(self, exercise: Exercise, case: Case, image: Image, numbers: random.Random) -> None:
        self.exercise, self.case, self.image = exercise, case, image
        self.trap = numbers.choice(TRAPS)
        self.kept = {name: case.registers.get(name, numbers.getrandbits(32)) for name in exercise.keep}
        if "R13" in self.kept and "R13" not in case.registers:
            self.kept["R13"] = 0x8000 + 4096 * exercise.settings.app

    def lines(self) -> list[Line]:
        """The script: the image as digits, then lines of ours. The last takes the steps."""
        exercise, case, data = self.exercise, self.case, self.image.data
        rows = [data[at:at + 32].hex(" ") for at in range(0, len(data), 32)]
        lines = [Line(f"HEX {exercise.name}", (*rows, "END"))]
        if exercise.kind == "module":
            lines.append(Line(f"LOAD {exercise.name}"))
        elif exercise.origin == 0x8000:
            lines.append(Line(f"BOOT {exercise.name}"))
        else:
            lines += [Line(f"PUT {exercise.name} &{exercise.origin:X}"), Line(f"SET PC &{exercise.origin:X}")]
        lines += [Line(text) for text in case.before]
        for at, content in case.memory.items():
            lines += poke_lines(self.address(at), content)
        lines += [Line(f"SET {name} &{value:X}") for name, value in {**self.kept, **case.registers}.items()]
        return lines + self.start_lines()

    def start_lines(self) -> list[Line]:
        """What is set last, and the line that takes the steps."""
        if self.exercise.kind == "module":
            return [Line(f"CALL &{self.case.call or 0:X}")]
        lines = []
        if self.exercise.kind == "routine":
            lines += [Line(f"BREAK &{self.trap:X}"), Line(f"SET R14 &{self.trap:X}")]
        if self.exercise.entry:
            lines.append(Line(f"SET PC &{self.image.labels[self.exercise.entry]:X}"))
        return [*lines, Line("RUN")]

    def address(self, place: str) -> int:
        """An address, or that of a label of the submission."""
        if place.startswith("&"):
            return int(place[1:], 16)
        if place not in self.image.labels:
            raise Refused(f"it has no label {place}")
        return self.image.labels[place]

    def go(self, engine: Engine, limit: int) -> None:
        """Answers the script, and looks at the memory that is expected."""
        settings = self.exercise.settings
        session = Session(engine, Settings(settings.pages, settings.app, settings.rma, self.exercise.steps), limit)
        looks = {at: look_lines(self.address(at), len(content)) for at, content in self.case.expect_memory.items()}
        lines = self.lines()
        answers = session.do(*lines, *(line for rows in looks.values() for line in rows))
        self.answered: Answered = answers[len(lines) - 1]
        texts = iter(answers[len(lines):])
        self.shown = {at: b"".join(shown_bytes(next(texts).text) for _ in rows) for at, rows in looks.items()}
        self.before = session.entries[len(lines) - 1].before
        self.after = session.entries[len(lines) - 1].last
        self.loaded = answers[1]
        self.history: History = session.history

    def problems(self) -> list[str]:
        """What isn't as it should be, in words for whoever has handed it in."""
        case = self.case
        found = self.ending_problems()
        for name, wanted in case.expect_registers.items():
            found += self.register_problem(name, wanted)
        found += [f"{name} isn't as it was before: it is {number_text(value)}, and was &{wanted:X}"
                  for name, wanted in self.kept.items() if name not in case.expect_registers
                  and (value := self.register(name)) != wanted]
        for letter in case.flags:
            value = self.history.flags[letter.upper()].at(self.after)
            if bool(value) != letter.isupper():
                found.append(f"the flag {letter.upper()} is {'set' if value else 'clear'}")
        for at, content in case.expect_memory.items():
            found += memory_problem(at, content, self.shown[at])
        if case.output is not None and self.answered.output != case.output.decode("latin-1"):
            found.append(f"it prints {quoted(self.answered.output)}, and should print"
                         f" {quoted(case.output.decode('latin-1'))}")
        if case.steps is not None and self.answered.steps > case.steps:
            found.append(f"it takes {self.answered.steps} steps, and may take {case.steps}")
        return found

    def register(self, name: str) -> int:
        """A register's value at the end."""
        cell = self.history.registers.get(name)
        return cell.at(self.after) if cell else self.history.register(int(name[1:]), self.after)

    def register_problem(self, name: str, wanted: int) -> list[str]:
        value = self.register(name)
        if value == wanted:
            return []
        return [f"{name} is {number_text(value)}, and should be {number_text(wanted)}"]

    def ending_problems(self) -> list[str]:
        """Whether it came back, or ended, as it should, in which mode, and with which error."""
        case, exercise, answered = self.case, self.exercise, self.answered
        ending = answered.text.split("\n")[-1]
        if exercise.kind == "module":
            return self.module_problems(ending)
        wanted = case.stop or USUAL_STOPS[exercise.kind]
        found = []
        if wanted == "Break":
            at = self.history.register(15, self.after)
            if answered.stop != "Break" or at != self.trap:
                found.append(f"it doesn't return to the address in R14: {ending_text(ending, exercise.steps)}")
        elif answered.stop != wanted:
            found.append(f"it should end by {wanted}: {ending_text(ending, exercise.steps)}")
        mode = self.history.mode.at(self.after)
        if mode != (case.mode or "USR"):
            found.append(f"the mode is {mode}, and should be {case.mode or 'USR'}")
        return found

    def module_problems(self, ending: str) -> list[str]:
        if self.loaded.text != "ok":
            return [f"the module can't be loaded: {self.loaded.text}"]
        case, found = self.case, []
        if case.error is None and ending != "ok":
            found.append(f"the call should go well: {ending_text(ending, self.exercise.steps)}")
        if case.error is not None and (ending.split(" ")[0] != "error" or self.answered.error != case.error):
            found.append(f"the call should end in error {case.error}: {ending_text(ending, self.exercise.steps)}")
        stack = self.history.registers["R13_svc"]
        if stack.at(self.after) != stack.at(self.before):
            found.append("the supervisor stack, R13_svc, isn't as it was before the call")
        return found

    def trace(self, engine: Engine) -> str:
        """The last steps, each with its line of the source and its label; nothing where there are too many steps."""
        if self.answered.steps > RECORDED_STEPS:
            return ""
        self.go(engine, RECORDED_STEPS)
        count = min(SHOWN_STEPS, max(self.answered.steps, 1))
        return str(trace_of(self.history, self.after, count, Sources([(self.image_place(), self.image.source)])))

    def image_place(self) -> int:
        """Where the image is: a module's where it was loaded, before the call."""
        if self.exercise.kind != "module":
            return self.exercise.origin
        modules = self.history.whole["modules"].at(self.before)
        place: int = modules[-1]["at"] if modules else 0
        return place


def poke_lines(at: int, content: bytes) -> list[Line]:
    """Lines that put bytes into memory. Refused: they aren't whole words."""
    if at % 4:
        raise Refused(f"&{at:X}, where the case puts something, is no multiple of 4")
    padded = content + bytes(-len(content) % 4)
    return [Line(f"POKE &{at + place:X} &{int.from_bytes(padded[place:place + 4], 'little'):X}")
            for place in range(0, len(padded), 4)]


def look_lines(at: int, size: int) -> list[Line]:
    """Lines that show so many bytes."""
    return [Line(f"MEM &{at + place:X} {min(MOST_AT_ONCE, size - place)}") for place in range(0, size, MOST_AT_ONCE)]


def memory_problem(at: str, content: bytes, found: bytes) -> list[str]:
    """Whether these bytes were there, of which those are left out that aren't mapped."""
    if found == content:
        return []
    if len(content) == 4:
        value = int.from_bytes(found, "little")
        what = number_text(value) if len(found) == 4 else "no memory"
        return [f"at {at} is {what}, and should be {number_text(int.from_bytes(content, 'little'))}"]
    first = next((place for place, (one, other) in enumerate(zip(found, content)) if one != other), len(found))
    is_so = f"&{found[first]:02X}" if first < len(found) else "no memory"
    return [f"at {at} the byte {first} is {is_so}, and should be &{content[first]:02X}"]


def given_text(case: Case) -> str:
    """What a case sets, in words."""
    words = [f"{name} = {number_text(value)}" for name, value in case.registers.items()]
    words += [f"at {at}: {given_bytes(content)}" for at, content in case.memory.items()]
    if case.call is not None:
        words.append(f"the SWI &{case.call:X} is called")
    return ", ".join(words)


def given_bytes(content: bytes) -> str:
    """Bytes that a case sets, as a text where they are one that ends in 0."""
    digits, text = content.hex(" ")[:SHOWN_BYTES], content.removesuffix(b"\0")
    if len(text) < len(content) and text and all(32 <= byte < 127 for byte in text):
        return f"{quoted(content.decode('latin-1'))} ({digits})"
    return digits


def ending_text(ending: str, steps: int) -> str:
    """How a run ended, in words."""
    return f"it isn't done after {steps} steps" if ending == "stop Budget" else ending


def number_text(value: int) -> str:
    """A number as 42 (&2A), with its sign."""
    signed = value - (1 << 32) if value >> 31 else value
    return f"{signed} (&{value:X})" if value > 9 else str(value)


def quoted(text: str) -> str:
    """Bytes that were printed, as a script spells them."""
    spelt = "".join({"\n": "\\n", "\r": "\\r", "\t": "\\t", '"': '\\"', "\\": "\\\\"}.get(sign)
                    or (sign if " " <= sign <= "~" else f"\\x{ord(sign):02X}") for sign in text[:SHOWN_BYTES])
    return f'"{spelt}"' + (" .." if len(text) > SHOWN_BYTES else "")
