"""A session at a prompt: what is typed, line by line, to what is shown. No terminal is needed for it."""

from __future__ import annotations

import re
from dataclasses import dataclass, field
from pathlib import Path
from typing import Iterator

from ..machine.emptiness import empty_walk, lost_program
from ..machine.session import Answered, Line, MachineError, Session, with_texts
from ..native import ScriptError, bytes_of
from ..pictures.page import guest_text, spelt
from ..pictures.state import RecordError
from ..pictures.transcript import Answers
from ..programs import ProgramEngine

OPENS_BLOCK = re.compile(r"\s*(ASM\s+[!-~]+\s+(&[0-9A-F]+|\d+)|HEX\s+[!-~]+)\s*(\s;.*)?", re.IGNORECASE)
TRACES = re.compile(r"\s*(REPEAT\s+\S+\s+)?TRACE\s+(?!LIMIT\b|ON\b|OFF\b)", re.IGNORECASE)
TRACE_MODE = re.compile(r"\s*TRACE\s+(ON|OFF)\s*(\s;.*)?", re.IGNORECASE)
WHY_MODE = re.compile(r"\s*WHY\s+(ON|OFF)\s*(\s;.*)?", re.IGNORECASE)
TAKES_STEPS = re.compile(r"\s*(REPEAT\s+\S+\s+)?(RUN|STEP|CALL|LOAD|FINISH|GOSUB|COMMAND|SERVICE)\b", re.IGNORECASE)
AGAIN = re.compile(r"\s*(TRACE\s+)?(STEP\s+\S+|\d+|&[0-9A-F]+)\s*", re.IGNORECASE)
OWN_HELP = """lines of this prompt:
  BACK n                                     the machine as it was n steps before
  SAVE file                                  writes the lines so far to a file
  an empty line                              STEP or TRACE n once more; Ctrl-C ends a run, Ctrl-D the session"""


class Ended(Exception):
    """The session is to end."""


@dataclass(frozen=True)
class Shown:
    """A line that is shown: what it is, as `answer`, `output`, `trace`, `pass`, `fail`, `refused`, and its text."""

    kind: str
    text: str


@dataclass
class Talk:
    """Lines that come, and what they are answered. `opened` has the lines of a block that isn't whole."""

    engine: ProgramEngine
    session: Session
    opened: list[str] = field(default_factory=list)
    images: list[str] = field(default_factory=list)

    @property
    def is_in_block(self) -> bool:
        return bool(self.opened)

    def leave_block(self) -> None:
        """Forgets a block that isn't whole."""
        self.opened.clear()

    def type(self, text: str) -> list[Shown]:
        """What is shown after a line was typed. Ended: it was QUIT."""
        if self.opened or OPENS_BLOCK.fullmatch(text):
            self.opened.append(text)
            if len(self.opened) == 1 or text.upper() != "END":
                return []
            line = Line(self.opened[0], tuple(self.opened[1:]))
            self.opened.clear()
            return self._answer(line)
        if not text.strip():
            text = self._again()
        words = text.split()
        if not words or words[0][0] in ";#":
            return []
        if words[0].upper() == "QUIT":
            raise Ended
        # each line is answered on a machine that has no past, so the prompt itself goes back
        if words[0].upper() == "BACK":
            return self._back(words[1:])
        if words[0].upper() == "SAVE":
            return self._save(words[1:])
        shown = self._answer(Line(text))
        return [*shown, *lines_of("answer", OWN_HELP)] if words[0].upper() == "HELP" else shown

    def read(self, script: str) -> list[Shown]:
        """Answers a script, whole."""
        lines: list[Line] = []
        for text in script.split("\n"):
            text = text.removesuffix("\r")
            if self.opened or OPENS_BLOCK.fullmatch(text):
                self.opened.append(text)
                if len(self.opened) > 1 and text.upper() == "END":
                    lines.append(Line(self.opened[0], tuple(self.opened[1:])))
                    self.opened.clear()
            elif text.strip() and text.lstrip()[0] not in ";#":
                if text.split()[0].upper() == "QUIT":
                    break
                lines.append(Line(text))
        if self.opened:
            self.opened.clear()
            return [Shown("refused", "a block of the script has no END")]
        first = len(self.session.entries)
        return [each for place, (line, answered) in enumerate(zip(lines, self._do(*lines)), first)
                for each in [Shown("line", line.text), *self._shown(line, answered), *self._walked(place)]]

    def _walked(self, place: int) -> list[Shown]:
        """That a line of a script walked through empty memory, if it did."""
        entry = self.session.entries[place]
        lost = lost_program(self.session.entries[:place])
        reason = empty_walk(entry.line.text, lost, self.session.history, entry.before) if entry.answered.steps else ""
        return [Shown("refused", f"these steps are of no program: {reason}")] if reason else []

    def _again(self) -> str:
        last = self.session.entries[-1].line.text if self.session.entries else ""
        return last if AGAIN.fullmatch(last) else ""

    def _do(self, *lines: Line) -> list[Answered]:
        return self.session.do(*lines, is_strict=False)

    def _answer(self, line: Line) -> list[Shown]:
        history = self.session.history
        if reason := empty_walk(line.text, lost_program(self.session.entries), history, history.last):
            return [Shown("refused", f"nothing was run: {reason}"),
                    Shown("refused", "correct it, and type its block again")]
        try:
            return self._shown(line, self._do(line)[0])
        except (MachineError, ScriptError, RecordError) as error:
            return lines_of("refused", str(error))

    def _shown(self, line: Line, answered: Answered) -> list[Shown]:
        """What was printed, a trace in its place, and the answer."""
        if answered.steps and self.is_traced(line):
            return lines_of("trace", self._traced())
        shown = lines_of("output", guest_text(answered.output))
        text = with_texts(answered.text, list(line.block)) if answered.refused else answered.text
        return shown + lines_of(kind_of(answered), text) + self._why_below(answered)

    def is_traced(self, line: Line) -> bool:
        """Whether the steps of a line are shown."""
        if TRACES.match(line.text):
            return True
        return self._is_on(TRACE_MODE) and bool(TAKES_STEPS.match(line.text))

    def _is_on(self, mode: re.Pattern[str]) -> bool:
        """Whether the last line that set a mode set it on."""
        modes = [found[1].upper() for entry in self.session.entries if (found := mode.fullmatch(entry.line.text))]
        return modes[-1:] == ["ON"]

    def _why_below(self, answered: Answered) -> list[Shown]:
        """While WHY is on, the line below an answer that is an error, which records don't have."""
        if answered.error is None or answered.stop or not self._is_on(WHY_MODE):
            return []
        return lines_of("answer", self._traced().rstrip("\n").rpartition("\n")[2])

    def _traced(self) -> str:
        """The last line's answer with its trace, which a transcript of all lines has."""
        script = bytes_of(self.session.script())
        text = self.engine.output("transcript", script, self.session.settings).text
        answers, answer = Answers(text.splitlines()), ""
        for entry in self.session.entries:
            answer = answers.of_next(len(entry.line.lines()))
        # how many lines passed is behind the last answer
        expects = any(entry.answered.passed is not None for entry in self.session.entries)
        return answer.rstrip("\n").rpartition("\n")[0] if expects else answer

    def _back(self, words: list[str]) -> list[Shown]:
        count = words[0] if words else "1"
        if not count.isdecimal() or len(words) > 1:
            return [Shown("refused", "BACK takes a number of steps")]
        history = self.session.history
        try:
            self.session.cut(history.moment_of_step(max(history.steps[-1] - int(count), 0)))
        except MachineError as error:
            return [Shown("refused", str(error))]
        return [Shown("answer", f"at &{history.register(15, history.last):X}, after {history.steps[-1]} steps")]

    def _save(self, words: list[str]) -> list[Shown]:
        if len(words) != 1:
            return [Shown("refused", "SAVE takes the name of a file")]
        kept = [entry.line for entry in self.session.entries if not entry.answered.refused]
        text = "".join(f"{each}\n" for line in kept for each in line.lines())
        try:
            with Path(words[0]).open("x", encoding="latin-1") as file:
                file.write(text)
        except OSError as error:
            return [Shown("refused", f"{words[0]}: {error.strerror}")]
        return [Shown("answer", f"{len(kept)} lines are in {words[0]}")]

    def tally(self) -> str:
        """How many lines passed and failed, where one expects something."""
        verdicts = [entry.answered.passed for entry in self.session.entries
                    if entry.answered.passed is not None]
        return f"{sum(verdicts)} passed, {verdicts.count(False)} failed" if verdicts else ""


def kind_of(answered: Answered) -> str:
    """What an answer is, for its colour."""
    if answered.passed is not None:
        return "pass" if answered.passed else "fail"
    if answered.refused or answered.text.startswith("refused "):
        return "refused"
    return "fail" if answered.stop not in ("", "Exit", "Break", "Budget", "Watch") else "answer"


def lines_of(kind: str, text: str) -> list[Shown]:
    """The lines of a text, with signs that would steer a terminal shown by their numbers."""
    return list(shown_lines(kind, text.replace("\r", "")))


def shown_lines(kind: str, text: str) -> Iterator[Shown]:
    for line in text.split("\n")[:-1] if text.endswith("\n") else text.split("\n") if text else []:
        yield Shown(kind, spelt(line))
