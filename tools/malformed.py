"""Scripts that are malformed: those of transcripts, cut off after each of their bytes, or with bytes changed, left out
or doubled. Each must be answered as far as it stands unchanged, and end with the exit status of its last stop."""
from __future__ import annotations

import re
from dataclasses import dataclass
from typing import Callable, Iterator

from programs import Outcome
from transcripts import Kind, kind_of, line_bytes, lines_of

# how many times a script is changed
CHANGES = 200
BLOCK = (b"ASM ", b"HEX ")
STOP = re.compile(rb"^(?:stop |at &)[^\n]*", re.M)
STOPS_OF_3 = (b"at &", b"stop Budget", b"stop Break &")
Run = Callable[[bytes], Outcome]


def complaints(text: str, run: Run) -> Iterator[str]:
    """What is wrong with the answers to the script of a transcript where it is malformed."""
    for number in wrong_cuts(text, run):
        yield f"{number}: cut off near here it is answered otherwise"
    for number in wrong_changes(text, run):
        yield f" change {number} is answered otherwise"


@dataclass
class Typed:
    """A script as far as it is typed, and the answers to its whole lines."""

    run: Run
    script: bytes = b""
    told: bytes = b""
    # the line begun last, from 1
    line: int = 0
    # whether it stands in a block, which is answered where it ends
    is_block: bool = False

    def rest_of(self, script: bytes) -> bytes | None:
        """What a script is answered with after the answers to its whole lines; None where these aren't there."""
        outcome = self.run(script)
        is_right = outcome.answer.startswith(self.told) and outcome.status == status_told(outcome.answer)
        return outcome.answer.removeprefix(self.told) if is_right else None

    def holds(self, script: bytes) -> bool:
        """One line is answered for a block that has no end, and nothing else."""
        rest = self.rest_of(script)
        return bool(rest) and rest.find(b"\n") == len(rest) - 1 if self.is_block else rest == b""

    def holds_between_lines(self) -> bool:
        """With the end of the line before, and without it."""
        without_end = self.script.removesuffix(b"\n")
        return self.holds(self.script) and (without_end == self.script or self.holds(without_end))

    def holds_within(self, is_outside: bool) -> bool:
        """Where the script is cut off within a line, which then is outside the table or not."""
        if self.is_block:
            return self.holds(self.script)
        rest = self.rest_of(self.script)
        if is_outside:
            return rest == b"? line %d\n" % self.line
        return rest == b"" or bool(rest) and rest.endswith(b"\n")

    def type_line(self, line: bytes) -> bool:
        """Types a line, and answers whether the answers held after each of its bytes but the last and the line's end.
        Its first word alone is outside the table as long as more has to follow, and so is a line that ends in a space."""
        self.line += 1
        text, holds, has_space = line.removesuffix(b"\n"), True, False
        for place in range(len(text) - 1):
            byte = text[place : place + 1]
            self.script += byte
            has_space = has_space or byte == b" "
            holds = self.holds_within(not has_space or byte == b" ") and holds
        self.script += text[-1:] + b"\n"
        self.is_block = text.startswith(BLOCK) or self.is_block and text != b"END"
        return holds


def wrong_cuts(text: str, run: Run) -> Iterator[int]:
    """The lines of a transcript at which its script, cut off after a byte, is answered otherwise than it must be."""
    typed, number = Typed(run), 0
    for number, line in lines_of(text):
        kind, rest = kind_of(line)
        if kind is Kind.TYPED:
            between, within = typed.holds_between_lines(), typed.type_line(line_bytes(rest))
            if not (between and within):
                yield number
        elif kind is Kind.ANSWER:
            typed.told += line_bytes(rest)
    if not typed.holds_between_lines():
        yield number


class Numbers:
    """Numbers that look random, each from the one before (Knuth, "The Art of Computer Programming", 3.3.4)."""

    def __init__(self) -> None:
        self.last = 1

    def below(self, limit: int) -> int:
        self.last = (self.last * 1_664_525 + 1_013_904_223) & 0xFFFFFFFF
        return (self.last >> 8) % limit

    def changed(self, byte: bytes) -> tuple[bytes, bool]:
        """A byte as it is typed, two in a hundred changed, left out or doubled, and whether it is one of these."""
        change = self.below(150)
        if change == 0:
            return bytes([self.below(256)]), True
        return {1: b"", 2: 2 * byte}.get(change, byte), change < 3


def changed_script(text: str, numbers: Numbers) -> tuple[bytes, bytes]:
    """What is typed in a transcript, changed, and the answers to the lines before the first change."""
    script, told, is_changed = b"", b"", False
    for _, line in lines_of(text):
        kind, rest = kind_of(line)
        if kind is Kind.TYPED:
            for byte in line_bytes(rest):
                put, differs = numbers.changed(bytes([byte]))
                script, is_changed = script + put, is_changed or differs
        elif kind is Kind.ANSWER and not is_changed:
            told += line_bytes(rest)
    return script, told


def wrong_changes(text: str, run: Run) -> Iterator[int]:
    """The numbers of the changes, from 0, that are answered otherwise than they must be: the lines before the change as
    they stand there, and the exit status as the last stop has it."""
    numbers = Numbers()
    for number in range(CHANGES):
        script, told = changed_script(text, numbers)
        outcome = run(script)
        if not outcome.answer.startswith(told) or outcome.status != status_told(outcome.answer):
            yield number


def status_told(answer: bytes) -> int:
    """The exit status that the last stop of an answer means, and 3 where it has none."""
    stops = STOP.findall(answer)
    if not stops or stops[-1].startswith(STOPS_OF_3):
        return 3
    return 0 if stops[-1].startswith(b"stop Exit") else 1
