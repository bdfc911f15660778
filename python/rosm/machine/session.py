"""A session: lines of a debugging script that are answered as they come, each with its records.

Scripts are deterministic, so a session is its lines: where one is added, all of them are answered anew
by an engine, and the records of the new one are kept. Steps of older lines aren't recorded again: a line
`TRACE LIMIT 0` is before them, and one with the session's own limit before the new line.
"""

from __future__ import annotations

import json
import re
from dataclasses import dataclass, field
from typing import Any, Iterator

from ..hints import hint_of, hint_of_label
from ..native import Engine, Settings, bytes_of
from .history import History, Record

LIMIT = 100_000
# the lines that take steps, with what may stand before them
STEPPING = re.compile(r"\s*((TRACE|REPEAT\s+\S+)\s+)*(RUN|STEP|CALL|LOAD|FINISH|GOSUB|TRACE\s+(\d|&|LAST))\b",
                      re.IGNORECASE)
# those of which a part can be taken again
PLAIN_STEPS = re.compile(r"\s*(RUN|STEP\s+\S+)\s*", re.IGNORECASE)
NAMED_LINE = re.compile(r"\bline (\d+): (\w+)$", re.MULTILINE)
# so many signs of a source's line stand in an error
MOST_SOURCE = 80
# an error in the list of all errors of a block: the assembler can't read the line
SYNTAX = re.compile(r"^line (\d+): .*(?=\(Syntax\)$)", re.MULTILINE)
QUIT = re.compile(r"\s*((TRACE|REPEAT\s+\S+)\s+)*QUIT\b", re.IGNORECASE)
FAILED_LINE = re.compile(r"^fail line \d+: ", re.MULTILINE)
# an error of a block's line, by the number of the line in the script
LISTED_ERROR = re.compile(r"^line (\d+)(?=: .*: .* \(\w+\)$)", re.MULTILINE)
UNKNOWN_LINE = re.compile(r"^\? line \d+(: |$)", re.MULTILINE)


class MachineError(Exception):
    """A line that is refused, or what can't be asked of a machine. `answer` is what it is answered."""

    def __init__(self, text: str, answer: Answered | None = None) -> None:
        super().__init__(text)
        self.answer = answer


@dataclass(frozen=True)
class Line:
    """A line of a script, with the lines of its block up to END where it opens one."""

    text: str
    block: tuple[str, ...] = ()

    def lines(self) -> list[str]:
        return [self.text, *self.block]


@dataclass(frozen=True)
class Answered:
    """What a line is answered: its text, how many steps it took and what these printed.

    `passed` is None where the line expects nothing, `image` what a block has made: its lines are numbers
    of the block's own.
    """

    text: str = ""
    steps: int = 0
    output: str = ""
    stop: str = ""
    error: int | None = None
    refused: bool = False
    passed: bool | None = None
    reason: str = ""
    image: dict[str, Any] | None = None

    def __str__(self) -> str:
        return self.text


@dataclass
class Entry:
    """A line that was answered, the moment before it and the last of its own."""

    line: Line
    before: int
    last: int
    answered: Answered


@dataclass
class Session:
    """Lines and their records. `limit` is how many steps of a line are recorded one by one."""

    engine: Engine
    settings: Settings = field(default_factory=Settings)
    limit: int = LIMIT
    entries: list[Entry] = field(default_factory=list)

    def __post_init__(self) -> None:
        answer = self.engine(b"", self.settings)
        self.history = History(json.loads(answer.text.split("\n", 1)[0]))

    def script(self) -> str:
        """The lines so far, as a script."""
        return "".join(f"{text}\n" for entry in self.entries for text in entry.line.lines())

    def do(self, *lines: Line, is_strict: bool = True) -> list[Answered]:
        """Adds lines and answers them. MachineError: one is refused, and then none is added.

        Where it isn't strict, lines that are refused are kept, as in a script.
        """
        for line in lines:
            check_line(line)
        texts, places = self._built(list(lines))
        answer = self.engine(bytes_of("".join(f"{text}\n" for text in texts)), self.settings)
        groups = groups_of(answer.text, places)
        answers = [checked(line, group, is_strict) for line, group in zip(lines, groups)]
        for line, group, answered in zip(lines, groups, answers):
            before = self.history.last
            for record, text in group:
                if "line" not in record:
                    self.history.take(record, text)
            self.entries.append(Entry(line, before, self.history.last, answered))
        return answers

    def _built(self, lines: list[Line]) -> tuple[list[str], list[int]]:
        """The lines of the whole script, and where the new ones are in it, by numbers from 1 on."""
        texts: list[str] = []
        places = []
        is_limited = False
        for number, line in enumerate([*(entry.line for entry in self.entries), *lines]):
            is_new = number >= len(self.entries)
            if STEPPING.match(line.text) and (is_new or not is_limited):
                texts.append(f"TRACE LIMIT {self.limit if is_new else 0}")
                is_limited = True
            if is_new:
                places.append(len(texts) + 1)
            texts += line.lines()
        return texts, places

    # ---- earlier moments

    def cut(self, moment: int) -> None:
        """Forgets what came after a moment. In the midst of a line that can be for RUN and STEP alone."""
        if moment >= self.history.last:
            return
        kept = [entry for entry in self.entries if entry.last <= moment]
        part = next((entry for entry in self.entries if entry.before < moment < entry.last), None)
        if part:
            steps = self.history.steps[moment] - self.history.steps[part.before]
            if not PLAIN_STEPS.fullmatch(part.line.text):
                raise MachineError(f"nothing can be done in the midst of {part.line.text}: go back before it,"
                                   " or on to its end")
            answered = Answered(f"at &{self.history.register(15, moment):X}", steps,
                                self.history.output(moment, part.before))
            kept.append(Entry(Line(f"STEP {steps}"), part.before, moment, answered))
        self.entries = kept
        self.history.cut(moment)


def check_line(line: Line) -> None:
    """MachineError: this is no single line, or it would end the session."""
    for text in line.lines():
        if "\n" in text or any(ord(sign) > 255 for sign in text):
            raise MachineError(f"{text!r} is no line of bytes")
    if QUIT.match(line.text):
        raise MachineError(f"{line.text}: it would end the script")
    if any(text.strip("\r").upper() == "END" for text in line.block[:-1]):
        raise MachineError(f"{line.text}: a line END would end its block")


def checked(line: Line, group: list[tuple[Record, str]], is_strict: bool) -> Answered:
    """What a line is answered, where the machine took it, and its block, for what they are."""
    head = group[0][0] if group else {}
    if head.get("text") != line.text or head.get("block", list(line.block)) != list(line.block):
        raise MachineError(f"{line.text}: the machine took other lines than were meant")
    answered = answered_of([record for record, _ in group])
    if is_strict and (answered.refused or answered.text.startswith("refused ")):
        raise MachineError(f"{line.text}: {answered.text}", answered)
    return answered


def groups_of(text: str, places: list[int]) -> list[list[tuple[Record, str]]]:
    """The records of each line of those numbers, with their texts; none where a block has taken the line."""
    found: list[list[tuple[Record, str]]] = []
    start = 0
    for place in places:
        found_at = text.find(f'\n{{"line":{place},', start)
        group: list[tuple[Record, str]] = []
        start = max(found_at, start)
        for row in rows_from(text, start + 1 if found_at >= 0 else len(text)):
            record = json.loads(row)
            if record.get("line", place) != place or "end" in record:
                break
            group.append((record, row))
        found.append(group)
    return found


def rows_from(text: str, start: int) -> Iterator[str]:
    """The lines of a text from a place on."""
    while start < len(text):
        end = text.find("\n", start)
        end = len(text) if end < 0 else end
        yield text[start:end]
        start = end + 1


def spelt(text: str) -> str:
    """An answer without the number of its line, by which nobody has called it."""
    text = FAILED_LINE.sub("fail: ", text)
    return UNKNOWN_LINE.sub(lambda found: "" if found[1] else "no such line; HELP lists them", text)


def text_in_block(record: Record) -> str:
    """The text of an answer, with errors of a block's lines by their numbers in the block."""
    begin = record["answer"]
    return LISTED_ERROR.sub(lambda found: f"line {int(found[1]) - begin}", record["text"])


def with_texts(text: str, lines: list[str]) -> str:
    """What an assembler says, with the text of each line that it names by number and one word, and hints."""
    def line_of(found: re.Match[str]) -> str:
        return lines[int(found[1]) - 1] if 1 <= int(found[1]) <= len(lines) else ""

    def with_source(found: re.Match[str]) -> str:
        source = line_of(found).strip()[:MOST_SOURCE]
        hint = hint_by(found[2], line_of(found))
        return f"{found[0]}: {source}" + (f" ({hint})" if hint else "") if source else found[0]

    def hint_by(reason: str, source: str) -> str:
        if reason == "UnknownLabel":
            return hint_of_label(source, lines)
        return hint_of(source) if reason == "Syntax" else ""

    def with_hint(found: re.Match[str]) -> str:
        hint = hint_of(line_of(found))
        return f"{found[0]}({hint}) " if hint else found[0]

    return NAMED_LINE.sub(with_source, SYNTAX.sub(with_hint, text))


def answered_of(records: list[Record]) -> Answered:
    """What a line's records say that it is answered. One that is repeated has all its answers."""
    answers = [record for record in records if "answer" in record]
    last = answers[-1] if answers else {}
    verdicts = [record["expect"] for record in answers if "expect" in record]
    failed: Record = next((verdict for verdict in verdicts if not verdict["pass"]), {})
    return Answered(
        text=spelt("\n".join(text_in_block(record) for record in answers if "text" in record)),
        steps=sum(record.get("steps", 0) for record in answers),
        output="".join(record.get("out", "") for record in records),
        stop=last.get("stop", {}).get("reason", ""),
        error=last.get("error", last.get("stop", {}).get("error")),
        refused=any("refused" in record for record in answers),
        passed=not failed if verdicts else None,
        reason=failed.get("is", ""),
        image=own_image(last))


def own_image(record: Record) -> dict[str, Any] | None:
    """What a block has made, with the numbers of its own lines, from 1 on, in place of the script's."""
    image: dict[str, Any] | None = record.get("image")
    if image is None or "lines" not in image:
        return image
    begin = record["answer"]
    return {**image, "lines": [[number - begin, *rest] for number, *rest in image["lines"]]}
