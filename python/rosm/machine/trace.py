"""The steps of a run, one a line: what each did, and what it changed."""

from __future__ import annotations

from dataclasses import dataclass
from typing import Iterator

from .history import History, Record
from .parts import escaped
from .sources import Sources


@dataclass(frozen=True)
class Step:
    """A step: its number and moment, the address and the instruction, and what it changed, in words.

    `label` is the label at its address, `line` the number of the source's line, where these are known.
    """

    number: int
    moment: int
    pc: int | None
    text: str
    effects: tuple[str, ...]
    label: str = ""
    line: int | None = None

    def row(self, source: str = "") -> str:
        """The step as a line, with what is known of its source behind the address."""
        where = "--------" if self.pc is None else f"{self.pc:08X}"
        return f"{self.number:6} {where} {source}{self.text:26} {' '.join(self.effects)}".rstrip()

    def __str__(self) -> str:
        return self.row()


class Trace:
    """Steps in order: a sequence, a text, and a table in a notebook."""

    def __init__(self, steps: list[Step]) -> None:
        self.steps = steps

    def __len__(self) -> int:
        return len(self.steps)

    def __iter__(self) -> Iterator[Step]:
        return iter(self.steps)

    def __getitem__(self, place: int) -> Step:
        return self.steps[place]

    def __str__(self) -> str:
        digits = max((len(str(step.line)) for step in self.steps if step.line is not None), default=0)
        letters = max((len(step.label) for step in self.steps), default=0)
        return "\n".join(step.row(source_columns(step, digits, letters)) for step in self.steps)

    __repr__ = __str__

    def _repr_html_(self) -> str:
        head = ("<tr><th>step</th><th>address</th><th>label</th><th>instruction</th>"
                "<th>what it changed</th></tr>")
        rows = "".join(
            f"<tr><td>{step.number}</td><td>{'' if step.pc is None else f'{step.pc:08X}'}</td>"
            f"<td>{escaped(step.label)}</td><td>{escaped(step.text)}</td><td>{escaped(' '.join(step.effects))}</td></tr>"
            for step in self.steps)
        return f'<table style="font-family:monospace;text-align:left">{head}{rows}</table>'


def source_columns(step: Step, digits: int, letters: int) -> str:
    """The line's number and the label, in columns of these widths; nothing where none is known of any step."""
    line = f"{'' if step.line is None else step.line:>{digits}} " if digits else ""
    return line + (f"{step.label:{letters}} " if letters else "")


def trace_of(history: History, moment: int, count: int | None, sources: Sources = Sources()) -> Trace:
    """The steps up to a moment, the last so many of them if a number is given."""
    steps: list[Step] = []
    at = moment
    while at > 0 and (count is None or len(steps) < count):
        if history.texts[at].startswith('{"step":'):
            steps.append(step_of(history.record(at), at, sources))
        at -= 1
    return Trace(steps[::-1])


def step_of(record: Record, moment: int, sources: Sources) -> Step:
    """A step by its record."""
    pc, line = record.get("pc"), None
    if "skip" in record:
        text = f"{record['skip']} steps"
    else:
        text = sources.named(instruction_of(record))
    if pc is not None:
        line = sources.line(pc)
    return Step(record["step"], moment, pc, text, tuple(effects_of(record)),
                "" if pc is None else sources.label(pc), line[0] if line else None)


def instruction_of(record: Record) -> str:
    """The text of an instruction, a SWI by its name, or that of a call from outside."""
    text: str = record.get("asm") or record.get("call") or ""
    name = record.get("swi", {}).get("name")
    if name and "asm" in record:
        return f"{text.partition(' ')[0]} {'X' if record['swi'].get('x') else ''}{name}"
    return text


def effects_of(record: Record) -> Iterator[str]:
    """What a step changed, each in a word or a few."""
    if record.get("skipped"):
        yield "skipped"
    if "swi" in record and (text := swi_text(record["swi"], is_named="asm" in record)):
        yield text
    for name, value in record.get("regs", {}).items():
        yield f"{name.removesuffix('_usr')}={value:08X}"
    for name, value in record.get("flags", {}).items():
        yield f"{name}={value}"
    if "mode" in record:
        yield f"mode={record['mode']}"
    if "next" in record:
        yield f"PC={record['next']:08X}"
    words = record.get("mem", [])
    for at, old, word in words[:8]:
        yield f"[{at:08X}]={word:08X} was {old:08X}"
    if len(words) > 8 or "more" in record:
        yield f"and {len(words[8:]) + record.get('more', 0)} words more"
    yield from heap_effects(record)
    if "error" in record:
        yield f"error {record['error']['number']} {record['error'].get('name', '')}".rstrip()
    if "enters" in record:
        yield f"enters {record['enters']['module']}"
    if "leaves" in record:
        yield f"leaves frame {record['leaves']}"
    if "out" in record:
        yield f"prints {record['out']!r}"
    if "stop" in record:
        yield f"stops {record['stop']['reason']}"


def swi_text(swi: Record, is_named: bool) -> str:
    """A call by its name, which the instruction may have already, with its reason."""
    words = []
    if not is_named:
        name = swi.get("name", f"SWI &{swi['number']:X}")
        words.append(f"X{name}" if swi.get("x") else name)
    if "reason" in swi:
        words.append(str(swi["reason"]))
    if "does" in swi:
        words.append(swi["does"])
    return " ".join(words)


def heap_effects(record: Record) -> Iterator[str]:
    """What became of heaps."""
    for heap in record.get("heaps", []):
        where = f"heap {heap['heap']:08X}"
        if heap.get("made") or heap.get("gone"):
            yield f"{where} {'made' if heap.get('made') else 'gone'}"
        for item in heap.get("items", []):
            if item[0] == "=":
                yield f"block {item[2]:08X} {item[3]} now {item[4]:08X} {item[5]}"
            else:
                yield f"{item[0]}{item[1]} {item[2]:08X} {item[3]}"
