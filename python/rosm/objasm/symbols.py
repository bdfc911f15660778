"""Names of a source: addresses and numbers, variables, registers, and numbered labels.

A symbol carries the number of the pass that gave it: what steers the reading (conditions, loops,
sizes) sees only what stands before it in the same pass, so that every pass takes the same lines.
"""

from __future__ import annotations

from bisect import bisect_right
from dataclasses import dataclass, field
from itertools import chain, islice
from typing import Iterator

from ..messages import Position, SourceError
from .values import Distance, ImportBase, Value

REGISTERS = {f"R{number}": number for number in range(16)}
REGISTERS |= {f"A{number}": number - 1 for number in range(1, 5)}
REGISTERS |= {f"V{number}": number + 3 for number in range(1, 7)}
REGISTERS |= {"SL": 10, "FP": 11, "IP": 12, "SP": 13, "LR": 14, "PC": 15}
REGISTERS |= {name.lower(): number for name, number in REGISTERS.items()}


class Undefined(SourceError):
    """A name that nothing has, or nothing has yet."""


@dataclass
class Symbol:
    """A name's value, the pass and line that gave it, and how many bytes its line has."""

    value: Value
    given: int
    position: Position
    size: int = 0
    external: bool = False  # bound on the command line


@dataclass
class Variable:
    """A variable of the assembler: its kind, A, L or S, and what it holds."""

    kind: str
    value: Value


@dataclass
class Import:
    """An imported name, and whether it may be missing."""

    weak: bool
    position: Position
    warned: bool = False


NOTHING: dict[str, Value] = {"A": 0, "L": False, "S": ""}


class Symbols:
    """Names and their values from pass to pass."""

    def __init__(self) -> None:
        self.pass_number = 0
        self.moved = False
        self.known: dict[str, Symbol] = {}
        self.variables: dict[str, Variable] = {}
        self.registers: dict[str, int] = {}
        self.others: dict[str, str] = {}  # names of coprocessors and their registers
        self.lists: dict[str, int] = {}

    def begin_pass(self) -> None:
        """Forgets what must be given again in each pass."""
        self.pass_number += 1
        self.moved = False
        self.variables, self.registers, self.others, self.lists = {}, {}, {}, {}

    def define(self, name: str, value: Value, position: Position, size: int = 0) -> Symbol:
        """Gives a name its value; SourceError where another line has given it one in this pass."""
        old = self.known.get(name)
        if name in self.variables:
            raise SourceError("the name is a variable's", name)
        imported = isinstance(value, Distance) and isinstance(value.base, ImportBase)
        if imported and old and old.external:
            old = None  # the command line gives an imported name its address
        if old and (old.given == self.pass_number or old.external):
            where = "by the command line" if old.external else \
                f"at {old.position.file}:{old.position.line}"
            raise SourceError(f"the name is there twice; it has a value {where}", name)
        if old is None or old.value != value or isinstance(old.value, bool) != isinstance(value, bool):
            self.moved = True
        symbol = Symbol(value, self.pass_number, position, old.size if old and not size else size)
        self.known[name] = symbol
        return symbol

    def set_size(self, symbol: Symbol, size: int) -> None:
        """Says how many bytes a symbol's line has."""
        if symbol.size != size:
            self.moved = True
            symbol.size = size

    def bind(self, name: str, value: Value) -> None:
        """Gives a name a value from the command line."""
        self.known[name] = Symbol(value, 0, Position("--bind", 0), 0, external=True)

    def symbol(self, name: str, strict: bool) -> Symbol:
        """The symbol of a name; with `strict` only where it was given in this pass."""
        symbol = self.known.get(name)
        if symbol is None or (symbol.given != self.pass_number and (strict or self.is_stale(symbol))):
            if symbol is None or symbol.external is False:
                raise Undefined(self.why_unknown(name, symbol), name)
        assert symbol is not None
        return symbol

    def is_stale(self, symbol: Symbol) -> bool:
        """Whether no line of the pass before gave the value."""
        return symbol.given < self.pass_number - 1

    def why_unknown(self, name: str, symbol: Symbol | None) -> str:
        """Why a name has no value here."""
        if name in self.others:
            return f"this is the name of {self.others[name]}"
        if symbol is not None and not self.is_stale(symbol):
            return f"this is given a value only later, at {symbol.position.file}:{symbol.position.line}"
        close = [known for known in self.known if known.lower() == name.lower() and known != name]
        return "nothing has this name" + (f"; there is {close[0]}" if close else "")


@dataclass(frozen=True)
class Numbered:
    """A numbered label: where it stands among the statements, at which level, and its place."""

    sequence: int
    level: tuple[int, ...]
    routine: str
    value: Value
    position: Position


@dataclass
class NumberedLabels:
    """Numbered labels by scope and number, as this pass and the one before met them."""

    now: dict[tuple[int, int], list[Numbered]] = field(default_factory=dict)
    before: dict[tuple[int, int], list[Numbered]] = field(default_factory=dict)
    moved: bool = False

    def begin_pass(self) -> None:
        self.before, self.now, self.moved = self.now, {}, False

    def end_pass(self) -> None:
        """Finds out whether a label moved since the pass before."""
        self.moved = {key: [label.value for label in labels] for key, labels in self.now.items()} != \
            {key: [label.value for label in labels] for key, labels in self.before.items()}

    def define(self, scope: int, number: int, label: Numbered) -> None:
        self.now.setdefault((scope, number), []).append(label)

    def find(self, scope: int, number: int, direction: str, levels: str, sequence: int,
             level: tuple[int, ...]) -> tuple[Numbered | None, Numbered | None]:
        """The label that a reference means, and the one that a reading by depth alone would mean."""
        back = reversed(self.now.get((scope, number), []))
        later = self.before.get((scope, number), [])
        ahead = islice(later, bisect_right(later, sequence, key=lambda label: label.sequence), None)
        nearest: Iterator[Numbered] = {"B": iter(back), "F": iter(ahead)}.get(direction, chain(back, ahead))
        by_depth = None
        for label in nearest:
            if by_depth is None and seen_by_depth(len(label.level), len(level), levels):
                by_depth = label
            if seen(label.level, level, levels):
                return label, by_depth  # what is seen isn't deeper, so the other was found by now
        return None, by_depth


def seen(there: tuple[int, ...], here: tuple[int, ...], levels: str) -> bool:
    """Whether a label of one chain of macro calls is seen from another.

    A reference sees its own level and those it was called from; with T its own; with A all.
    """
    if levels == "A":
        return True
    return there == here if levels == "T" else here[:len(there)] == there


def seen_by_depth(there: int, here: int, levels: str) -> bool:
    """The same by the depth of the levels alone."""
    if levels == "A":
        return True
    return there == here if levels == "T" else there <= here
