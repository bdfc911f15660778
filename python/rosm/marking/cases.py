"""The cases of an exercise, from a TOML file and a Python reference of the teacher's."""

from __future__ import annotations

import importlib.util
import random
import re
import tomllib
from dataclasses import dataclass, field
from pathlib import Path
from typing import Any, Callable

from ..machine.parts import register_number
from ..native import Settings

KINDS = ("routine", "program", "module")
LANGUAGES = ("asm", "objasm")
EXERCISE_KEYS = {"title", "kind", "name", "origin", "entry", "language", "solution", "reference", "keep", "steps",
                 "seconds", "bytes", "pages", "app", "rma"}
CASE_KEYS = {"name", "points", "hidden", "registers", "memory", "before", "call", "expect", "hint"}
EXPECT_KEYS = {"flags", "mode", "output", "stop", "steps", "error", "memory"}
RANDOM_KEYS = {"name", "points", "hidden", "function", "count", "hint"}
BANKED = re.compile(r"R(8|9|1[0-4])_(usr|fiq)|R1[34]_(irq|svc)")


class CasesError(Exception):
    """What is wrong with the cases; the text has the file and the place in it."""


@dataclass(frozen=True)
class Case:
    """A case: what is set before it, and what has to be so after it."""

    name: str
    points: float = 1
    hidden: bool = False
    registers: dict[str, int] = field(default_factory=dict)
    memory: dict[str, bytes] = field(default_factory=dict)
    before: tuple[str, ...] = ()
    call: int | None = None
    expect_registers: dict[str, int] = field(default_factory=dict)
    expect_memory: dict[str, bytes] = field(default_factory=dict)
    flags: str = ""
    mode: str | None = None
    output: bytes | None = None
    stop: str | None = None
    error: int | None = None
    steps: int | None = None
    hint: str = ""


@dataclass(frozen=True)
class Exercise:
    """What is handed in and how it is run: a routine, a program or a module."""

    title: str
    cases: tuple[Case, ...]
    kind: str = "routine"
    name: str = "answer"
    origin: int = 0x8000
    entry: str = ""
    language: str = "asm"
    solution: str = ""
    keep: tuple[str, ...] = ()
    steps: int = 100_000
    seconds: int = 20
    bytes: int = 65_536
    settings: Settings = Settings()
    seed: int = 1

    @property
    def points(self) -> float:
        return sum(case.points for case in self.cases)


class Reader:
    """Reads a file of cases. Each complaint has the file and the place."""

    def __init__(self, path: Path) -> None:
        self.path = path

    def error(self, place: str, reason: str) -> CasesError:
        return CasesError(f"{self.path}: {place}: {reason}")

    def keys(self, place: str, table: Any, known: set[str]) -> dict[str, Any]:
        """A table that has no other keys."""
        if not isinstance(table, dict):
            raise self.error(place, "it is no table")
        for key in table:
            if key not in known and not (known is EXPECT_KEYS and is_register(key)):
                raise self.error(place, f"{key!r} isn't known; it may have {', '.join(sorted(known))}")
        return table

    def typed(self, place: str, table: dict[str, Any], key: str, kind: type | tuple[type, ...], usual: Any) -> Any:
        """A value of a type, or the usual one where it isn't there."""
        value = table.get(key, usual)
        if not isinstance(value, kind) or isinstance(value, bool) and kind is not bool:
            raise self.error(place, f"{key} = {value!r} is of the wrong kind")
        return value

    def number(self, place: str, value: Any) -> int:
        """A number of 32 bits: a TOML number, or a text as &8000."""
        if isinstance(value, str):
            digits, base = (value[1:], 16) if value[:1] == "&" else (value, 0)
            try:
                value = int(digits, base)
            except ValueError:
                raise self.error(place, f"{value!r} is no number") from None
        if not isinstance(value, int) or isinstance(value, bool) or not -(1 << 31) <= value < 1 << 32:
            raise self.error(place, f"{value!r} is no number of 32 bits")
        return value & 0xFFFFFFFF

    def registers(self, place: str, table: Any, has_banks: bool = True) -> dict[str, int]:
        """Registers by name."""
        if not isinstance(table, dict):
            raise self.error(place, "it is no table of registers")
        for name in table:
            if not is_register(name) or "_" in name and not has_banks:
                raise self.error(place, f"{name!r} is no register")
        return {plain_register(name): self.number(f"{place}: {name}", value) for name, value in table.items()}

    def memory(self, place: str, table: Any) -> dict[str, bytes]:
        """Bytes by addresses or labels: a number is a word, a list is words, a text is its bytes."""
        if not isinstance(table, dict):
            raise self.error(place, "it is no table of memory")
        found = {}
        for at, value in table.items():
            if at[:1] in "&0123456789":
                at = f"&{self.number(place, at):X}"
            if isinstance(value, str):
                found[at] = self.text(f"{place}: {at}", value)
            else:
                words = value if isinstance(value, list) else [value]
                found[at] = b"".join(self.number(f"{place}: {at}", word).to_bytes(4, "little") for word in words)
            if not found[at]:
                raise self.error(place, f"{at} has no bytes")
        return found

    def text(self, place: str, value: Any) -> bytes:
        """A text whose signs are bytes."""
        if not isinstance(value, str) or any(ord(sign) > 255 for sign in value):
            raise self.error(place, f"{value!r} is no text of bytes")
        return value.encode("latin-1")

    def case(self, place: str, table: Any) -> Case:
        """A case by its table."""
        self.keys(place, table, CASE_KEYS)
        name = self.typed(place, table, "name", str, place)
        place = f"{place} ({name})"
        expect = self.keys(f"{place}: expect", table.get("expect", {}), EXPECT_KEYS)
        points = self.typed(place, table, "points", (int, float), 1)
        if points < 0:
            raise self.error(place, "points are below 0")
        output, steps, error = expect.get("output"), expect.get("steps"), expect.get("error")
        inner = f"{place}: expect"
        return Case(
            name=name, points=points, hidden=self.typed(place, table, "hidden", bool, False),
            registers=self.registers(f"{place}: registers", table.get("registers", {}), has_banks=False),
            memory=self.memory(f"{place}: memory", table.get("memory", {})),
            before=tuple(self.lines(place, table.get("before", []))),
            call=self.number(f"{place}: call", table["call"]) if "call" in table else None,
            expect_registers=self.registers(inner, {key: expect[key] for key in expect if is_register(key)}),
            expect_memory=self.memory(f"{inner}: memory", expect.get("memory", {})),
            flags=self.flags(inner, expect.get("flags", "")),
            mode=self.typed(inner, expect, "mode", (str, type(None)), None),
            output=None if output is None else self.text(f"{inner}: output", output),
            stop=self.typed(inner, expect, "stop", (str, type(None)), None),
            error=None if error is None else self.number(f"{inner}: error", error),
            steps=None if steps is None else self.number(f"{inner}: steps", steps),
            hint=self.typed(place, table, "hint", str, ""))

    def lines(self, place: str, value: Any) -> list[str]:
        if not isinstance(value, list) or not all(isinstance(line, str) and "\n" not in line for line in value):
            raise self.error(place, "before is a list of lines")
        return value

    def flags(self, place: str, value: Any) -> str:
        if not isinstance(value, str) or not set(value.upper()) <= set("NZCVIF") \
                or len(set(value.upper())) != len(value):
            raise self.error(place, f"flags = {value!r}: letters of NZCVIF are wanted, each once at most")
        return value


def is_register(name: str) -> bool:
    try:
        return bool(BANKED.fullmatch(name)) or register_number(name) < 15
    except KeyError:
        return False


def plain_register(name: str) -> str:
    """R0 to R14, or that of a mode."""
    return name if "_" in name else f"R{register_number(name)}"


def kept_registers(reader: Reader, names: Any) -> tuple[str, ...]:
    """The registers that `keep` lists: R4, R8-R11, SP."""
    if not isinstance(names, list) or not all(isinstance(name, str) for name in names):
        raise reader.error("exercise", "keep is a list of registers")
    kept: list[str] = []
    for name in names:
        first, _, last = name.partition("-")
        if not is_register(first) or "_" in name or last and not is_register(last):
            raise reader.error("exercise", f"keep: {name!r} is no register and no range")
        numbers = range(register_number(first), register_number(last or first) + 1)
        kept += [f"R{number}" for number in numbers if f"R{number}" not in kept]
    return tuple(kept)


def random_cases(reader: Reader, place: str, table: Any, reference: Path | None, seed: int) -> list[Case]:
    """The cases that a function of the reference makes, with a source of random numbers of its own."""
    reader.keys(place, table, RANDOM_KEYS)
    name = reader.typed(place, table, "function", str, "case")
    count = reader.typed(place, table, "count", int, 10)
    points = reader.typed(place, table, "points", (int, float), 1)
    title = reader.typed(place, table, "name", str, name)
    if reference is None:
        raise reader.error(place, "the exercise has no reference, whose functions make random cases")
    if not 0 < count <= 10_000:
        raise reader.error(place, "count is 1 to 10000")
    function = function_of(reader, reference, name)
    numbers = random.Random(f"{seed} {place}")
    cases = []
    for number in range(1, count + 1):
        try:
            made = dict(function(numbers))
        except Exception as error:
            raise reader.error(place, f"{reference}: {name} ends in {type(error).__name__}: {error}") from error
        own = {"name": f"{title} {number}", "points": points / count, "hidden": table.get("hidden", False),
               "hint": table.get("hint", "")}
        cases.append(reader.case(f"{place} {number}", {**own, **made}))
    return cases


def function_of(reader: Reader, path: Path, name: str) -> Callable[[random.Random], dict[str, Any]]:
    """A function of the teacher's reference."""
    specification = importlib.util.spec_from_file_location("rosm_reference", path)
    if specification is None or specification.loader is None:
        raise reader.error("exercise", f"reference {path} is no file of Python")
    module = importlib.util.module_from_spec(specification)
    try:
        specification.loader.exec_module(module)
        function: Callable[[random.Random], dict[str, Any]] = getattr(module, name)
    except Exception as error:
        raise reader.error("exercise", f"reference {path}: {type(error).__name__}: {error}") from error
    return function


def read_exercise(path: Path, seed: int = 1) -> Exercise:
    """The exercise of a file. CasesError: what is wrong with it."""
    reader = Reader(path)
    try:
        tables = tomllib.loads(path.read_bytes().decode("utf-8"))
    except (OSError, ValueError) as error:
        raise CasesError(f"{path}: {getattr(error, 'strerror', None) or error}") from error
    reader.keys("the file", tables, {"exercise", "case", "random"})
    own = reader.keys("exercise", tables.get("exercise", {}), EXERCISE_KEYS)
    for name, known in (("kind", KINDS), ("language", LANGUAGES)):
        if own.get(name, known[0]) not in known:
            raise reader.error("exercise", f"{name} is one of {', '.join(known)}")
    return made_exercise(reader, own, all_cases(reader, tables, own, seed), seed)


def all_cases(reader: Reader, tables: dict[str, Any], own: dict[str, Any], seed: int) -> tuple[Case, ...]:
    """The cases as they are written, and then the random ones."""
    reference = reader.path.parent / own["reference"] if "reference" in own else None
    cases: list[Case] = []
    for key in ("case", "random"):
        if not isinstance(tables.get(key, []), list):
            raise reader.error(key, f"it begins with [[{key}]]")
        for number, table in enumerate(tables.get(key, []), 1):
            if key == "case":
                cases.append(reader.case(f"case {number}", table))
            else:
                cases += random_cases(reader, f"random {number}", table, reference, seed)
    if not cases:
        raise reader.error("the file", "it has no case")
    return tuple(cases)


def made_exercise(reader: Reader, own: dict[str, Any], cases: tuple[Case, ...], seed: int) -> Exercise:
    """The exercise of its table."""
    kind = own.get("kind", "routine")

    def typed(name: str, of: type | tuple[type, ...], usual: Any) -> Any:
        return reader.typed("exercise", own, name, of, usual)

    if kind == "module" and any(case.call is None for case in cases):
        raise reader.error("exercise", "each case of a module has a call, the number of a SWI")
    if kind == "routine" and any("R14" in case.registers for case in cases):
        raise reader.error("exercise", "a case sets R14, which leads to where a routine goes back to")
    steps, origin = typed("steps", int, 100_000), reader.number("exercise: origin", own.get("origin", 0x8000))
    seconds = typed("seconds", int, 20)
    if not 0 < seconds <= 3600:
        raise reader.error("exercise", "seconds are 1 to 3600")
    if not 0 < steps < 1 << 63 or origin % 4 or origin >= 1 << 26:
        raise reader.error("exercise", "steps are 1 at least, and the origin is a multiple of 4 below &4000000")
    return Exercise(
        title=typed("title", str, reader.path.stem), cases=cases, kind=kind, name=typed("name", str, "answer"),
        origin=0 if kind == "module" else origin, entry=typed("entry", str, ""),
        language=own.get("language", "asm"), solution=typed("solution", str, ""),
        keep=kept_registers(reader, own.get("keep", [])), steps=steps,
        seconds=seconds, bytes=typed("bytes", int, 65_536), seed=seed,
        settings=Settings(typed("pages", int, 256), typed("app", int, 64), typed("rma", int, 16), steps))
