"""An exercise for the tests of marks: a routine divides R0 by R1, the quotient in R2, the rest in R0."""

from __future__ import annotations

from pathlib import Path

from rosm.marking.cases import Exercise, read_exercise
from rosm.marking.grading import Mark, mark
from rosm.native import library_engine

RIGHT = """
divide  MOV     R2,#0
loop    CMP     R0,R1
        MOVCC   PC,R14
        SUB     R0,R0,R1
        ADD     R2,R2,#1
        B       loop
"""
CASES = """
[exercise]
title = "Division by subtraction"
name = "divide"
keep = ["R1", "R4-R11", "R13"]
steps = 5000

[[case]]
name = "17 by 5"
points = 2
registers = { R0 = 17, R1 = 5 }
expect = { R2 = 3, R0 = 2, output = "" }
hint = "Try it by hand."

[[case]]
name = "15 by 5"
points = 3
registers = { R0 = 15, R1 = 5 }
expect = { R2 = 3, R0 = 0, steps = 40 }

[[case]]
name = "the largest, which nobody is shown"
points = 5
hidden = true
registers = { R0 = "&FFFFFFFF", R1 = "&80000000" }
expect = { R2 = 1, R0 = 0x7FFFFFFF }
"""


def exercise_of(folder: Path, text: str = CASES, seed: int = 1) -> Exercise:
    """The exercise of a text."""
    path = folder / "cases.toml"
    path.write_text(text)
    return read_exercise(path, seed)


def marked(folder: Path, source: str | bytes, text: str = CASES) -> Mark:
    """The mark of a source, in this process."""
    data = source if isinstance(source, bytes) else source.encode("latin-1")
    return mark(exercise_of(folder, text), "anna.s", data, library_engine)
