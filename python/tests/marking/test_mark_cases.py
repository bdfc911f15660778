"""Files of cases: what is read in them, and what is wrong with them."""

from __future__ import annotations

from pathlib import Path

import pytest
from marking_cases import CASES, exercise_of

from rosm.marking.cases import CasesError

ONE = '[[case]]\nname = "one"\n'


def test_cases_are_read(tmp_path: Path) -> None:
    exercise = exercise_of(tmp_path)
    assert (exercise.title, exercise.name, exercise.points, exercise.steps) == (
        "Division by subtraction", "divide", 10, 5000)
    assert exercise.keep == ("R1", "R4", "R5", "R6", "R7", "R8", "R9", "R10", "R11", "R13")
    first, second, third = exercise.cases
    assert first.registers == {"R0": 17, "R1": 5} and first.expect_registers == {"R2": 3, "R0": 2}
    assert (first.output, first.hint, second.output, second.steps) == (b"", "Try it by hand.", None, 40)
    assert third.hidden and third.registers == {"R0": 0xFFFFFFFF, "R1": 0x80000000}


def test_memory_is_words_or_text(tmp_path: Path) -> None:
    text = ONE + 'memory = { "&9000" = "Hi\\n", "36868" = [1, -1], total = 5 }\nexpect = { memory = { "&9000" = 7 } }\n'
    case = exercise_of(tmp_path, text).cases[0]
    assert case.memory == {"&9000": b"Hi\n", "&9004": b"\1\0\0\0\xff\xff\xff\xff", "total": b"\5\0\0\0"}
    assert case.expect_memory == {"&9000": b"\7\0\0\0"}


@pytest.mark.parametrize("text, reason", [
    ("", "it has no case"), ("[exercise", "Expected ']'"), ("[exercise]\nkind = 'essay'\n" + ONE, "kind is one of routine"),
    ("[exercise]\ncolour = 1\n" + ONE, "exercise: 'colour' isn't known"),
    ("[exercise]\nkeep = ['R4-']\n" + ONE, "cases.toml"), ("[exercise]\nkeep = ['R16']\n" + ONE, "'R16' is no register"),
    ("[exercise]\norigin = 3\n" + ONE, "multiple of 4"), ("[exercise]\nsteps = 0\n" + ONE, "steps are 1 at least"),
    ("[exercise]\nkind = 'module'\n" + ONE, "each case of a module has a call"),
    ("[[case]]\nname = 5\n", "case 1: name = 5 is of the wrong kind"),
    (ONE + "registers = { R15 = 1 }\n", "case 1 (one): registers: 'R15' is no register"),
    (ONE + "registers = { R0 = 1.5 }\n", "R0: 1.5 is no number of 32 bits"),
    (ONE + "registers = { R0 = 4294967296 }\n", "is no number of 32 bits"),
    (ONE + "registers = { R0 = 'x' }\n", "'x' is no number"), (ONE + "points = -1\n", "points are below 0"),
    (ONE + "points = true\n", "points = True is of the wrong kind"),
    (ONE + "expect = { R2 = 1, colour = 2 }\n", "'colour' isn't known"),
    (ONE + "expect = { flags = 'Q' }\n", "letters of NZCVIF"), (ONE + "expect = { output = '\u20ac' }\n", "no text of bytes"),
    (ONE + "before = 'RUN'\n", "before is a list of lines"),
    (ONE + "registers = { R13_svc = 1 }\n", "'R13_svc' is no register"), (ONE + "registers = { LR = 1 }\n", "a case sets R14"),
    (ONE + "memory = { '&9000' = '' }\n", "&9000 has no bytes"), (ONE + "memory = 5\n", "it is no table of memory"),
    ("[[random]]\nfunction = 'f'\n", "the exercise has no reference"), ("case = 5\n", "begins with [[case]]")])
def test_what_is_wrong_with_cases(text: str, reason: str, tmp_path: Path) -> None:
    if "R4-" in text:
        # a range without an end is its first register
        assert exercise_of(tmp_path, text).keep == ("R4",)
        return
    with pytest.raises(CasesError) as error:
        exercise_of(tmp_path, text)
    assert reason in str(error.value) and "cases.toml" in str(error.value)


def test_a_file_that_isnt_there(tmp_path: Path) -> None:
    from rosm.marking.cases import read_exercise
    with pytest.raises(CasesError, match="No such file"):
        read_exercise(tmp_path / "nothing.toml")
    (tmp_path / "bytes.toml").write_bytes(b"\xff\xfe")
    with pytest.raises(CasesError, match="can't decode"):
        read_exercise(tmp_path / "bytes.toml")


REFERENCE = """
def division(random):
    number, by = random.randrange(1000), random.randrange(1, 50)
    return {"registers": {"R0": number, "R1": by}, "expect": {"R2": number // by, "R0": number % by}}

def broken(random):
    return 1 // 0

def unknown(random):
    return {"registers": {"R99": 1}}
"""


def with_random(function: str) -> str:
    return (CASES.replace("[exercise]", '[exercise]\nreference = "reference.py"')
            + f'\n[[random]]\nname = "by chance"\nfunction = "{function}"\ncount = 4\npoints = 6\n')


def test_random_cases_come_of_a_seed(tmp_path: Path) -> None:
    (tmp_path / "reference.py").write_text(REFERENCE)
    first = exercise_of(tmp_path, with_random("division"), 1)
    again, other = exercise_of(tmp_path, with_random("division"), 1), exercise_of(tmp_path, with_random("division"), 2)
    assert first.cases == again.cases and first.cases[3:] != other.cases[3:] and len(first.cases) == 7
    assert first.cases[3].name == "by chance 1" and first.points == 16
    for case in first.cases[3:]:
        number, by = case.registers["R0"], case.registers["R1"]
        assert case.expect_registers["R2"] * by + case.expect_registers["R0"] == number


@pytest.mark.parametrize("function, reason", [
    ("broken", "broken ends in ZeroDivisionError"), ("unknown", "'R99' is no register"), ("absent", "AttributeError")])
def test_what_is_wrong_with_a_reference(function: str, reason: str, tmp_path: Path) -> None:
    (tmp_path / "reference.py").write_text(REFERENCE)
    with pytest.raises(CasesError) as error:
        exercise_of(tmp_path, with_random(function))
    assert reason in str(error.value)
