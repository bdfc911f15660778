"""Steps that would walk through empty memory, since the program that should be there has errors."""

from __future__ import annotations

from pathlib import Path

import pytest
from library import needs_library

import rosm
from rosm.machine.emptiness import empty_walk, lost_program
from rosm.machine.history import History
from rosm.machine.session import Answered, Entry, Line, Session
from rosm.marking.grading import mark
from rosm.native import library_engine
from rosm.terminal.talk import Talk

WRONG = ("ASM p &8000", " MOVE R0,R1", "END")
RIGHT = ("ASM p &8000", " MOV R0,#1", " SWI OS_Exit", "END")
START = {"start": 1, "name": "", "regs": {"R0": 0}, "flags": dict.fromkeys("NZCVIF", 0), "mode": "USR", "pc": 0x8000,
         "mapped": [[0x8000, 0x40000]], "mem": [], "heaps": [], "areas": [], "pool": 0, "flex": None, "modules": []}
NOTE = "there is no program at &8000, since p has errors"


def entry(*texts: str, **answered: object) -> Entry:
    """A line with its block, and what it was answered."""
    return Entry(Line(texts[0], texts[1:]), 0, 0, Answered(**answered))  # type: ignore[arg-type]


def test_which_program_is_lost() -> None:
    wrong, right = entry(*WRONG, refused=True), entry(*RIGHT, image={"name": "p"})
    other = entry("HEX q", "ZZ", "END", refused=True)
    assert lost_program([]) == "" and lost_program([wrong]) == "p" and lost_program([wrong, right]) == ""
    assert lost_program([right, wrong]) == "p" and lost_program([wrong, other]) == "q"
    assert lost_program([entry("FOO", refused=True)]) == ""


@pytest.mark.parametrize("text", ["RUN", "run", "STEP 3", "TRACE RUN", "TRACE LAST 3", "TRACE 4", "REPEAT 2 STEP 1"])
def test_lines_that_go_on(text: str) -> None:
    assert empty_walk(text, "p", History(START), 0) == NOTE
    assert empty_walk(text, "", History(START), 0) == ""


@pytest.mark.parametrize("text", ["REGS", "CALL &1D", "LOAD q", "GOSUB &9000", "TRACE ON", "TRACE LIMIT 3", "SET R0 1"])
def test_lines_that_do_not(text: str) -> None:
    assert empty_walk(text, "p", History(START), 0) == ""


def test_where_a_program_is() -> None:
    assert empty_walk("RUN", "p", History({**START, "mem": [[0x8000, 0, 1]]}), 0) == ""


@needs_library
def test_at_the_prompt() -> None:
    talk = Talk(library_engine, Session(library_engine))  # type: ignore[arg-type]
    for text in (*WRONG, "BOOT p"):
        talk.type(text)
    shown = talk.type("RUN")
    assert [line.text for line in shown] == [f"nothing was run: {NOTE}", "correct it, and type its block again"]
    assert {line.kind for line in shown} == {"refused"} and talk.session.history.steps[-1] == 0
    for text in (*RIGHT, "BOOT p"):
        talk.type(text)
    assert [line.text for line in talk.type("RUN")] == ["stop Exit"]


@needs_library
def test_of_a_script_that_is_read() -> None:
    talk = Talk(library_engine, Session(library_engine))  # type: ignore[arg-type]
    shown = [line.text for line in talk.read("\n".join([*WRONG, "BOOT p", "STEP 2", "REGS", ""]))]
    assert shown.count(f"these steps are of no program: {NOTE}") == 1


@needs_library
def test_of_a_machine() -> None:
    machine = rosm.Machine()
    with pytest.raises(rosm.MachineError, match="line 1: "):
        machine.asm("\n".join(WRONG[1:-1]), "p")
    for act in (machine.run, machine.step):
        with pytest.raises(rosm.MachineError, match=f": nothing was run: {NOTE}"):
            act()
    machine.asm("\n".join(RIGHT[1:-1]), "p")
    assert machine.run().stop == "Exit"


@needs_library
def test_a_mark_runs_nothing(tmp_path: Path) -> None:
    from rosm.marking.cases import read_exercise
    cases = tmp_path / "cases.toml"
    cases.write_text('[exercise]\ntitle = "one"\n[[case]]\nname = "first"\nexpect = { R0 = 1 }\n')
    found = mark(read_exercise(cases), "anna.s", b" MOVE R0,R1\n", library_engine)
    assert found.passed == 0 and found.cases[0].steps == 0 and "MOVE" in found.refused
