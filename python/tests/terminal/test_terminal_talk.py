"""What is shown after each line that is typed, and a terminal with keys."""

from __future__ import annotations

import signal
import subprocess
import threading
import time
from pathlib import Path

import pytest
from debugger_program import needs_program, program
from machine import ROOT

from rosm.machine.session import Session
from rosm.native import ScriptError, Settings
from rosm.programs import ProgramEngine
from rosm.terminal.command import parser_of, talk_of
from rosm.terminal.talk import Ended, Shown, Talk

pytestmark = needs_program
SUM = (ROOT / "examples/debug/sum.script").read_text()
COUNTDOWN = ["ASM c &8000", "        MOV     R0,#3", "loop    SUBS    R0,R0,#1", "        BNE     loop",
             "        SWI     OS_Exit", "END"]


@pytest.fixture
def talk(tmp_path: Path) -> Talk:
    engine = ProgramEngine(program(tmp_path))
    return Talk(engine, Session(engine))


def typed(talk: Talk, *lines: str) -> list[Shown]:
    return [shown for line in lines for shown in talk.type(line)]


def texts(shown: list[Shown]) -> list[str]:
    return [line.text for line in shown]


def test_lines_and_blocks(talk: Talk) -> None:
    assert typed(talk, *COUNTDOWN[:-1]) == [] and talk.is_in_block
    assert texts(typed(talk, "END")) == ["asm c: 16 bytes"] and not talk.is_in_block
    assert texts(typed(talk, "BOOT c", "RUN", "EXPECT R0 0", "expect r0 1")) == [
        "boot c", "stop Exit", "pass", "fail: R0 is 00000000"]
    assert [shown.kind for shown in typed(talk, "EXPECT R0 0", "EXPECT R0 1", "foo", "BREAK &1")] == [
        "pass", "fail", "refused", "refused"]
    assert talk.tally() == "2 passed, 2 failed"


def test_a_block_that_is_refused(talk: Talk) -> None:
    shown = typed(talk, "ASM c &8000", " MOV R0,#1", " MOV R0,#257", "END")
    assert [(line.kind, line.text) for line in shown] == [
        ("refused", "asm c: line 2: BadImmediate: MOV R0,#257"),
        ("refused", "line 2: MOV R0,#257: the number doesn't fit (BadImmediate)")]


def test_answers_are_those_of_the_script(talk: Talk, tmp_path: Path) -> None:
    """Lines EXPECT ANSWER look at refusals too, so such lines stay."""
    assert texts(typed(talk, "POKE &0 1", "EXPECT ANSWER refused DataUnmapped", "EXPECT STEPS 0")) == [
        "refused DataUnmapped", "pass", "pass"]


def test_what_is_printed_steers_no_terminal(talk: Talk) -> None:
    typed(talk, "ASM p &8000", " SWI OS_WriteS", ' DCB 27,"[2J",13,10,"x",0', " ALIGN", " SWI OS_Exit", "END", "BOOT p")
    shown = typed(talk, "RUN")
    assert texts(shown) == ["\\x1B[2J", "x", "stop Exit"] and [line.kind for line in shown] == ["output", "output", "answer"]


def test_traces_are_those_of_the_program(talk: Talk) -> None:
    typed(talk, *COUNTDOWN, "BOOT c")
    shown = typed(talk, "TRACE STEP 2")
    assert texts(shown) == ["00008000 E3A00003 MOV R0,#&3                R0=00000003", "c:loop:",
                            "00008004 E2500001 SUBS R0,R0,#&1            R0=00000002 C=1", "at &8008"]
    typed(talk, "EXPECT R0 2", "TRACE ON")
    assert texts(typed(talk, "STEP 1"))[0].startswith("00008008 1AFFFFFD BNE loop")
    typed(talk, "TRACE OFF")
    assert texts(typed(talk, "RUN")) == ["stop Exit"]


def test_errors_are_explained_while_why_is_on(talk: Talk) -> None:
    assert texts(typed(talk, "WHY ON", "CALL &99")) == ["why on", "error 80", "error 80 &50 SwiUnknown"]
    assert texts(typed(talk, "EXPECT ERROR 80", "CALL &99")) == ["pass", "error 80", "error 80 &50 SwiUnknown"]
    assert texts(typed(talk, "WHY", "why off", "CALL &99")) == ["error 80 &50 SwiUnknown", "why off", "error 80"]


def test_back(talk: Talk) -> None:
    typed(talk, *COUNTDOWN, "BOOT c", "RUN")
    assert texts(typed(talk, "BACK 1")) == ["at &800C, after 7 steps"]
    assert texts(typed(talk, "BACK 3")) == ["at &8008, after 4 steps"]
    # the two that are left of R0 are counted down: BNE, SUBS, BNE, SWI
    assert texts(typed(talk, "EXPECT R0 1", "RUN", "EXPECT STEPS 4")) == ["pass", "stop Exit", "pass"]
    assert texts(typed(talk, "BACK x")) == ["BACK takes a number of steps"]


def test_the_prompt_goes_back_itself(tmp_path: Path) -> None:
    # the program knows BACK too, on a machine that has a past, which the prompt's has not
    talk, _ = talk_of(parser_of("rosm").parse_args([]), program(tmp_path))
    typed(talk, *COUNTDOWN, "BOOT c", "RUN")
    assert texts(typed(talk, "BACK 4")) == ["at &8008, after 4 steps"]
    assert texts(typed(talk, "UNDO")) == ["refused NoHistory"]


def test_an_empty_line_steps_once_more(talk: Talk) -> None:
    typed(talk, *COUNTDOWN, "BOOT c")
    assert texts(typed(talk, "", "STEP 1", "", "  ")) == ["at &8004", "at &8008", "at &8004"]
    typed(talk, "RUN")
    assert typed(talk, "") == []


def test_saving(talk: Talk, tmp_path: Path) -> None:
    typed(talk, *COUNTDOWN, "BOOT c", "foo", "RUN")
    path = tmp_path / "kept.script"
    assert texts(typed(talk, f"SAVE {path}")) == [f"3 lines are in {path}"]
    assert path.read_text() == "\n".join([*COUNTDOWN, "BOOT c", "RUN", ""])
    assert texts(typed(talk, f"SAVE {path}")) == [f"{path}: File exists"]


def test_a_script_first(talk: Talk) -> None:
    shown = talk.read(SUM)
    assert [line.text for line in shown if line.kind == "fail"] == []
    assert any(line.kind == "line" and line.text == "BOOT sum" for line in shown)
    assert talk.session.history.register(0, talk.session.history.last) == 6
    assert texts(talk.read("ASM x &8000\n MOV R0,#1\n")) == ["a block of the script has no END"]


def test_quit(talk: Talk) -> None:
    for line in ("QUIT", " quit "):
        with pytest.raises(Ended):
            talk.type(line)


def test_help_has_the_lines_of_the_prompt(talk: Talk) -> None:
    lines = texts(typed(talk, "HELP"))
    assert lines[0] == "lines of a script:" and any(line.startswith("  BACK n") for line in lines)


def test_whatever_is_typed_is_answered(talk: Talk) -> None:
    """Lines of scripts in any order, and of no language at all."""
    import random
    numbers = random.Random(3)
    rows = [row for path in sorted((ROOT / "examples").rglob("*.script")) for row in path.read_text().splitlines()]
    for _ in range(60):
        row = numbers.choice(rows) if numbers.random() < 0.8 else numbers.randbytes(12).decode("latin-1")
        if talk.is_in_block and numbers.random() < 0.3:
            row = "END"
        shown = talk.type(row)
        assert all("\n" not in line.text and "\x1b" not in line.text for line in shown)
    talk.leave_block()
    assert texts(typed(talk, "QUITE"))[-1] == "no such line; HELP lists them"


def test_a_long_run_is_ended(tmp_path: Path) -> None:
    """An interrupt ends the run, and the session is as before."""
    engine = ProgramEngine(program(tmp_path))
    talk = Talk(engine, Session(engine, Settings(budget=1_000_000_000_000)))
    typed(talk, "ASM l &8000", "loop B loop", "END", "BOOT l", "SET R0 5")
    main = threading.main_thread().ident
    assert main
    before = signal.signal(signal.SIGINT, signal.default_int_handler)  # a test in the background may ignore it
    try:
        threading.Timer(1, signal.pthread_kill, [main, signal.SIGINT]).start()
        begun = time.monotonic()
        with pytest.raises(KeyboardInterrupt):
            talk.type("RUN")
        assert time.monotonic() - begun < 30
    finally:
        signal.signal(signal.SIGINT, before)
    assert texts(typed(talk, "EXPECT R0 5", "STEP 3", "EXPECT STEPS 3")) == ["pass", "at &8000", "pass"]


def test_a_program_that_ends(tmp_path: Path) -> None:
    path = tmp_path / "none"
    path.write_text("#!/bin/sh\necho 'none: no memory' >&2\nexit 4\n")
    path.chmod(0o755)
    with pytest.raises(ScriptError, match="none: no memory"):
        Session(ProgramEngine(str(path)))


def test_images_of_the_command_line(tmp_path: Path) -> None:
    (tmp_path / "quit").write_bytes(bytes.fromhex("110000EF"))
    engine = ProgramEngine(program(tmp_path), (str(tmp_path / "quit"),))
    talk = Talk(engine, Session(engine))
    assert texts(typed(talk, "BOOT quit", "RUN")) == ["boot quit", "stop Exit"]


def test_standard_input_that_is_no_terminal(tmp_path: Path) -> None:
    import os
    import sys
    environment = {**os.environ, "PYTHONPATH": str(ROOT / "python"), "ROSM_DEBUG": program(tmp_path)}
    done = subprocess.run([sys.executable, "-m", "rosm"], input=b"STEP 0\n", capture_output=True, env=environment, check=False)
    assert (done.returncode, done.stdout) == (3, b"at &8000\n")
