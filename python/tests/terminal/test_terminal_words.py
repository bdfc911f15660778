"""What completes a line, and what the lines below the prompt show."""

from __future__ import annotations

import json

import pytest

from rosm.machine.history import History
from rosm.terminal.talk import OWN_HELP
from rosm.terminal.view import bar_parts, view_lines
from rosm.terminal.words import block_completions, completions, known_words
from rosm.pictures.state import Heap

HELP = """lines of a script:
  ASM name origin .. END, HEX name .. END    an image from text or digits
  BOOT name, RUN, STEP n, BREAK a, UNBREAK a
  CALL n, LOAD text                          a store call, a module
  REGS, MEM a n, CODE a n, HEAP a, AREAS, MODULES, FLEX
lines of a debugging script:
  ; text, # text                             a comment, a heading
  SET PC a, SET PSR Nz SVC                   letters left out stay
  TRACE line, TRACE n, TRACE ON, TRACE OFF   steps shown one by one; TRACE LIMIT n of a line
  TRACE LAST n                               RUN, of which the last n steps are shown
  PUT name a                                 an image's bytes to an address
  COUNT ON, COUNT OFF, COUNTS name           how often the steps of an image were taken
  label, image:label+4, R1, PC-4             in place of an address, or behind SET x, EXPECT x
  EXPECT R0 v, R13_svc v, PC v, FLAGS Zc     what should be so, or the script fails
  EXPECT WORD a v, BYTE a v, STEPS n, STEPS <= n
  HELP, QUIT
"""
KNOWN = known_words(HELP)


def test_words_come_of_help() -> None:
    assert KNOWN.first == ["ASM", "HEX", "BOOT", "RUN", "STEP", "BREAK", "UNBREAK", "CALL", "LOAD", "REGS", "MEM",
                           "CODE", "HEAP", "AREAS", "MODULES", "FLEX", "SET", "TRACE", "PUT", "COUNT", "COUNTS",
                           "EXPECT", "HELP", "QUIT"]
    assert known_words(OWN_HELP).first == ["BACK", "SAVE"]
    assert KNOWN.second["TRACE"] == ["ON", "OFF", "LAST"] and KNOWN.second["SET"] == ["PC", "PSR"]
    assert KNOWN.second["EXPECT"] == ["PC", "FLAGS", "WORD", "BYTE", "STEPS"]


@pytest.mark.parametrize("before, found", [
    ("RU", ["RUN"]), ("ru", ["RUN"]), ("RUN", []), ("HE", ["HEX", "HEAP", "HELP"]), ("BREAK lo", ["loop", "lower"]),
    ("BOOT s", ["sum"]), ("LOAD ", ["sum", "disc"]), ("TRACE RU", ["RUN"]), ("TRACE O", ["ON", "OFF"]), ("EXPECT FL", ["FLAGS"]),
    ("EXPECT WORD lo", ["loop", "lower"]), ("REPEAT 3 ST", ["STEP"]), ("SET PS", ["PSR"]), ("PUT sum lo", ["loop", "lower"]),
    ("SET R1", ["R10", "R11", "R12", "R13", "R14", "R15"]), ("nothing x", [])])
def test_lines_are_completed(before: str, found: list[str]) -> None:
    assert completions(KNOWN, before, ["loop", "lower"], ["sum", "disc"]) == found


@pytest.mark.parametrize("before, found", [
    ("        MO", ["MOV"]), (" LDM", ["LDMIA", "LDMIB", "LDMDA", "LDMDB", "LDMFD", "LDMFA", "LDMED", "LDMEA"]),
    (" B lo", ["loop"]), (" ADDEQS R0,R1,lo", ["loop"]), ("loop SUB", ["SUB"][1:]), ("E", ["END"]), (" SWI OS_He", ["OS_Heap", "OS_HeapSort"]),
    (" SWI OS_DynamicA", ["OS_DynamicArea"]), (" MOV R0,s", ["SP"])])
def test_blocks_are_completed(before: str, found: list[str]) -> None:
    assert block_completions(before, ["loop    MOV R0,#1", " MOV R1,#2"]) == found


def started() -> History:
    state = {"start": 1, "regs": {f"R{number}{'_usr' if number > 7 else ''}": 0 for number in range(15)},
             "flags": dict.fromkeys("NZCVIF", 0), "mode": "USR", "pc": 32768, "mapped": [], "mem": [], "heaps": [],
             "areas": [], "pool": 0, "flex": None, "modules": []}
    return History(state)


def texts(history: History, columns: int, rows: int) -> list[str]:
    return ["".join(text for _, text in line) for line in view_lines(history, columns, rows)]


def test_there_is_nothing_where_there_is_no_room() -> None:
    assert texts(started(), 59, 40) == [] and texts(started(), 100, 13) == []


def test_registers_and_a_heap() -> None:
    history = started()
    record = {"step": 1, "pc": 32768, "regs": {"R1": 36864}, "flags": {"Z": 1},
              "heaps": [{"heap": 36864, "made": True, "base": 64, "end": 128, "items": [
                  ["+", "live", 36880, 16], ["+", "free", 36896, 16], ["+", "live", 36912, 16]]}]}
    history.take(record, json.dumps(record))
    lines = texts(history, 80, 40)
    assert lines[0] == "at &8004  nZcvif USR  1 steps"
    assert lines[1].split()[:4] == ["R0", "00000000", "R1", "00009000"]
    assert len(lines[1]) <= 80 and sum(line.count("R") for line in lines[1:-1]) == 15
    # a bar of 66 characters for 128 bytes: 16 bytes have 8 of them, some 9
    assert len(lines[-1]) == 80 - 1 and lines[-1].startswith("heap &9000 |dddddddd###")
    new = [text for style, text in view_lines(history, 80, 40)[1] if style == "class:new"]
    assert new == ["00009000"]


@pytest.mark.parametrize("width", [10, 37, 64, 200])
def test_a_bar_is_as_wide_as_it_may_be(width: int) -> None:
    items = {0x9010 + 8 * number: ("live" if number % 2 else "free", 8) for number in range(100)}
    parts = bar_parts(0x9000, Heap(816, 1024, items), width)
    assert parts[0][2] == 0 and parts[-1][3] == width
    assert all(one[3] == other[2] for one, other in zip(parts, parts[1:]))
