"""Parts of pages: expected texts are worked out by hand, by docs/SHOW.md."""

from __future__ import annotations

import json

import pytest
from rosm.pictures.bars import bar_lines, folded
from rosm.pictures.boxes import Row, View, heap_view
from rosm.pictures.grid import grid_lines
from rosm.pictures.layout import layout_of
from rosm.pictures.page import TextPage, carets, guest_text, lines_of, spelt
from rosm.pictures.records import Reader, command_of
from rosm.pictures.state import Heaps, RecordError
from rosm.pictures.transcript import Answers, unspelt
from rosm.pictures.views import view_of
from rosm.show import WordsError, script_among

START = json.dumps({"start": 1, "heaps": []})
END = json.dumps({"end": 1, "passed": 0, "failed": 0, "refused": 0, "status": 3})


def page(*records: dict, transcript: list[str] | None = None) -> list[str]:
    """The page of records between a start and an end."""
    return list(TextPage().lines([START, *map(json.dumps, records), END], transcript))


def test_bytes_that_are_no_printing_characters():
    assert spelt("a\\b\r\t\x1b\xff~") == "a\\\\b\\r\\t\\x1B\\xFF~"


def test_line_ends():
    assert lines_of("a\r\nb\n\nc") == ["a", "b", "", "c"]
    assert lines_of("") == []
    # OS_NewLine prints a line feed and a return
    assert lines_of(guest_text("a\n\rb\n\r")) == ["a", "b"]


def test_what_a_line_asks_for():
    assert command_of(" heap\t&9000 ; HEAP") == "HEAP"
    assert command_of("; HEAP &9000") == ""
    assert command_of("") == ""


def test_bar_of_a_heap():
    # 60 characters for 240 bytes: 4 for the descriptor, 10 for the block, 5 for the free room, 41 beyond
    view = heap_view(0x9000, 76, 240, [("live", 0x9010, 40), ("free", 0x9038, 20)])
    assert bar_lines(layout_of([view], [], 100), 93) == [
        "|dddd|##########|.....|" + " " * 41 + "|",
        " 9000 9010       9038  904C" + " " * 38 + "90F0",
        "blocks 00009014",
        "free chain 00009038 -> end",
    ]


def test_what_has_become_of_boxes():
    old = heap_view(0x9000, 76, 240, [("live", 0x9010, 40), ("live", 0x9038, 20)])
    new = heap_view(0x9000, 76, 240, [("free", 0x9010, 40), ("live", 0x9038, 20)])
    lines = bar_lines(layout_of([new], [old], 100), 93)
    assert lines[:1] == ["|dddd|..........|#####|" + " " * 41 + "|"]
    assert lines[1] == "      ^^^^^^^^^^"
    # another box stands at the address of the block, so it isn't listed as gone
    assert lines[3:] == ["00009010 free freed", "blocks 0000903C", "free chain 00009010 -> end"]


def test_a_box_below_its_share_has_one_character():
    view = heap_view(0x9000, 16, 60000, [])
    assert bar_lines(layout_of([view], [], 100), 93)[0] == "|d/" + " " * 59 + "|"


def test_lists_go_on_in_another_line():
    assert folded("blocks", [" 00009014"] * 3, "", 24) == ["blocks 00009014 00009014", "       00009014"]
    assert folded("free chain", [" 00009010 ->"] * 2, " end", 26) == [
        "free chain 00009010 ->", "           00009010 -> end"]
    assert folded("blocks", [], "", 24) == []


def test_marks_under_bytes():
    old = View(("memory", 0x9000), rows=(Row(0x9000, (1, 2, None, 4)),))
    new = View(("memory", 0x9000), rows=(Row(0x9000, (1, 3, 0, 4)),))
    assert grid_lines(new, old, 93) == ["00009000: 01 03 00 04", "changed  " + "   " + " ^^ ^^"]
    assert grid_lines(new, new, 93) == grid_lines(new, None, 93) == []


def test_eight_bytes_in_a_narrow_line():
    old = View(("memory", 0x9000), rows=(Row(0x9000, (0,) * 16),))
    new = View(("memory", 0x9000), rows=(Row(0x9000, (0,) * 15 + (1,)),))
    assert grid_lines(new, old, 56) == [
        "00009008: 00 00 00 00 00 00 00 01", "changed  " + " " * 21 + " ^^"]


def test_marks_under_registers():
    assert carets("R0  00000001 R1  00000002", "R0  00000000 R1  00000002") == ["           ^^^^^^^^"]
    assert carets("PSR nzcvif USR", "PSR nzcvif USR") == []


def test_answers_that_are_no_views():
    assert view_of("HEAP", ["refused NoHeap"]) is None
    assert view_of("REGS", ["heap 00009000 base 16 end 256"]) is None
    assert view_of("MODULES", []) is None


def test_a_name_in_a_view_may_have_any_words():
    view = view_of("MODULES", ["module A at 01800000 length 4 at 01800014 length 30"])
    assert view and view.boxes[0].name == "A at 01800000 length 4" and view.boxes[0].address == 0x1800014


def test_answers_stand_under_their_lines():
    assert page(
        {"line": 1, "text": "ASM a", "block": ["", "END"]}, {"answer": 1, "text": "asm a: 0 bytes"},
        {"line": 4, "text": "RUN"}, {"step": 1, "out": "A\n\rB\x1b"}, {"step": 2},
        {"answer": 4, "steps": 2, "text": "stop Exit"},
        {"line": 5, "text": "EXPECT R0 1"}, {"answer": 5, "text": "pass", "expect": {"pass": True}},
        {"line": 6, "text": "x"}, {"answer": 6, "text": "? line 6", "refused": True},
    ) == [
        "    1  ASM a", "    2  ", "    3  END", "       asm a: 0 bytes",
        "    4  RUN", "     : A", "     : B\\x1B", "       stop Exit", "     = 2 steps",
        "    5  EXPECT R0 1", "     + pass", "    6  x", "     ? ? line 6",
        "", "       0 passed, 0 failed",
    ]


def test_a_line_that_is_repeated_stands_once():
    assert page(
        {"line": 1, "text": "REPEAT 2 STEP", "repeat": 1}, {"step": 1, "out": "A"},
        {"answer": 1, "text": "at &8004"},
        {"line": 1, "text": "REPEAT 2 STEP", "repeat": 2}, {"answer": 1, "steps": 2, "text": "at &8008"},
    ) == ["    1  REPEAT 2 STEP", "       Aat &8004", "       at &8008"]


def test_registers_are_compared_with_the_last():
    texts = ["R0  00000000", "R0  00000001", "R0  00000001"]
    records = [record for number, text in enumerate(texts, 1) for record in (
        {"line": number, "text": "REGS"}, {"answer": number, "text": text})]
    marks = [line for line in page(*records) if "^" in line]
    assert marks == ["           ^^^^^^^^"]


def test_a_trace_stands_behind_a_bar():
    records = {"line": 1, "text": "TRACE STEP"}, {"step": 1}, {"answer": 1, "steps": 1, "text": "at &8004"}
    assert page(*records, transcript=["> TRACE STEP", "\\#1", "at &8004"]) == [
        "    1  TRACE STEP", "     | #1", "       at &8004"]
    with pytest.raises(RecordError):
        page(*records, transcript=["> TRACE STEP", "at &8008"])
    with pytest.raises(RecordError):
        page(*records, transcript=["at &8004"])


def test_transcripts_spell_bytes():
    assert unspelt(r"\>a\\\r\t\x1B") == ">a\\\r\t\x1b\n"
    assert unspelt("a\\") == "a"
    assert unspelt("a\\\\") == "a\\\n"
    assert Answers(["> a", "b\\", "c"]).of_next(1) == "bc\n"


@pytest.mark.parametrize("records", [[], ["{"], ["[]"], [END], ['{"start":2}'], [START]])
def test_what_are_no_records(records: list[str]):
    with pytest.raises(RecordError):
        list(Reader(records).entries())


def test_blocks_that_are_moved_go_before_any_comes():
    heaps = Heaps()
    made = {"heap": 0, "base": 48, "end": 64, "items": [["+", "live", 16, 8], ["+", "live", 24, 8]]}
    moved = {"heap": 0, "items": [["=", "live", 16, 8, 24, 8], ["=", "live", 24, 8, 32, 8]]}
    heaps.take({"start": 1, "heaps": [made]})
    heaps.take({"step": 1, "heaps": [moved]})
    assert heaps.heaps[0].items == {24: ("live", 8), 32: ("live", 8)}
    with pytest.raises(RecordError):
        heaps.take({"step": 2, "heaps": [{"heap": 0, "items": [["-", "live", 16, 8]]}]})
    with pytest.raises(RecordError):
        heaps.take({"step": 3, "heaps": [{"heap": 4, "gone": True}]})
    heaps.take({"answer": 1, "reset": {"heaps": []}})
    assert heaps.heaps == {}


def test_a_script_by_its_name():
    files = ["six", "sum.script", "seven"]
    assert script_among(files) == "sum.script"
    assert files == ["six", "seven"]
    assert script_among(files) == "-"
    with pytest.raises(WordsError, match="one script at most"):
        script_among(["a.script", "b.script"])
