"""Marks: what is right has its points, what is wrong a reason that helps."""

from __future__ import annotations

import re
from pathlib import Path

import pytest
from library import needs_library
from marking_cases import CASES, RIGHT, exercise_of, marked

from rosm.marking.cases import Case
from rosm.marking.grading import given_text

pytestmark = needs_library

PROGRAM = """
[exercise]
kind = "program"
[[case]]
name = "it prints them, and ends"
expect = { output = "1\\n2\\n3\\n" }
"""
COUNTS = """
        MOV     R4,#'1'
next    MOV     R0,R4
        SWI     OS_WriteC
        SWI     &100+10
        ADD     R4,R4,#1
        CMP     R4,#'3'
        BLS     next
        SWI     OS_Exit
"""
MODULE = """
[exercise]
kind = "module"
name = "adder"
[[case]]
name = "it adds"
call = "&40000"
registers = { R0 = 40, R1 = 2 }
expect = { R0 = 42, R1 = 2 }
[[case]]
name = "another SWI"
call = "&40001"
expect = { error = 77, flags = "V" }
"""
ADDER = """
        DCD     0,0,0,0,title,0,0,&40000,swi
swi     TEQ     R11,#0
        ADDEQ   R0,R0,R1
        MOVEQS  PC,R14
other   ADD     R0,PC,#block-other-8
        ORRS    PC,R14,#&10000000
block   DCD     77
        DCB     "No such SWI",0
title   DCB     "Adder",0
"""
MEMORY = """
[exercise]
entry = "sum"
[[case]]
name = "a list of three"
registers = { R0 = "&9000", R1 = 3 }
memory = { "&9000" = [1, 2, 3] }
expect = { R0 = 6, memory = { total = 6, "&9000" = [1, 2, 3] } }
"""
SUMS = """
total   DCD     0
sum     MOV     R2,#0
more    LDR     R3,[R0],#4
        ADD     R2,R2,R3
        SUBS    R1,R1,#1
        BNE     more
        STR     R2,total
        MOV     R0,R2
        MOV     PC,R14
"""


def problems(folder: Path, source: str, text: str = CASES) -> list[list[str]]:
    return [case.problems for case in marked(folder, source, text).cases]


def test_what_is_right_has_all_points(tmp_path: Path) -> None:
    mark = marked(tmp_path, RIGHT)
    assert (mark.refused, mark.earned, mark.points, mark.passed) == ("", 10, 10, 3)
    # 1, and 5 for each time round, and 2
    assert [case.steps for case in mark.cases] == [18, 18, 8]


def test_what_is_wrong_has_a_reason(tmp_path: Path) -> None:
    # LS in place of CC goes back too early where nothing is left over
    mark = marked(tmp_path, RIGHT.replace("MOVCC", "MOVLS"))
    assert mark.earned == 7 and mark.cases[0].problems == []
    assert mark.cases[1].problems == ["R2 is 2, and should be 3", "R0 is 5, and should be 0"]
    assert "CMP R0,R1" in mark.cases[1].trace and mark.cases[1].given == "R0 = 15 (&F), R1 = 5"


@pytest.mark.parametrize("content, shown", [
    (b"a b\0", 'at &9000: "a b\\x00" (61 20 62 00)'), (b"a b", "at &9000: 61 20 62"), (b"\0", "at &9000: 00"),
    (b"\x01\0", "at &9000: 01 00"), (b'"\0', 'at &9000: "\\"\\x00" (22 00)')])
def test_memory_that_is_given(content: bytes, shown: str) -> None:
    assert given_text(Case("x", memory={"&9000": content})) == shown


def test_a_register_that_must_stay(tmp_path: Path) -> None:
    found = problems(tmp_path, "        MOV     R4,#0\n" + RIGHT)
    assert len(found[0]) == 1 and re.fullmatch(r"R4 isn't as it was before: it is 0, and was &[0-9A-F]+", found[0][0])


def test_a_limit_of_steps(tmp_path: Path) -> None:
    text = CASES.replace("steps = 40", "steps = 17")
    assert problems(tmp_path, RIGHT, text) == [[], ["it takes 18 steps, and may take 17"], []]


def test_a_routine_without_end(tmp_path: Path) -> None:
    found = problems(tmp_path, "loop B loop\n")
    assert found[0][0] == "it doesn't return to the address in R14: it isn't done after 5000 steps"


@pytest.mark.parametrize("source, reason", [
    (" SWI OS_Exit\n", "it doesn't return to the address in R14: stop Exit"),
    (" LDR R0,[R1]\n", "it doesn't return to the address in R14: stop DataUnmapped &8000"),
    (" MOV R3,R14\n SWI OS_EnterOS\n MOV PC,R3\n", "the mode is SVC, and should be USR"),
    (" ADD R14,R14,#4\n MOV PC,R14\n", "it doesn't return to the address in R14: stop ")])
def test_a_routine_that_ends_elsewhere(source: str, reason: str, tmp_path: Path) -> None:
    assert problems(tmp_path, source)[0][0].startswith(reason)


@pytest.mark.parametrize("source, reason", [
    (" MOV R0,#257\n", "line 1: BadImmediate: MOV R0,#257"), ("a\na\n", "line 2: LabelTwice"), (" NOSUCH R0\n", "line 1: ")])
def test_what_the_assembler_refuses(source: str, reason: str, tmp_path: Path) -> None:
    mark = marked(tmp_path, source)
    assert mark.refused.startswith(reason) and (mark.earned, mark.points) == (0, 10)
    assert all(case.problems == [mark.refused] for case in mark.cases)


def test_an_image_without_bytes_or_with_too_many(tmp_path: Path) -> None:
    assert marked(tmp_path, "divide\n").refused == "it comes to 0 bytes, and there is room for 1 to 262144"
    assert marked(tmp_path, "divide SPACE 262148\n").refused.startswith("it comes to 262148 bytes, ")
    # as many as there is room for: zeros are ANDEQ R0,R0,R0, which run on to where no memory is
    assert marked(tmp_path, "divide SPACE 262144\n").refused == ""


def test_tabs_and_line_ends(tmp_path: Path) -> None:
    text = "\ufeff" + RIGHT.replace("        ", "\t").replace("\n", "\r\n")
    assert marked(tmp_path, text.encode("utf-8")).earned == 10
    assert marked(tmp_path, RIGHT.rstrip("\n")).earned == 10


def test_a_program(tmp_path: Path) -> None:
    assert marked(tmp_path, COUNTS, PROGRAM).earned == 1
    found = problems(tmp_path, COUNTS.replace("BLS", "BCC"), PROGRAM)[0]
    assert found == ['it prints "1\\n2\\n", and should print "1\\n2\\n3\\n"']
    found = problems(tmp_path, COUNTS.replace("SWI     OS_Exit", "MOV     PC,R14"), PROGRAM)[0]
    assert found[0].startswith("it should end by Exit: stop ")


def test_a_module(tmp_path: Path) -> None:
    assert marked(tmp_path, ADDER, MODULE).earned == 2
    assert problems(tmp_path, ADDER.replace("DCD     77", "DCD     78"), MODULE)[1] == [
        "the call should end in error 77: error 78"]
    spoilt = ADDER.replace("ADDEQ   R0,R0,R1", "ADDEQ   R0,R0,R1\n SUB R13,R13,#4")
    assert problems(tmp_path, spoilt, MODULE)[0] == ["the call should go well: stop StackChanged &3800000",
                                                     "the supervisor stack, R13_svc, isn't as it was before the call"]
    assert problems(tmp_path, " DCD 1,2,3\n", MODULE)[0][0].startswith("the module can't be loaded: error ")


def test_memory_and_labels(tmp_path: Path) -> None:
    assert marked(tmp_path, SUMS, MEMORY).earned == 1
    assert problems(tmp_path, SUMS.replace("STR     R2,total", "MOV     R2,R2"), MEMORY)[0] == [
        "at total is 0, and should be 6"]
    assert marked(tmp_path, RIGHT, MEMORY).refused == "it has no label sum, where it should begin"
    assert problems(tmp_path, SUMS.replace("total", "totals"), MEMORY)[0] == ["it has no label total"]


def test_more_memory_than_records_have(tmp_path: Path) -> None:
    fill = """
        MOV     R2,#&9000
fill    STR     R2,[R2],#4
        CMP     R2,#&10000
        BNE     fill
        MOV     PC,R14
"""
    text = '[[case]]\nname = "fill"\nexpect = { memory = { "&9000" = "&9000", "&FFFC" = "&FFFC", "&10000" = 0 } }\n'
    assert marked(tmp_path, fill, text.replace('"&9000" = "&9000", "&FFFC" = "&FFFC"',
                                               '"&9000" = 0x9000, "&FFFC" = 0xFFFC')).earned == 1


def test_a_source_for_objasm(tmp_path: Path) -> None:
    source = "        AREA |C$$code|,CODE\ndivide\n" + RIGHT.replace("divide ", "start ") + "        END\n"
    mark = marked(tmp_path, source)
    assert mark.earned == 0 and 'language = "objasm" takes' in mark.refused
    text = CASES.replace('name = "divide"', 'name = "divide"\nlanguage = "objasm"')
    assert marked(tmp_path, source, text).earned == 10
    assert marked(tmp_path, source.replace("MOVCC", "MOVQQ"), text).refused.startswith("line 6: MOVQQ: ")


@pytest.mark.parametrize("line", [" GET /etc/passwd", " GET other", " INCBIN /etc/passwd", " LNK other"])
def test_a_source_for_objasm_reads_no_other_file(line: str, tmp_path: Path) -> None:
    (tmp_path / "other").write_text(" MOV R0,#1\n")
    text = CASES.replace('name = "divide"', 'name = "divide"\nlanguage = "objasm"')
    mark = marked(tmp_path, f"{line}\n{RIGHT}", text)
    assert mark.earned == 0 and "none of the files given with the source has this name" in mark.refused


def test_each_has_the_same_cases(tmp_path: Path) -> None:
    one, other = exercise_of(tmp_path), exercise_of(tmp_path)
    assert one == other


@needs_library
def test_a_trace_has_lines_and_labels(tmp_path: Path) -> None:
    """A routine that never compares: its last steps have its own lines and labels."""
    source = "divide  MOV     R2,#0\nloop    SUBS    R0,R0,R1\n        ADDCS   R2,R2,#1\n        BCS     loop\n" \
             "        MOV     PC,R14\n"
    traces = [case.trace for case in marked(tmp_path, source).cases if case.problems and not case.hidden]
    assert traces and all("2 loop SUBS R0,R0,R1" in trace and "BCS loop" in trace for trace in traces)
