"""Hints beside the assembler: each line that has one is wrong there, and what a hint proposes is right."""

from __future__ import annotations

import pytest
from library import needs_library

from rosm import Machine, MachineError
from rosm.hints import hint_of, hint_of_label

# lines as people write them, what is said, and the line as it should be
LINES = [
    ("loop: MOV R0,#1", "a label has no colon", "loop MOV R0,#1"),
    (" loop: MOV R0,#1", "a label has no colon", "loop MOV R0,#1"),
    ("\tMOV R0,#1", "a tab: the assembler takes spaces alone", " MOV R0,#1"),
    (".loop MOV R0,#1", "a label has no dot", "loop MOV R0,#1"),
    ("MOV R0,#1", "MOV is in the first column, where labels begin: put spaces before it", " MOV R0,#1"),
    (" MOVE R0,#1", "no instruction MOVE; MOV?", " MOV R0,#1"),
    (" SUBSEQ R0,R0,#1", "no instruction SUBSEQ; SUBEQS?", " SUBEQS R0,R0,#1"),
    (" LDRBNE R0,[R1]", "no instruction LDRBNE; LDRNEB?", " LDRNEB R0,[R1]"),
    (" PUSH {R0}", "PUSH: the ARM2 doesn't have this; write STMFD sp!,{..}", " STMFD sp!,{R0}"),
    (" BX LR", "BX: the ARM2 doesn't have this instruction", " MOV PC,LR"),
    (" NOP", "here that is MOV R0,R0", " MOV R0,R0"),
    ("x EQUD 5", "here that is DCD", "x DCD 5"),
    (".word 5", "here that is DCD", " DCD 5"),
    ("five EQU 5", "EQU is ObjAsm's", ""),
    ("x ADR R0,x", "there is no ADR: it is ADD with PC, and a distance", "x SUB R0,PC,#8"),
    (" LDR R0,=5", "there is no LDR with =: put the word behind a label, with DCD", "x LDR R0,x"),
    (" MOV R0,#0x10", "hexadecimal is &10, not 0x10", " MOV R0,#&10"),
    (" MOV R0,#-1", "a number has no sign: use MVN for MOV, SUB for ADD, CMN for CMP", " MVN R0,#0"),
    (" MOV R0,R1,ASL #2", "ASL is LSL here", " MOV R0,R1,LSL #2"),
    (" STMFD sp!,{ R0 }", "spaces are only beside commas", " STMFD sp!,{R0}"),
    (" MOV R0,#1 // one", "a comment begins with ;", " MOV R0,#1 ; one"),
    (" MOV R0,#1 /* one */", "a comment begins with ;", " MOV R0,#1 ; one"),
    (" MOV R0,#1 @ one", "a comment begins with ;", " MOV R0,#1 ; one"),
]
# right lines, and wrong ones of which nothing is known; texts and comments are looked into by nobody
SILENT = ["", " MOV R0,#1 ;\tx", "; loop: x", "loop", " LDR R0,[R1,#-4]", 'x DCB "loop: 0x10",0 ; ADR', " MOV R0,#':'", " MUL R0", " MOV R0 #1",
          " CMP R0,#1", " SPACE 4", " STMEQFD SP!,{R4-R6,LR}", "loop SUBS R0, R0, #1"]


@pytest.mark.parametrize("line, hint, _", LINES)
def test_a_hint(line: str, hint: str, _: str) -> None:
    assert hint_of(line) == hint


@pytest.mark.parametrize("line", SILENT)
def test_no_hint(line: str) -> None:
    assert hint_of(line) == ""


@needs_library
def test_lines_with_hints_are_wrong_and_mended_ones_right() -> None:
    for line, hint, mended in LINES:
        with pytest.raises(MachineError) as error:
            Machine().asm(f"{line}\n")
        assert f"line 1: Syntax: {line.strip()} ({hint})" in str(error.value)
        if mended:
            Machine().asm(f"{mended}\n")


@needs_library
def test_each_error_of_a_block_has_its_hint() -> None:
    with pytest.raises(MachineError) as error:
        Machine().asm(" MOV R0,#1\nloop: B loop\n MOVE R0,#2\n B nowhere\n")
    assert str(error.value).splitlines() == [
        "asm program: line 2: Syntax: loop: B loop (a label has no colon)",
        "line 2: loop: B loop: no line of the assembler (a label has no colon) (Syntax)",
        "line 3: MOVE R0,#2: no line of the assembler (no instruction MOVE; MOV?) (Syntax)",
        "line 4: B nowhere: no line has the label, or no SWI the name (UnknownLabel)"]


def test_a_label_with_other_capitals() -> None:
    lines = ["loop    SUBS    R0,R0,#1", "        BNE     Loop", "        B       there"]
    assert hint_of_label(lines[1], lines) == "there is loop; capitals count"
    assert hint_of_label(lines[2], lines) == "" and hint_of_label("        BNE     loop", lines) == ""
