"""The assembler of BASIC V, as the Guide's chapter on it has it, and how a listing runs it."""

from __future__ import annotations

import struct
from pathlib import Path

import pytest

from basic_gnu import AVAILABLE, gnu_bytes
from basic_runs import assembled, errors, image, images, variables, warnings

HEAD = "DIM code% 4000\nFOR pass%=0 TO 2 STEP 2\nP%=code%\n[OPT pass%\n"
TAIL = "\n]\nNEXT\n"


def listing(statements: str, before: str = "") -> str:
    return before + HEAD + statements + TAIL


def words(data: bytes) -> list[int]:
    return [word for (word,) in struct.iter_unpack("<I", data)]


# Statements of BASIC, and the same for GNU as. Names before them are R12, R13 and R14.
BEFORE = 'wp=12:sp=13:link=14:five%=5:max%=10:x$="abc":base%=&40000\n'
SPELLINGS = [
    # Operands run together with the operation; the longest front that is one is taken.
    ("MOVR0 , #1", "mov r0,#1"),
    ("CMPR0,#0", "cmp r0,#0"),
    ("MOVSPC,R14", "movs pc,r14"),
    ("MOVPC,R14", "mov pc,r14"),
    ("STMFDR13!,{R0-R3,R14}", "stmfd sp!,{r0-r3,r14}"),
    ("LDMFDR13 !,{PC}", "ldmfd sp!,{pc}"),
    ("ADDSR0,R0,#1", "adds r0,r0,#1"),
    ("SWI17", "swi 17"),
    ("SWI&11", "swi 0x11"),
    ('SWI"OS_Exit"', "swi 0x11"),
    ('SWINE "XOS_NewLine"', "swine 0x20003"),
    ("LDRBR0,[R1]", "ldrb r0,[r1]"),
    ("LDREQR0,[R1]", "ldreq r0,[r1]"),
    ("TEQPPC,#0", "teqp pc,#0"),
    ("MOVlink,PC", "mov r14,pc"),
    ("CMPR0,#max%", "cmp r0,#10"),
    ("STMFDR13!,{link}", "stmfd sp!,{r14}"),
    ("ADD R0,R0,R1,LSLR2", "add r0,r0,r1,lsl r2"),
    ("MOVR0,R1,asrR15", "mov r0,r1,asr r15"),
    ("MOV R0,R1,LSL#2", "mov r0,r1,lsl #2"),
    ("mov r0,r1", "mov r0,r1"),
    ("movsr0,r1", "movs r0,r1"),
    ("ORRR0,R0,#1", "orr r0,r0,#1"),
    ("EORR0,R1,R2", "eor r0,r1,r2"),
    ("ANDEQSR0,R1,#3", "andeqs r0,r1,#3"),
    ("MOVEQ R0,#0", "moveq r0,#0"),
    ("ORREQS R0,R1,R2", "orreqs r0,r1,r2"),
    ("BICNE R0,R0,#1", "bicne r0,r0,#1"),
    # Registers by variables, in parentheses, and in lists.
    ("STMFD (sp)!,{R0-R2,link}", "stmfd sp!,{r0-r2,r14}"),
    ("LDR wp,[wp]", "ldr r12,[r12]"),
    ("LDMFD sp !,{R0,R4-R5,PC}^", "ldmfd sp!,{r0,r4-r5,pc}^"),
    ("MOV (five%-2),R1", "mov r3,r1"),
    ("STMIA (wp),{five%-max%}", "stmia r12,{r5-r10}"),
    ("LDMVSIA R13!,{PC}", "ldmvsia sp!,{pc}"),
    ("STMEQIA R0!,{R1-R4}", "stmeqia r0!,{r1-r4}"),
    ("ADD SP,SP,#4", "add sp,sp,#4"),
    ("MOV pc,lr", "mov pc,lr"),
    # Numbers are expressions of BASIC.
    ("MOV R0,#1<<4", "mov r0,#16"),
    ("MOV R0,#%101 OR 2 AND 3", "mov r0,#7"),
    ('MOV R0,#ASC"A"-64', "mov r0,#1"),
    ('MOV R0,#ASC("A")', "mov r0,#65"),
    ("MOV R1,#base% DIV 2", "mov r1,#0x20000"),
    ('SWI 256+ASC"*"', "swi 0x12a"),
    ("MOV R0,#(1<<4)+3", "mov r0,#19"),
    ("AND R0,R0,#NOT 1 AND &FF", "and r0,r0,#0xfe"),
    ("MOV R2,#-1", "mvn r2,#0"),
    ("AND R2,R2,#&FFFFFF00", "bic r2,r2,#0xff"),
    ("CMP R0,#-1", "cmn r0,#1"),
    ("ADD R0,R0,#-4", "sub r0,r0,#4"),
    ("BIC R0,R0,#&FC000003", "bic r0,r0,#0xfc000003"),
    ("TEQP PC,#3<<26", "teqp pc,#0x0c000000"),
    ("MOV R0,#-7/2", "mvn r0,#2"),
    ("CMN R2,#1", "cmn r2,#1"),
    ("MOVNV R0,R0", ".word 0xf1a00000"),
    ("MOV R6,#FALSE", "mov r6,#0"),
    ('MOV R0,#EVAL"2*8"', "mov r0,#16"),
    ("MOV R0,#1,2", ".word 0xe3a00101"),
    # Transfers.
    ("LDR R4,[R5,R6,LSL#2]", "ldr r4,[r5,r6,lsl #2]"),
    ("LDRB R6,[R5,-R1,ASL #2]!", "ldrb r6,[r5,-r1,lsl #2]!"),
    ("LDR R1,[R0,#4]!", "ldr r1,[r0,#4]!"),
    ("LDRB R2,[R1],#1 ; next", "ldrb r2,[r1],#1"),
    ("LDRT R0,[R1],#4", "ldrt r0,[r1],#4"),
    ("STREQB R0,[R1,#-1]", "streqb r0,[r1,#-1]"),
    ("LDR R0,[wp,#five%*4]", "ldr r0,[r12,#20]"),
    ("LDR R0,P%+8", "ldr r0,[pc]"),
    ("STR R0,[R1,R2]", "str r0,[r1,r2]"),
    ("ADR R0,P%", "sub r0,pc,#8"),
    ("ADREQ R0,P%+12", "addeq r0,pc,#4"),
    ("B P%", "b ."),
    ("BLNE P%+8", "blne .+8"),
    ("MUL R0,R1,R2", "mul r0,r1,r2"),
    ("MLAS R0,R1,R2,R3", "mlas r0,r1,r2,r3"),
    ("MULEQS R0,R1,R2", "muleqs r0,r1,r2"),
    ("ADDS R0,R1,R2,RRX", "adds r0,r1,r2,rrx"),
    ("MOV R0,R0,ASL#2", "mov r0,r0,lsl #2"),
    # Data.
    ("EQUD five%+1", ".word 6"),
    ("DCD 5", ".word 5"),
    ("EQUW &1234:DCW 1", ".hword 0x1234,1"),
    ("EQUB 1:DCB 2:=3:EQUB 260", ".byte 1,2,3,4"),
    ("EQUS x$+CHR$0", '.asciz "abc"'),
    ("EQUD -7/2", ".word -3"),
    ('EQUS "b;:c":EQUB 0', '.asciz "b;:c"'),
    ('="wxyz"', '.ascii "wxyz"'),
    ("EQUSx$:EQUB0", '.asciz "abc"'),
    ('EQUS "a$b$$c":EQUS STRING$( 2 , CHR$(13) )', '.ascii "a$b$$c\\r\\r"'),
    ("EQUD&FF", ".word 255"),
    ('EQUS STRING$(3,"b+")+STRING$(0,"x")+LEFT$("xyz",2)', '.ascii "b+b+b+xy"'),
    ("EQUB 1:ALIGN", ".byte 1,0,0,0"),
    ("EQUB 1:ALIGN:EQUB 2:ALIGN:ALIGN", ".byte 1,0,0,0,2,0,0,0"),
    ('EQUD ASC"A"<<8', ".word 0x4100"),
    ("equd 7:align", ".word 7"),
    # Comments: to the line's end, colons too.
    ("MOV R0,#1 ; a: b\nMOV R0,#2 \\ c:d\nREM e:f", "mov r0,#1\nmov r0,#2"),
]


@pytest.mark.skipif(not AVAILABLE, reason="binutils-arm-none-eabi isn't installed")
def test_spellings(tmp_path: Path) -> None:
    gnu = "\n".join(f"{text}\n.balign 4, 0" for _, text in SPELLINGS)
    wanted = gnu_bytes(gnu, tmp_path, 0x8F00)
    basic = "\n".join(f"{text}\nALIGN" for text, _ in SPELLINGS)
    found = image(listing(basic, BEFORE).replace("DIM code% 4000", "DIM code% 4000"))
    for at in range(0, len(wanted), 4):
        assert found[at : at + 4] == wanted[at : at + 4], f"word {at // 4}"
    assert len(found) == len(wanted)


def test_labels() -> None:
    data = image(listing(".a%MOVR0 , #1\nBNEloop:BLsub:BLNEsub%\n.loop:.sub:.sub% EQUDa%+4\nEQUD loop"))
    assert words(data) == [0xE3A00001, 0x1A000001, 0xEB000000, 0x1BFFFFFF, 0x8F04, 0x8F10]


def test_a_label_may_be_any_variable() -> None:
    """An element of an array, or a local variable, which is 0 for references before it."""
    data = image("DIM l%(2)\n" + HEAD + ".l%(1) EQUD l%(2):.l%(2) EQUD l%(1)" + TAIL)
    assert words(data) == [0x8F04, 0x8F00]


def test_the_last_of_two_labels_wins() -> None:
    """References before both see what the last pass had last."""
    data = image(listing("EQUD x\n.x EQUD 1\n.x EQUD x"))
    assert words(data) == [0x8F08, 1, 0x8F08]


def test_offset_assembly() -> None:
    """OPT bit 2: the bytes go to O%, and P% is where they will run."""
    programs, messages = images(
        "DIM c% 99\nFOR p%=4 TO 6 STEP 2\nP%=&8000:O%=c%\n[OPT p%\n.s B s:EQUD s\n]\nNEXT\n"
    )
    assert not messages.items
    assert (programs[0].origin, words(programs[0].data)) == (0x8000, [0xEAFFFFFE, 0x8000])
    assert [(label.name, label.address) for label in programs[0].labels] == [("s", 0x8000)]


def test_limit() -> None:
    """OPT bit 3: bytes that would end behind L% are an error, which ends the program."""
    program = "DIM c% 99\nL%=c%+4:P%=c%\n[OPT 10\nEQUD 1\nEQUD 2\nEQUD 3\n]"
    assert errors(program) == ["5: EQUD: the limit L% is reached: the bytes would end behind &8F04"]


def test_unknown_names_are_p_in_the_first_pass() -> None:
    """A macro that chooses by a distance sees P%, and a variable of BASIC is no label."""
    program = (
        listing("OPT FNnear(later)\n.later EQUD 9", "")
        + "END\nDEF FNnear(a%)\nd%=a%-P%:[OPT pass%:EQUD d%:]\n=pass%"
    )
    assert words(image(program)) == [4, 9]
    assert variables(program)["d%"] == 4


def test_each_bracket_sets_opt_3() -> None:
    assert errors("DIM c% 9:P%=c%\n[EQUD x\n]") == ["2: x: no variable has this name so far"]


def test_opt_takes_part_in_the_middle() -> None:
    assert (
        words(image("DIM c% 20:P%=c%\n[OPT 0:B x:OPT 2:.x EQUD 1:]\nP%=c%\n[OPT 2:B x:EQUD 2:]"))[0]
        == 0xEAFFFFFF
    )


def test_one_pass_is_no_assembly() -> None:
    """Bytes that were laid last while a name was unknown are an error."""
    assert errors("DIM c% 99:P%=c%\n[OPT 0\nB x\nMOV R0,#1\n.x EQUD y\n]") == [
        "3: x: nothing has this name when the bytes are laid for the last time",
        "5: y: nothing has this name when the bytes are laid for the last time",
    ]


def test_a_macro_that_doesnt_know_in_the_only_pass() -> None:
    """The name was unknown in a statement of the macro, before the bytes that depend on it."""
    program = "DIM c% 99:P%=c%\n[OPT 0:FNm:.x EQUD 1:]\nEND\nDEF FNm\nd%=x-P%\n[OPT 0:EQUD d%:]\n=0"
    assert errors(program) == ["6: x: nothing has this name when the bytes are laid for the last time"]


def test_parts_in_any_order() -> None:
    """A part that is laid below the first, and one more pass over both: all labels are kept."""
    program = "DIM c% 99\nFOR p%=0 TO 2 STEP 2\nP%=c%+8\n[OPT p%:.b EQUD a:]\nP%=c%\n"
    program += "[OPT p%:.a EQUD b:EQUD 3:]\nNEXT"
    programs, messages = images(program)
    assert words(programs[0].data) == [0x8F08, 3, 0x8F00] and not messages.items
    assert sorted((label.name, label.address) for label in programs[0].labels) == [
        ("a", 0x8F00),
        ("b", 0x8F08),
    ]


def test_a_third_pass_mends_labels() -> None:
    """Labels that move in the second pass are right in the third, and nothing is said of them."""
    program = "DIM c% 99\nFOR n%=1 TO 3\np%=(n%>1) AND 2\nP%=c%\n[OPT p%\n]\nIF n%>1 THEN [OPT p%:EQUD 0:]\n"
    program += "[OPT p%:EQUD x\n.x EQUD 1\n]\nNEXT"
    assert words(image(program)) == [0, 0x8F08, 1] and warnings(program) == []


def test_errors_stand_in_the_order_of_lines() -> None:
    """The second pass finds the first two."""
    assert [error[:4] for error in errors(listing("B none\nMOV R0,#257\nFOO"))] == ["5: n", "6: M", "7: F"]


def test_too_many_errors() -> None:
    """The program ends where its loops would report for ever."""
    found = errors("DIM c% 9\nFOR i%=1 TO 9999\nP%=c%\n[OPT 2:MOV R0,#257+i%*1024:]\nNEXT")
    assert len(found) == 1001 and found[-1].endswith("there are more than 1000 errors")


def test_bytes_behind_a_block() -> None:
    reason = "the bytes go on behind the block c%, to which DIM gave 8 bytes"
    assert errors("DIM c% 7,d% 99:P%=c%\n[OPT 2:EQUD 1:EQUD 2:EQUD 3:]") == [f"2: EQUD: {reason}"]
    assert errors('DIM c% 7:P%=c%\n[OPT 2:EQUD 1:EQUS "abcde":]') == [f"2: EQUS: {reason}"]
    assert len(image("DIM c% 7:P%=c%\n[OPT 2:EQUD 1:EQUD 2:]")) == 8
    assert len(images("DIM c% 7,d% 7:P%=c%\n[OPT 2:EQUD 1:EQUD 2:]\nP%=d%\n[OPT 2:EQUD 3:]")[0]) == 2
    assert len(image("HIMEM=HIMEM-99:P%=HIMEM\n[OPT 2:EQUD 1:EQUD 2:]")) == 8


def test_remarks_behind_wrong_operands() -> None:
    """A colon in a remark begins no statement, also where the first pass passes operands over."""
    assert words(image(listing("MOV R0,#size ; a: b\n]\nsize=4\n[OPT pass%"))) == [0xE3A00004]
    assert len(errors("DIM c% 9:P%=c%\n[OPT 2\nMOV R0,#&101 ; a: b\n]")) == 1


def test_wrong_operands_in_the_first_pass_alone() -> None:
    """They lay a word of zeros; the second pass knows better."""
    program = listing("MOV R0,#size\n.a EQUD 1:EQUD 2\n]\nsize=P%-a\n[OPT pass%")
    assert words(image(program)) == [0xE3A00008, 1, 2]


def test_moving_label_is_warned_of() -> None:
    """A length that depends on a later label: the second pass lays more than the first."""
    program = listing("]\nIF pass%=2 THEN [OPT pass%:EQUD 0:]\n[OPT pass%\n.x EQUD y\n.y EQUD 1")
    found = warnings("y=0\n" + program)
    assert found == [
        "9: x: this label moves between the last two passes, from &8F00 to &8F04:"
        " lines before it have the old address",
        "10: y: line 9 took this label as &8F04, and it is &8F08",
    ]


def test_a_label_that_lines_before_it_misread() -> None:
    """A label of LOCAL is 0 for lines before it; one of two labels of a name is the last pass's last."""
    local = listing("FNskip") + "END\nDEF FNskip\nLOCAL s%\n[OPT pass%:B s%\n.s%\n]\n=0"
    assert [warning for warning in warnings(local) if "took" in warning] == [
        "12: s%: line 11 took this label as &0, and it is &8F04"
    ]
    twice = listing("B x\n.x EQUD 1\nB x\n.x EQUD 2")
    assert [warning for warning in warnings(twice) if "took" in warning] == [
        "6: x: line 5 took this label as &8F0C, and it is &8F04"
    ]
    assert warnings(listing(".x EQUD 1:B x\n.x EQUD 2:B x")) == []


def test_shorter_last_pass_is_warned_of() -> None:
    program = (
        "DIM c% 99\nFOR p%=0 TO 2 STEP 2\nP%=c%\n[OPT p%:EQUD 1:EQUD 2:]\nIF p%=0 THEN [OPT 0:EQUD 3:]\nNEXT"
    )
    assert any("an earlier pass laid more bytes" in warning for warning in warnings(program))


def test_case_of_operations() -> None:
    """`BLscroll` is BL and scroll; a warning says so where the other case would be longer."""
    found = warnings(listing("BLscroll\n.scroll MOV PC,R14"))
    assert found == ["5: BLscroll: this is read as BL and a name, and could be BLS and another name"]
    assert words(assembled("BLscroll\n.scroll MOV PC,R14"))[0] == 0xEBFFFFFF


WRONG = [
    ("LDRH R0,[R1]", "LDRH: the ARM2 doesn't have this instruction"),
    ("SWP R0,R1,[R2]", "SWP: the ARM2 doesn't have this instruction"),
    ("MRS R0,CPSR", "MRS: the ARM2 doesn't have this instruction"),
    ("ADF F0,F1,F2", "ADF: the machine has no floating point"),
    ("MVFS F0,#1", "MVFS: the machine has no floating point"),
    ("FOO R0", "FOO: the assembler has no such operation"),
    ("NOP", "NOP: the assembler has no such operation"),
    ("ADDSEQ R0,R0,R1", None),
    ("MOV R0,#257", "MOV: no instruction has the number &101"),
    ("ADRL R0,P%", None),
    ("LDR R0,=5", "=: BASIC's assembler has no pools of words"),
    ("MOV R16,R0", "R16: no variable has this name so far"),
    ("MOV (16),R0", "(: no register has the number 16"),
    ('EQUB "A"', "EQUB: type mismatch"),
    ("EQUS 5", "EQUS: type mismatch"),
    ('MOV R0,#"A"', "MOV: type mismatch"),
    ("EQUB 1,2", ",: BASIC takes one value here"),
    ('="a",0', ",: BASIC takes one value here"),
    ("EQUB 1:MOV R0,#1", "MOV: P% is &8F01 here"),
    ('SWI "None_Such"', '"None_Such": no SWI of this name'),
    ("LDMFD sp!,{R0", "end of the line: `}` is wanted here"),
    ("STMIA dest!,{R0}", "dest!: BASIC reads `dest!` as"),
    ("MOV R0,R1,R2", "MOV: a shift is wanted"),
    ("B P%+2", "B: a branch goes to a multiple of 4"),
    ("ALIGN 8", "8: BASIC's ALIGN takes no number"),
    ("IF x THEN", "IF: the assembler has no such operation"),
    ("MOV R0,R1 R2", "R2: this isn't understood behind the operands"),
    ("LDR R0,[R1,#5000]", "LDR: an offset is"),
    ("MOV R0,#1E10", "MOV: the number 1E10 is too big"),
    ("LDMIA R0!,{R5-R2}", "-: the range goes from R5 down"),
    ("EQUD label", "label: no variable has this name so far"),
    (".a$ EQUD 1", "a$: type mismatch"),
    ("PRINT 5", "PRINT: the assembler has no such operation"),
    ("[", "[: the assembler has no such operation"),
]


@pytest.mark.parametrize("statement, wanted", WRONG)
def test_wrong(statement: str, wanted: str | None) -> None:
    """Each is an error of its line, and the lines behind it are read too."""
    found = errors("dest=3\nDIM c% 99:P%=c%\n[OPT 2\n" + statement + "\nFOO2\n]")
    assert len(found) >= 2 and found[-1].startswith("5: FOO: ")
    assert found[0].startswith("4: ")
    assert wanted is None or found[0].startswith("4: " + wanted)


def test_errors_elsewhere_end_the_program() -> None:
    """An FN's own mistake isn't an operand's: the program stops there."""
    assert errors("DIM c% 99:P%=c%\n[OPT 0\nMOV R0,#FNx\nFOO\n]\nEND\nDEF FNx\n=1/0") == [
        "8: /: division by zero"
    ]
