"""Random scripts for tools/back_beside_steps: a program, and lines behind its BOOT that take steps, change the machine,
go back, or look."""
from __future__ import annotations

import random
import re
from dataclasses import dataclass

# what all scripts find: a module with a SWI and workspace of its own, and one whose initialisation fails
MODULES = """
FORGET m
ASM m 0
        DCD     0,make,end,0,title,0,0,&40000,swi
make    LDR     R2,[R12]
        TEQ     R2,#0
        MOVNES  PC,R14
        MOV     R9,R14
        MOV     R0,#6
        MOV     R3,#8
        SWI     XOS_Module
        ORRVSS  PC,R9,#&10000000
        STR     R2,[R12]
        MOV     R1,#0
        STR     R1,[R2]
end     MOVS    PC,R14
swi     LDR     R2,[R12]
        LDR     R1,[R2]
        ADD     R0,R0,R1
        STR     R0,[R2]
        MOVS    PC,R14
title   DCB     "Count",0
END
FORGET f
ASM f 0
        DCD     0,fails,0,0,name,0,0
fails   STR     R0,[R12]
        ORRS    PC,R14,#&10000000
name    DCB     "Fails",0
END
""".strip().split("\n")
START = """
start   MOV     R8,#&9000
        MOV     R13,#&A000
        MOV     R6,R8
""".strip("\n").split("\n")
BEHIND = """
        SWI     OS_Exit
sub     STMFD   R13!,{R0-R2,R14}
        ADD     R4,R4,#1
        STR     R4,[R8,#12]
        LDMFD   R13!,{R0-R2,PC}
where   DCD     image,title
image   DCB     "m",0
title   DCB     "Count",0
""".strip("\n").split("\n")
BLOCKS = (" STMIA R8,{R0-R3}", " LDMIA R8,{R0-R2}", " STMFD R13!,{R0-R4}", " LDREQ R1,[R2]", " MUL R1,R2,R3")
OTHERS = (" SWIEQ OS_Exit", " B start", " MOV R0,R0", " DCD &F000010", " TEQP PC,#&F0000000", " SWICS &6")
OTHERS += (" MOVMI PC,R14",)
OPERATIONS = ("ADD", "SUB", "ADDS", "SUBS", "EOR", "ORR", "MOVS", "CMP")
# store calls, each with what it needs; R6 keeps what a claim gave
CALLS = (
    "MOV R0,#0;MOV R1,#&B000;MOV R3,#256;SWI XOS_Heap",
    "MOV R0,#2;MOV R1,#&B000;MOV R3,#20;SWI XOS_Heap;MOV R6,R2",
    "MOV R0,#2;MOV R1,#&B000;MOV R3,#200;SWI XOS_Heap",
    "MOV R0,#3;MOV R1,#&B000;MOV R2,R6;SWI XOS_Heap",
    "MOV R0,#4;MOV R1,#&B000;MOV R2,R6;MOV R3,#16;SWI XOS_Heap;MOV R6,R2",
    "STR R0,[R6]",
    "MOV R1,#&B000;STR R0,[R1,#4]",
    "MOV R0,#6;MOV R3,#40;SWI XOS_Module;MOV R6,R2",
    "MOV R0,#7;MOV R2,R6;SWI XOS_Module",
    "MOV R0,#1;LDR R1,where;SWI XOS_Module",
    "MOV R0,#4;LDR R1,where+4;SWI XOS_Module",
    "MOV R0,#3;LDR R1,where+4;SWI XOS_Module",
    "MOV R0,#8;SWI XOS_Module",
    "SWI &60000",
    "SWI &40000",
    "MOV R0,#0;MVN R1,#0;MOV R2,#4096;MVN R3,#0;MOV R5,#&8000;LDR R8,where+4;MOV R6,#0;SWI XOS_DynamicArea"
    ";MOV R8,#&9000",
    "MOV R0,#&100;MOV R1,#4096;SWI XOS_ChangeDynamicArea",
    "MOV R0,#&100;MOV R1,#4096;RSB R1,R1,#0;SWI XOS_ChangeDynamicArea",
    "MOV R0,#1;MOV R1,#&100;SWI XOS_DynamicArea",
    "MOV R2,#&2000000;STR R0,[R2,#4]",
    "MOV R0,#&C000;MOV R1,#&D000;SWI XFlex_Init",
    "ADD R0,R8,#16;MOV R1,#10;SWI XFlex_Alloc",
    "ADD R0,R8,#20;MOV R1,#33;SWI XFlex_Alloc",
    "ADD R0,R8,#16;SWI XFlex_Free",
    "ADD R0,R8,#16;MOV R1,#60;SWI XFlex_Extend",
    "LDR R1,[R8,#20];STR R0,[R1]",
    "SWI &161",
    "SWI OS_NewLine",
    "SWI XOS_WriteC",
    "SWI &6",
    "SWI &20006",
)
# what programs begin with
A_HEAP, A_BLOCK, ANOTHER, A_FREE, AN_AREA = (CALLS[number] for number in (0, 1, 2, 3, 15))
A_FLEX_STORE, AN_ANCHOR, A_SECOND = CALLS[20:23]
BEGIN = (
    "",
    f"{A_HEAP};{A_BLOCK}",
    f"{A_HEAP};{A_BLOCK};{A_FREE};{ANOTHER}",
    f"{A_HEAP};{ANOTHER};{A_BLOCK}",
    f"{A_FLEX_STORE};{AN_ANCHOR};{A_SECOND}",
    AN_AREA,
)
FROM_OUTSIDE = ("LOAD m", "LOAD m", "LOAD f", "LOAD nothing", "LOAD p", "CALL OS_Heap", "CALL OS_Exit", "CALL 0")
FROM_OUTSIDE += ("CALL XOS_Module",)
SET_REGISTERS = ("R0", "R1", "R2", "R3", "r4", "R6", "R12", "LR", "SP")
POKED = ("&9000", "&9004", "&9008", "&B004", "&20", "R8+12", "start+8")
ADDRESSES = ("start", "start+8", "&8010", "&8018", "sub", "sub+12", "swi", "make", "&8100", "PC-4", "LR")
PARTS = "R0 R1 R2 R3 R4 R6 SP LR R14 R13_svc R14_svc R13_usr R8_fiq FLAGS"
PARTS += " &9000 &9010 &B00C &2000004 start+4 &180001C"
QUESTIONS = tuple(f"LAST CHANGE {part}" for part in PARTS.split())
QUESTIONS += ("LAST CHANGE WORD &9004", "LAST CHANGE WORD R8+8", "LAST CHANGE WORD &7FFC", "LAST CHANGE BYTE &9009")
QUESTIONS += ("LAST CHANGE BYTE &B010", "LAST CHANGE BYTE R13-4", "LAST CLAIM &B018", "LAST CLAIM &B0E0")
QUESTIONS += ("LAST FREE &B018", "LAST FREE &B0E0", "LAST CHANGE BLOCK &B018", "LAST CHANGE BLOCK &B00C")
QUESTIONS += ("LAST STEPS 1", "LAST STEPS 3", "last steps 7", "LAST STEPS 1000")
# bytes that lines write, some of which can't be
BYTES = ('POKE &9000 "ab"', "FILL &9000 8 BYTES 1", "PUT p &9100", "POKE R8+5 BYTES 1 2 3", "POKE start+5 BYTES &10")
BYTES += ('REPEAT 2 POKE &9002 "x"', "FILL &100 8 0", "PUT nothing &9000", "FILL &B000 40 0", "PUT p &900A")
# a line after which the past isn't known, unless the machine stands as it was made
LOSING = ("ASM q &9000",)
LOOKING = ("REGS", "WORDS &9000 4", "WHERE", "EXPECT R0 0", "HEAP &B000", "# a remark", "BREAK nowhere", "HELP BACK")
LOOKING += ("COUNT ON", "COUNT OFF", "TRACE ON", "TRACE OFF", "BREAK sub", "BREAK &8018", "UNBREAK sub", "WHEN")
LOOKING += ("STUB 6 R0 1", "STUB 6 R3 9 &9004 77", "STUB 6 AT sub", "UNSTUB 6")
LOOKING += ("FORGET nothing", "ASM p &8000", "ASM wrong &8000")
LOOKING += ("WATCH &9000", "WATCH &9000", "UNWATCH &9000", "WATCH &900C", "UNWATCH &900C")
# what the lines above leave set, taken away
AS_BEFORE = ["COUNT OFF", "TRACE OFF", "UNBREAK sub", "UNBREAK &8018", "UNSTUB 6", "UNWATCH &9000", "UNWATCH &900C"]


@dataclass
class Script:
    """A program, and lines behind its BOOT."""

    program: list[str]
    lines: list[str]


def spelled(text: str) -> list[str]:
    return [f" {part}" for part in text.split(";")]


def instructions(choice: random.Random) -> list[str]:
    """An instruction of the program, or some that belong together."""
    one, two, three = (choice.randrange(5) for _ in range(3))
    kind = choice.randrange(22)
    if kind < 3:
        return [f" MOV R{one},#{choice.randrange(256)}"]
    if kind < 6:
        operation = choice.choice(OPERATIONS)
        operands = f"R{two},R{three}" if operation in ("MOVS", "CMP") else f"R{one},R{two},R{three}"
        return [f" {operation} {operands}"]
    if kind < 9:
        operation = choice.choice(("STR", "STR", "LDR", "STRB", "STREQ"))
        return [f" {operation} R{one},[R8,#{choice.choice((0, 0, 4, 8, 9, 12))}]"]
    if kind == 9:
        return [f" B{choice.choice(('NE', 'EQ', 'CS', 'MI'))} start+8"]
    if kind == 10:
        return [f" SUBS R{one},R{one},#1", f" BNE {choice.choice(('start+8', 'sub'))}"]
    if kind == 11:
        return [choice.choice(BLOCKS)]
    if kind == 12:
        return [choice.choice((" BL sub", " BL sub", " BLNE sub", " STR R1,start+8", " STR R0,sub+4"))]
    if kind == 13:
        return [choice.choice(OTHERS)]
    return spelled(choice.choice(CALLS))


def stepping(choice: random.Random) -> str:
    """A line that takes steps, traced or not."""
    text = choice.choice(("STEP 1", "STEP", *("STEP %",) * 4, "RUN", "RUN", "REPEAT 2 STEP %", "CALL &40000"))
    if choice.randrange(8) == 0:
        text = choice.choice(FROM_OUTSIDE)
    elif choice.randrange(8) == 0:
        text = choice.choice(("FINISH", "GOSUB sub", "GOSUB sub", "GOSUB start+8", "STEP 0"))
    text = text.replace("%", str(choice.randrange(1, 14)))
    if choice.randrange(7) == 0 and not text.startswith("REPEAT"):
        return choice.choice((f"TRACE {text}", f"TRACE {text}", "TRACE LAST 3", f"TRACE {choice.randrange(1, 5)}"))
    return text


def changing(choice: random.Random) -> str:
    """A line that changes the machine, or should."""
    kind = choice.randrange(15)
    if kind < 5:
        value = choice.choice((choice.randrange(1000), "R1+4", "&B00C", -1, "start"))
        return f"SET {choice.choice(SET_REGISTERS)} {value}"
    if kind < 8:
        return f"POKE {choice.choice(POKED)} {choice.randrange(1000)}"
    if kind == 8:
        return choice.choice(("SET PC start", "SET PC start+8", "SET PC sub", "SET PC &8010"))
    if kind == 9:
        return choice.choice(("SET PSR Z", "SET PSR nzcv", "SET PSR SVC", "SET PSR N FIQ", "SET PSR USR"))
    if kind == 10:
        return choice.choice(("REPEAT 3 SET R3 R3+1", "REPEAT 2 POKE &9000 R3+2", "SET R0 0"))
    if kind == 11:
        return choice.choice(("RESET", "RESET", "BOOT p", "BOOT nothing", "BOOT m"))
    return choice.choice(BYTES)


def going_back(choice: random.Random) -> str:
    kind = choice.randrange(10)
    if kind < 3:
        return choice.choice(("BACK", "BACK 1", f"BACK {choice.randrange(1, 12)}", "back 2"))
    if kind < 6:
        return f"BACK TO {choice.randrange(choice.choice((10, 30, 60)))}"
    if kind < 8:
        return f"BACK UNTIL {choice.choice(ADDRESSES)}"
    return choice.choice(("UNDO", "undo"))


def made(choice: random.Random) -> Script:
    program = [text for text in spelled(choice.choice(BEGIN)) if text.strip()]
    program += [text for _ in range(choice.randrange(3, 14)) for text in instructions(choice)]
    lines = choice.choice(([], ["LOAD m"], ["BREAK &8018"], ["BREAK sub", "LOAD m"], ["STUB 6 R0 1"]))
    for _ in range(choice.randrange(2, 16)):
        kind = choice.randrange(40)
        if kind < 16 or not lines:
            lines.append(stepping(choice))
        elif kind < 25:
            lines.append(changing(choice))
        elif kind < 30:
            lines.append(going_back(choice))
            if choice.randrange(3) == 0:
                lines.append(f"BACK TO {choice.randrange(20)}")
        elif kind < 35:
            lines.append(choice.choice(QUESTIONS))
        elif kind < 39:
            lines.append(choice.choice(LOOKING))
        elif choice.randrange(6) == 0:
            lines.append(choice.choice(LOSING))
    lines += [choice.choice(QUESTIONS) for _ in range(3)]
    lines += [going_back(choice) for _ in range(2)]
    return Script([*START, *program, *BEHIND], lines + ["BOOT p", "STEP 2"])


def is_back(text: str) -> bool:
    return re.match(r"(?i)(BACK|UNDO)\b", text) is not None


def is_question(text: str) -> bool:
    return text.upper().startswith("LAST")


def plain(text: str) -> str:
    """A line that takes steps without the TRACE before it."""
    if text.startswith("TRACE LAST"):
        return "RUN"
    text = text.removeprefix("TRACE ")
    return f"STEP {text}" if text.isdecimal() else text


def takes_steps(text: str) -> bool:
    return re.match(r"(REPEAT \d+ )?(STEP|RUN|CALL|LOAD|FINISH|GOSUB)\b", plain(text)) is not None


def is_call(text: str) -> bool:
    return plain(text).startswith(("CALL", "LOAD"))


def is_routine(text: str) -> bool:
    return plain(text).startswith("GOSUB")


def is_change(text: str) -> bool:
    return re.match(r"(REPEAT \d+ )?(SET|POKE|BOOT|FILL|PUT|RESET)\b", text) is not None


def is_bytes(text: str) -> bool:
    """Whether a line writes bytes, all of them or none: where none are written, nothing was done."""
    return re.match(r"(REPEAT \d+ )?(FILL|PUT|POKE \S+ (\"|BYTES))", text) is not None
