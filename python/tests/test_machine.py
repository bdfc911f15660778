"""rosm.Machine: programs, registers, memory, heaps, modules, and what is wrong with a line."""

from __future__ import annotations

import pytest
from library import needs_library

import rosm
from rosm.machine.parts import Block

pytestmark = needs_library

# 3 + 2 + 1 in a loop. 13 steps: 2, three times 3, 2. `total` is 7 words behind &8000
SUM = """
        MOV     R0,#0
        MOV     R1,#3
more    ADD     R0,R0,R1
        SUBS    R1,R1,#1
        BNE     more
        STR     R0,total
        SWI     OS_Exit
total   DCD     255
"""
TOTAL = 0x801C
DOUBLE = """
        DCD     0,0,0,0,title,0,0,&40000,swi
swi     STMFD   R13!,{R1,R14}
        BL      twice
        LDMFD   R13!,{R1,PC}^
twice   ADD     R0,R0,R0
        MOV     PC,R14
title   DCB     "Dbl",0
"""


def summed(**settings: int) -> rosm.Machine:
    machine = rosm.Machine(**settings)
    machine.asm(SUM)
    machine.run()
    return machine


def test_a_program_runs() -> None:
    machine = rosm.Machine()
    machine.asm(SUM)
    answer = machine.run()
    assert (answer.text, answer.stop, answer.steps) == ("stop Exit", "Exit", 13)
    assert (machine.r[0], machine.r[1], machine.steps) == (6, 0, 13)
    # 1 - 1 is 0, and borrows nothing
    assert machine.flags.Z and machine.flags.C and not machine.flags.N and str(machine.flags) == "nZCvif"
    assert machine.mem.word(TOTAL) == 6 and machine.mem[TOTAL:TOTAL + 4] == b"\6\0\0\0"
    assert machine.labels() == {"more": 0x8008, "total": TOTAL}


def test_steps_one_by_one() -> None:
    machine = rosm.Machine()
    machine.asm(SUM)
    assert machine.step().text == "at &8004" and machine.pc == 0x8004
    machine.step(3)
    assert (machine.r[0], machine.r["R1"], machine.r["PC"]) == (3, 2, 0x8010)


def test_back_and_forward() -> None:
    machine = summed()
    # the 10th step was the last SUBS
    machine.back(3)
    assert (machine.steps, machine.r[0], machine.r[1], machine.pc) == (10, 6, 0, 0x8010)
    assert machine.mem.word(TOTAL) == 255
    machine.back()
    assert (machine.r[1], machine.flags.Z, machine.pc) == (1, False, 0x800C)
    machine.forward(3)
    assert (machine.steps, machine.mem.word(TOTAL)) == (12, 6)
    machine.back(100)
    assert (machine.steps, machine.mem.word(TOTAL), machine.pc) == (0, 255, 0x8000)
    assert machine.forward(100).steps == 13


def test_another_way_from_an_earlier_moment() -> None:
    machine = summed()
    machine.back(4)
    machine.r[1] = 2
    assert "RUN" not in machine.script and "STEP 9\n" in machine.script
    # 6 is there already, then SUBS leaves 1, and 1 is added
    assert machine.run().text == "stop Exit"
    assert machine.r[0] == 7 and machine.mem.word(TOTAL) == 7


def test_in_the_midst_of_a_call_nothing_can_be_done() -> None:
    machine = rosm.Machine()
    machine.asm(DOUBLE, name="double", at=0)
    machine.load("double")
    machine.call(0x40003, R0=21)
    machine.back(2)
    with pytest.raises(rosm.MachineError, match="in the midst of CALL"):
        machine.step()
    machine.forward(2)
    assert machine.r[0] == 42


def test_who_wrote_it() -> None:
    machine = summed()
    assert machine.go(machine.writer(TOTAL)).steps == 12
    assert machine.go(machine.writer("R1")).steps == 10
    assert machine.writer(0x9000) == 0


def test_heaps() -> None:
    machine = rosm.Machine()
    machine.call("OS_Heap", R0=0, R1=0x9000, R3=256)
    machine.call("OS_Heap", R0=2, R3=20)
    heap = machine.heap(0x9000)
    # a block of 20 bytes has its length word before it
    assert (heap.base, heap.end, heap.items) == (40, 256, (Block(0x9010, 24, True),))
    assert machine.r[2] == heap.live[0].address == 0x9014
    assert str(heap) == "heap 00009000 base 40 end 256\nlive 00009010 24"
    answer = machine.call("OS_Heap", R0=2, R3=1000)
    assert (answer.text, answer.error, machine.flags.V) == ("error 9", 9, True)
    machine.call("OS_Heap", R0=3, R2=0x9014)
    assert machine.heap(0x9000).live == []
    machine.back()
    assert len(machine.heap(0x9000).live) == 1
    with pytest.raises(rosm.MachineError, match="no heap starts at &A000"):
        machine.heap(0xA000)


def test_modules_frames_and_areas() -> None:
    machine = rosm.Machine()
    machine.asm(DOUBLE, name="double", at=0)
    assert machine.load("double").text == "ok"
    module = machine.modules()[0]
    assert (module.title, module.address, module.length) == ("Dbl", 0x1800014, 60)
    assert module.instances[0].name == "Base" and module.instances[0].preferred
    assert machine.labels()["twice"] == 0x1800014 + 48
    machine.stop_at("twice")
    machine.set(R0=21)
    assert machine.line("CALL &40003").stop == "Break" and machine.mode == "SVC"
    assert [frame.swi for frame in machine.frames()] == [0x40003]
    assert machine.r["R13"] == machine.r["R13_svc"] == 0x1C01FF8
    assert machine.finish().text == "ok" and machine.r[0] == 42 and machine.frames() == []
    assert [(area.number, area.base, area.size) for area in machine.areas()] == [(1, 0x1800000, 65536)]


def test_what_a_guest_prints_is_no_register() -> None:
    machine = rosm.Machine()
    machine.asm(' SWI OS_WriteS\n DCB "R0  DEADBEEF R1  DEADBEEF",10,13,0\n ALIGN\n MOV R0,#5\n SWI OS_Exit\n')
    machine.run()
    machine.line("REGS")
    assert machine.registers()["R0"] == 5 and machine.r[1] == 0
    assert machine.output == "R0  DEADBEEF R1  DEADBEEF\n\r"


def test_memory_is_written() -> None:
    machine = rosm.Machine()
    machine.mem[0x9001:0x9006] = b"abcde"
    assert machine.mem[0x9000:0x9008] == b"\0abcde\0\0"
    machine.mem[0x9000] = 0x41
    assert machine.mem.text(0x9000) == "Aabcde" and machine.mem[0x9000] == 0x41
    for wrong in (slice(0x7FFC, 0x8004), slice(0x48000 - 4, 0x48000 + 4), slice(-4, 4)):
        with pytest.raises(rosm.Unmapped):
            machine.mem[wrong]
    with pytest.raises(rosm.Unmapped):
        machine.mem[0x3000000] = 1
    with pytest.raises(ValueError, match="4 bytes are wanted"):
        machine.mem[0x9000:0x9004] = b"abc"


def test_registers_of_modes() -> None:
    machine = rosm.Machine()
    machine.set(R13=0x10000, PSR="Nz FIQ")
    assert (machine.mode, machine.flags.N, machine.r["SP"], machine.r["R13_usr"]) == ("FIQ", True, 0, 0x10000)
    machine.set(R8=1, R0=-1)
    assert (machine.r["R8_fiq"], machine.r["R8_usr"], machine.r[0]) == (1, 0, 0xFFFFFFFF)
    for wrong in (16, "R16", "X", "R8_svc"):
        with pytest.raises(KeyError):
            machine.r[wrong]


def test_areas_that_grow_are_mapped() -> None:
    machine = rosm.Machine()
    end = 0x1800000 + 65536
    with pytest.raises(rosm.Unmapped):
        machine.mem[end]
    machine.call("OS_ChangeDynamicArea", R0=1, R1=4096)
    assert machine.areas()[0].size == 65536 + 4096 and machine.mem[end] == 0
    machine.back()
    with pytest.raises(rosm.Unmapped):
        machine.mem[end]


@pytest.mark.parametrize("source, reason", [
    (" MOV R0,#257\n", "line 1: BadImmediate: MOV R0,#257"), ("a\na\n", "line 2: LabelTwice: a"),
    (" MOV R0,#1\nEND\nQUIT\n", "line 2: END"), ("eNd\r\n", "line 1: END")])
def test_a_program_that_is_refused(source: str, reason: str) -> None:
    machine = rosm.Machine()
    with pytest.raises(rosm.MachineError, match=reason):
        machine.asm(source)
    assert machine.script == ""
    machine.asm(SUM)
    assert machine.run().stop == "Exit"


@pytest.mark.parametrize("line", ["QUIT", "foo", "REPEAT 2 QUIT", "TRACE QUIT", "ASM x &8000", "HEX x", "POKE &0 1",
                                  "RUN\nRUN", "BREAK nowhere", "SET R0 12x"])
def test_a_line_that_is_refused_changes_nothing(line: str) -> None:
    machine = summed()
    before = machine.script
    with pytest.raises(rosm.MachineError):
        machine.line(line)
    assert machine.script == before and machine.r[0] == 6


def test_bytes_are_an_image() -> None:
    machine = rosm.Machine()
    # MOV R0,#3; SWI OS_Exit
    machine.image(bytes.fromhex("0300A0E3 110000EF"))
    assert machine.run().stop == "Exit" and machine.r[0] == 3


def test_a_second_program_is_put_there() -> None:
    machine = rosm.Machine()
    machine.asm(SUM)
    machine.asm("twice ADD R0,R0,R0\n MOV PC,R14\n", at=0xA000)
    assert machine.gosub("twice", R0=4).text == "returned after 2 steps" and machine.r[0] == 8
    assert machine.run().stop == "Exit" and machine.r[0] == 6


def test_expectations_are_answered() -> None:
    machine = summed()
    assert machine.line("EXPECT R0 6").passed is True
    failed = machine.line("EXPECT R0 7")
    assert (failed.passed, failed.reason, failed.text) == (False, "R0 is 00000006", "fail: R0 is 00000006")


def test_steps_past_the_limit_are_one_moment() -> None:
    machine = summed(limit=5)
    assert (machine.steps, machine.r[0], machine.mem.word(TOTAL)) == (13, 6, 6)
    machine.back()
    assert (machine.steps, machine.r[0]) == (5, 3)
    assert machine.forward().steps == 13


def test_many_words_that_arent_told() -> None:
    """A step of which the records have not all words: what isn't known isn't guessed."""
    machine = rosm.Machine()
    machine.image(b"\1" * 65536, at=0xA000)
    assert machine.mem[0xA000] == 1
    with pytest.raises(rosm.Unmapped, match="isn't known"):
        machine.mem[0xA000 + 65535]


def test_the_script_is_the_session() -> None:
    machine = summed()
    machine.r[5] = 7
    other = rosm.records(machine.script)
    assert '{"step":13,' in other.text and '"regs":{"R5":7}' in other.text


def test_a_fresh_machine() -> None:
    machine = summed()
    machine.reset()
    assert (machine.r[0], machine.pc, machine.mem.word(TOTAL)) == (0, 0x8000, 0)
    machine.line("BOOT program")
    assert machine.run().stop == "Exit"


def test_sizes() -> None:
    machine = rosm.Machine(pages=8, app=1, rma=1)
    assert machine.mem.mapped()[0] == (0x8000, 4096)
    with pytest.raises(rosm.ScriptError, match="no machine has 1 pages"):
        rosm.Machine(pages=1)


def test_a_budget_ends_a_run() -> None:
    machine = rosm.Machine(budget=100)
    machine.asm("loop B loop\n")
    assert machine.run().stop == "Budget" and machine.steps == 100
