"""Which labels begin a routine, by sources that were read by hand, and what GDB makes of it."""

from __future__ import annotations

import shutil
import subprocess
from pathlib import Path

import pytest

from rosm.elf import elf_of
from rosm.objasm import Options, assemble_files
from rosm.program import Program
from rosm.routines import always_leaves, branch_target, sizes

# outer calls inner in a loop; inner's loop jumps in at its test; each ends by going back
NESTED = """outer   STMFD   r13!,{r14}
        MOV     r1,#3
again   BL      inner
        SUBS    r1,r1,#1
        BNE     again
        LDMFD   r13!,{r15}
inner   MOV     r0,#2
        B       test
body    SUB     r0,r0,#1
test    CMP     r0,#0
        BNE     body
        MOV     r15,r14
"""


def made(text: str, folder: Path) -> Program:
    (folder / "main.s").write_text(text)
    return assemble_files(Options([str(folder / "main.s")], origin=0x8000))


def test_loops_stand_within_their_routines(tmp_path: Path) -> None:
    """outer is &8000 to &8017, inner &8018 to &802F."""
    assert sizes(made(NESTED, tmp_path)) == {0x8000: 24, 0x8018: 24}


@pytest.mark.parametrize("text, found", [
    # the second routine's loop begins at its label, and nothing comes there from the first
    ("one     MOV r15,r14\ntwo     SUBS r0,r0,#1\n        BNE two\n        MOV r15,r14\n", {}),
    # the first goes on into the second label, which has its loop there
    ("one     MOV r0,#3\ntwo     SUBS r0,r0,#1\n        BNE two\n        MOV r15,r14\n", {0x8000: 16}),
    # a label that is called is a routine, though the one before it goes on there
    ("one     MOV r0,#3\ntwo     SUBS r0,r0,#1\n        BNE two\n        BL two\n        MOV r15,r14\n", {}),
    # a branch to another routine, from elsewhere, makes it no part of that
    ("one     B two\nmid     MOV r15,r14\ntwo     MOV r15,r14\n", {}),
    # an error's end, which is reached forwards alone
    ("one     CMP r0,#0\n        BEQ bad\n        MOV r15,r14\nbad     MVN r0,#0\n        MOV r15,r14\n", {0x8000: 20}),
    # data are no instructions, whatever their words are
    ("one     MOV r15,r14\ndata    DCD &EAFFFFFE\nnext    DCD &EAFFFFFD\n", {}),
])
def test_routines(text: str, found: dict[int, int], tmp_path: Path) -> None:
    assert sizes(made(text, tmp_path)) == found


def test_a_program_without_labels(tmp_path: Path) -> None:
    assert sizes(made("        MOV r0,#1\n", tmp_path)) == {}


def test_branches_and_ends() -> None:
    """Words of the ARM2 data sheet's forms, put together by hand."""
    assert branch_target(0x8008, 0xEAFFFFFE) == 0x8008
    assert branch_target(0x8000, 0x1B000000) == 0x8008
    assert branch_target(0x8000, 0xE1A0F00E) is None
    leaving = [0xEA000000, 0xE1A0F00E, 0xE1B0F00E, 0xE59FF000, 0xE8BD8000]
    staying = [0xEB000000, 0x0A000000, 0x01A0F00E, 0xE1A0000E, 0xE59F0000, 0xE58FF000, 0xE8BD0001, 0xE92D4000,
               0xEF000011, 0xE35F0000, 0xE33FF000]
    assert [word for word in leaving if not always_leaves(word)] == []
    assert [word for word in staying if always_leaves(word)] == []


@pytest.mark.skipif(shutil.which("gdb-multiarch") is None, reason="gdb-multiarch isn't there")
def test_gdb_takes_a_loop_for_a_part(tmp_path: Path) -> None:
    path = tmp_path / "main.elf"
    path.write_bytes(elf_of(made(NESTED, tmp_path)))
    words = ["info symbol 0x8010", "info symbol 0x8024", "info address again", "disassemble outer", "break body"]
    asked = [word for line in words for word in ("-ex", line)]
    done = subprocess.run(["gdb-multiarch", "-nx", "-batch", *asked, str(path)], capture_output=True, check=True)
    shown = done.stdout.decode()
    assert "outer + 16 in section .text" in shown and "inner + 12 in section .text" in shown
    assert 'Symbol "again" is at 0x8008' in shown
    assert "<+20>:\tldmfd\tsp!, {pc}" in shown
    assert "Breakpoint 1 at 0x8020" in shown
