"""GDB's way from module code over the return gate to its caller: GDB itself, on a machine that stands still."""

from __future__ import annotations

import json
import shlex
import shutil
import subprocess
import sys
from pathlib import Path

import pytest

from rosm.elf import elf_of
from rosm.objasm import Options, assemble_files

DRIVER = """start   MOV     r13,#&9000
        BL      work
        SWI     &11
work    STMFD   r13!,{r14}
        MOV     r4,#3
again   MOV     r0,#5
        SWI     &60000
        SUBS    r4,r4,#1
        BNE     again
        LDMFD   r13!,{pc}
"""
MODULE = """        DCD     0,0,0,0,0,0,0,&40000,swi
swi     LDR     r2,[r12]
        MOVS    pc,r14
"""
LOADED, CALLED = 0x1800014, 0x8018
FRAMES = f"at &1800038 counter:swi\nframe 1 SWI &40000 Counter%Base called at &{CALLED:X} again+4 in USR, R13_svc 01C02000\n"
SETTINGS = ["set confirm off", "set arm apcs32 off", "set arm force-mode arm"]
SCRIPT = Path(__file__).resolve().parent.parent / "gdb_frames.py"
STUB = Path(__file__).resolve().parent / "gdb_stub.py"


def made(folder: Path, name: str, text: str, origin: int) -> bytes:
    (folder / f"{name}.s").write_text(text)
    program = assemble_files(Options([str(folder / f"{name}.s")], origin=origin))
    (folder / f"{name}.elf").write_bytes(elf_of(program))
    return program.data


@pytest.mark.skipif(shutil.which("gdb-multiarch") is None, reason="gdb-multiarch isn't there")
def test_gdb_finds_the_caller(tmp_path: Path) -> None:
    """The module's first instruction is next; work has pushed R14 at &8FFC, and called at &8018, its line 7."""
    driver, module = made(tmp_path, "driver", DRIVER, 0x8000), made(tmp_path, "counter", MODULE, 0)
    places = [(0x8000, driver), (LOADED, module), (0x8FFC, (0x8008).to_bytes(4, "little"))]
    memory = {start + at: byte for start, data in places for at, byte in enumerate(data)}
    registers = {"r4": 3, "sp": 0x1C02000, "lr": 0x3800003, "pc": LOADED + 36, "cpsr": 3, "r13_usr": 0x8FFC, "r14_usr": 0x8008}
    (tmp_path / "state").write_text(json.dumps({"registers": registers, "memory": memory, "lines": {"FRAMES": FRAMES}}))
    target = shlex.join([sys.executable, str(STUB), str(tmp_path / "state")])
    asked = ["set remotetimeout 60", f"target remote | {target}", f"source {SCRIPT}",
             f"add-symbol-file {tmp_path / 'counter.elf'} -o {LOADED}",
             "bt", "up", "up", "print $r4", "print/x $sp", "print $r0", "info symbol 0x3800000"]
    words = [word for line in [*SETTINGS, *asked] for word in ("-ex", line)]
    done = subprocess.run(["gdb-multiarch", "-nx", "-batch", *words, str(tmp_path / "driver.elf")], capture_output=True, check=True)
    shown = done.stdout.decode().replace(f"{tmp_path}/", "").splitlines()
    assert "#0  swi () at counter.s:2" in shown
    assert "#1  0x03800000 in return_gate ()" in shown
    assert "#2  0x0000801c in work () at driver.s:7" in shown
    assert shown[-4:-1] == ["$1 = 3", "$2 = 0x8ffc", "$3 = <not saved>"]
    assert shown[-1].startswith("return_gate + 4 in section .text")
