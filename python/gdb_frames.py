"""For GDB itself: back traces from module code over the return gate to what called it.

    (gdb) source python/gdb_frames.py

Module code goes back to the address &3800000, where there is nothing, and the machine itself knows who called.
So GDB gets a symbol there, `return_gate`, and asks the machine by `monitor FRAMES` for the caller. What a caller
had in R0 to R3 and R10 to R12 isn't known then, and GDB shows `<not saved>`. Where the caller's stack lies below
that of the module's code, GDB ends the back trace with the caller.
"""

from __future__ import annotations

import os
import re
import sys
import tempfile
from typing import NamedTuple

import gdb
from gdb.unwinder import Unwinder, register_unwinder

sys.path.insert(0, os.path.dirname(os.path.realpath(__file__)))

from rosm.elf import elf_of  # noqa: E402
from rosm.messages import Position  # noqa: E402
from rosm.program import Label, Program, Row  # noqa: E402

GATE = 0x3800000
ADDRESS = 0x3FFFFFC
# `frame 1 SWI &40001 Low%Base called at &8004 main:start+4 in USR, R13_svc 01C02000`
_FRAME = re.compile(r"^frame \d+ .* called at &([0-9A-F]+)(?: .*)? in ([A-Z]+), R13_svc ([0-9A-F]+)$", re.MULTILINE)
# the registers that module code gives back as they were, and the stack pointers of the modes
_KEPT = ("r4", "r5", "r6", "r7", "r8", "r9", "cpsr")
_STACKS = {"USR": ("r13_usr", "r14_usr"), "FIQ": ("r13_fiq", "r14_fiq"), "IRQ": ("r13_irq", "r14_irq")}


class Caller(NamedTuple):
    """What an open frame of module code says: where it was called, in which mode, and the stack it goes back with."""

    at: int
    mode: str
    stack: int


def callers() -> list[Caller]:
    """The callers of the open frames, the innermost first; a frame that no instruction called has none."""
    shown = gdb.execute("monitor FRAMES", to_string=True)
    return [Caller(int(at, 16), mode, int(stack, 16)) for at, mode, stack in _FRAME.findall(shown)]


class FrameId:
    """Which frame it is, as GDB wants to know."""

    def __init__(self, sp: gdb.Value, pc: gdb.Value) -> None:
        self.sp = sp
        self.pc = pc


class GateUnwinder(Unwinder):
    """From the return gate to the instruction behind the call, by the stack that module code goes back with."""

    def __init__(self) -> None:
        super().__init__("rosm_gate")

    def __call__(self, pending: gdb.PendingFrame) -> gdb.UnwindInfo | None:
        pc = pending.read_register("pc")
        if int(pc) & ADDRESS != GATE:
            return None
        sp = pending.read_register("sp")
        for caller in callers():
            if caller.stack == int(sp):
                return self.unwound(pending, sp, pc, caller)
        return None

    @staticmethod
    def unwound(pending: gdb.PendingFrame, sp: gdb.Value, pc: gdb.Value, caller: Caller) -> gdb.UnwindInfo:
        """The caller's frame."""
        info = pending.create_unwind_info(FrameId(sp, pc))
        for name in _KEPT:
            info.add_saved_register(name, pending.read_register(name))
        info.add_saved_register("pc", gdb.Value(caller.at + 4).cast(pc.type))
        stack, link = _STACKS.get(caller.mode, ("sp", None))
        info.add_saved_register("sp", pending.read_register(stack))
        if link:
            info.add_saved_register("lr", pending.read_register(link))
        return info


def add_symbol() -> None:
    """Gives GDB the name of the gate, by a file that is no more once it is read.

    The symbol stands a word before it, since GDB looks for a caller's name before the address that it goes on at.
    """
    there, start = Position("", 0), GATE - 4
    program = Program(start, bytes(8), labels=[Label("return_gate", start, there)], rows=[Row(start, 8, there, True)])
    with tempfile.TemporaryDirectory() as folder:
        path = os.path.join(folder, "return_gate.elf")
        with open(path, "wb") as file:
            file.write(elf_of(program))
        gdb.execute(f"add-symbol-file -readnow {path}", to_string=True)


add_symbol()
register_unwinder(None, GateUnwinder(), replace=True)
