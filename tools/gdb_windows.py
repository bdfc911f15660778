"""GDB's windows over the machine: `layout src`, `layout asm` and `layout regs` in a terminal of tmux, 100 columns by
40 rows. tools/try_gdb calls it.

What must be on the screen is worked out from the scripts, the source and the addresses of instructions, not from
screens as they came. Blanks count as one space, and the frames of windows aren't looked at."""
from __future__ import annotations

import os
import shlex
import subprocess
import time
from collections.abc import Iterator
from contextlib import contextmanager
from dataclasses import dataclass

from gdb_under_test import GDB, SETTINGS, compiled, lacking, say_left_out, write_symbols

COLUMNS, ROWS = 100, 40
SECONDS = 30
# a heap of 256 bytes at &9000, and three blocks of 20 bytes in it, 24 with the word before and up to a multiple of 8
SCRIPT = """ASM heaped &8000
start   MOV     R1,#&9000
        MOV     R0,#0           ; makes a heap of 256 bytes
        MOV     R3,#256
        SWI     OS_Heap
        MOV     R4,#3
again   MOV     R0,#2           ; claims 20 bytes
        MOV     R3,#20
        SWI     OS_Heap
        SUBS    R4,R4,#1
        BNE     again
        SWI     OS_Exit
END
BOOT heaped
"""


@dataclass(frozen=True)
class Look:
    """A line that is typed, or else keys, and what must be on the screen then, from top to bottom; what mustn't be."""

    line: str
    wanted: tuple[str, ...]
    key: str = ""
    gone: tuple[str, ...] = ()


# of SCRIPT: its second line is the first instruction, at &8000; `again`, a place within `start`, is the sixth, at &8014
AGAIN = "7 again MOV R0,#2 ; claims 20 bytes"
SUBTRACTION, BRANCH = "0x8020 <start+32> subs r4, r4, #1", "0x8024 <start+36> bne 0x8014 <start+20>"
OF_SCRIPT = (
    Look("layout src", ("> 2 start MOV R1,#&9000", AGAIN, "14 BOOT heaped", "In: start L2 PC: 0x8000")),
    Look("break again", (f"b+ {AGAIN}", "Breakpoint 1 at 0x8014: file windows.script, line 7.")),
    Look("continue", ("2 start MOV R1,#&9000", f"B+> {AGAIN}", "In: start L7 PC: 0x8014")),
    Look("monitor HEAP &9000", (f"B+> {AGAIN}", "heap 00009000 base 16 end 256"), gone=("live",)),
    Look("next", (f"B+ {AGAIN}", "> 8 MOV R3,#20", "In: start L8 PC: 0x8018")),
    # a SWI of the machine is one step
    Look("next 2", ("> 10 SUBS R4,R4,#1", "In: start L10 PC: 0x8020")),
    Look("monitor HEAP &9000", ("> 10 SUBS R4,R4,#1", "heap 00009000 base 40 end 256", "live 00009010 24")),
    # GDB fills this window at the next step
    Look("layout regs", ("Register", "> 10 SUBS R4,R4,#1", "L10 PC: 0x8020")),
    Look(
        "stepi",
        ("r0 0x2 2", "r1 0x9000 36864", "r2 0x9014 36884", "r3 0x14 20", "r4 0x2 2", "> 11 BNE again", "PC: 0x8024"),
    ),
    Look("reverse-stepi", ("r4 0x3 3", "> 10 SUBS R4,R4,#1", "L10 PC: 0x8020")),
    Look("layout asm", (f"> {SUBTRACTION}", BRANCH, "In: start L10 PC: 0x8020")),
    Look("stepi", (SUBTRACTION, f"> {BRANCH}", "In: start L11 PC: 0x8024")),
    Look("stepi", ("B+> 0x8014 <start+20> mov r0, #2", "0x8018 <start+24> mov r3, #20", "In: start L7 PC: 0x8014")),
    Look("monitor TRACE STEP 2", ("00008014 E3A00002 MOV R0,#&2", "00008018 E3A03014 MOV R3,#&14", "at &801C")),
    # GDB remembers the place before the line, and its windows stay there until the next step
    Look("maintenance flush register-cache", ("Register cache flushed.",)),
    Look("stepi", ("0x801c <start+28> svc 0x0000001d", f"> {SUBTRACTION}", "In: start L10 PC: 0x8020")),
    Look("delete", ("(gdb) delete",)),
    Look("continue", ("[Inferior 1 (Remote target) exited normally]",)),
)
# of examples/c/list.c at -O0: the fourth value that is inserted is 300, so three nodes of 8 bytes are there, 16 each
INSERTION, ENDING = "33 while (*place && (*place)->value < value)", "65 write_character('\\n');"
OF_LIST = (
    Look("layout src", ("> 4 _start: ldr sp, =__stack", "In: _start L4 PC: 0x8000")),
    Look("break insert if value == 300", ("Breakpoint 1 at 0x81a8: file list.c, line 33.",)),
    Look("continue", ("31 static void insert(", f"B+> {INSERTION}", "In: insert L33 PC: 0x81a8")),
    Look(
        "monitor HEAP &8390",
        (f"B+> {INSERTION}", "heap 00008390 base 64 end 512", *(f"live 000083{it}0 16" for it in "ABC")),
    ),
    Look("layout regs", ("Register", f"B+> {INSERTION}")),
    Look("next", ("> 34 place = &(*place)->next;", "In: insert L34 PC:")),
    Look("tbreak 65", ("Temporary breakpoint 2", "line 65.")),
    # the program prints 8 where the screen's cursor is; then all is drawn anew
    Look("continue", (ENDING, "L65 PC:")),
    Look("", ("64 write_number(node->value);", f"> {ENDING}", "In: main L65 PC:"), key="C-l"),
    Look("", ("(gdb)",), key="C-x a", gone=("In: main L65", f"> {ENDING}")),
    Look("print node->value", ("$1 = 8",)),
)


class Terminal:
    """A terminal of tmux in which GDB runs, by a server of its own."""

    def __init__(self, name: str, room: str, words: list[str]) -> None:
        self.tmux = ["tmux", "-L", name, "-f", "/dev/null"]
        environment = {**os.environ, "LC_ALL": "C.UTF-8", "HOME": room}
        environment.pop("TMUX", None)
        size = ["-x", str(COLUMNS), "-y", str(ROWS)]
        begin = [*self.tmux, "new-session", "-d", *size, "-c", room, shlex.join(words)]
        subprocess.run(begin, env=environment, check=True)

    def type(self, look: Look) -> None:
        if look.key:
            self.keys(*look.key.split())
        else:
            self.keys("-l", look.line)
            self.keys("Enter")

    def keys(self, *words: str) -> None:
        subprocess.run([*self.tmux, "send-keys", *words], check=True)

    def screen(self) -> str:
        command = [*self.tmux, "capture-pane", "-p"]
        return subprocess.run(command, stdout=subprocess.PIPE, errors="replace", check=False).stdout

    def end(self) -> None:
        subprocess.run([*self.tmux, "kill-server"], check=False, stderr=subprocess.DEVNULL)


def rows_of(screen: str) -> list[str]:
    """The rows of a screen without the frames of windows, blanks as one space."""
    return [" ".join(row.strip("| ").split()) for row in screen.splitlines()]


def is_shown(screen: str, look: Look) -> bool:
    """Whether the rows of a screen have what is wanted, each in the row of the one before or below it, and nothing
    that must be gone."""
    rows, at = rows_of(screen), 0
    for text in look.wanted:
        while at < len(rows) and text not in rows[at]:
            at += 1
        if at == len(rows):
            return False
    return not any(text in row for text in look.gone for row in rows)


@contextmanager
def terminal(room: str, name: str, command: str, elf: str) -> Iterator[Terminal]:
    words = [GDB, "-q", *SETTINGS, "-ex", "set tui border-kind ascii", "-ex", f"target remote | {command}", elf]
    opened = Terminal(f"try-gdb-{os.getpid()}-{name}", room, words)
    try:
        yield opened
    finally:
        opened.end()


def awaited(shown: Terminal, look: Look) -> bool:
    """Whether what is wanted comes to the screen in time; the last screen is printed where it doesn't."""
    end = time.monotonic() + SECONDS
    while not is_shown(screen := shown.screen(), look):
        if time.monotonic() >= end:
            wanted = f"has {look.wanted}" + (f" and none of {look.gone}" if look.gone else "")
            print(f"try_gdb: windows: after {look.line or look.key!r} no screen {wanted}; the last was\n{screen}")
            return False
        time.sleep(0.1)
    return True


def try_looks(room: str, name: str, command: str, elf: str, looks: tuple[Look, ...]) -> bool:
    """Whether each look finds what it wants; the first that doesn't ends the session."""
    with terminal(room, name, command, elf) as shown:
        if not awaited(shown, Look("", ("(gdb)",))):
            return False
        for look in looks:
            shown.type(look)
            if not awaited(shown, look):
                return False
    return True


def try_windows(room: str, program: str) -> tuple[int, int]:
    """How many sessions are as they should be, and of how many; those that lack a program count nothing."""
    if lacking("tmux"):
        say_left_out("GDB's windows", "tmux")
        return 0, 0
    with open(f"{room}/windows.script", "w", encoding="utf-8") as script:
        script.write(SCRIPT)
    write_symbols(room, "windows.script", "heaped")
    results = [try_looks(room, "script", f"{program} --script windows.script", "heaped.elf", OF_SCRIPT)]
    if lacking("arm-none-eabi-gcc"):
        say_left_out("the windows of a program in C", "arm-none-eabi-gcc")
    else:
        made = compiled(room, "list", "O0")
        results.append(try_looks(room, "list", f"{program} {made}.bin", f"{made}.elf", OF_LIST))
    return sum(results), len(results)
