"""The real GDB as tools/try_gdb runs it: the sessions of tools/gdb_sessions, the programs that they debug, and what
GDB prints in them."""
from __future__ import annotations

import os
import pathlib
import re
import shutil
import subprocess
from dataclasses import dataclass

ROOT = pathlib.Path(__file__).resolve().parent.parent
SESSIONS = ROOT / "tools/gdb_sessions"
GDB = "gdb-multiarch"
# the settings that a user gives GDB, of the file that docs/GDB.md names; nobody is there to turn pages
SETTINGS = ("-nx", "-ex", "set pagination off", "-x", f"{ROOT}/examples/c/rosm.gdb")
# the package of Debian that has a program
PACKAGES = {
    GDB: "gdb-multiarch",
    "arm-none-eabi-gcc": "gcc-arm-none-eabi",
    "arm-none-eabi-as": "binutils-arm-none-eabi",
    "make": "make",
    "socat": "socat",
    "tmux": "tmux",
}
FLAGS = "-g -std=c11 -march=armv4 -marm -mno-thumb-interwork -mfloat-abi=soft -ffreestanding -ffixed-r9 -ffixed-r10"
FLAGS += " -fno-common -fno-tree-loop-distribute-patterns -nostdlib -Wl,--fix-v4bx,--defsym=app_pages=64"
# the C program of a session that has one, and the levels at which it is compiled
PROGRAMS = {
    "again": ("list", ["O0"]),
    "back-called": ("twice", ["O0"]),
    "back-calls": ("list", ["O0", "O1"]),
    "back-direction": ("list", ["O0"]),
    "back-recursion": ("twice", ["O0"]),
    "back-stored": ("list", ["O0"]),
    "back-watch": ("list", ["O0", "O1"]),
    "busy": ("busy", ["O0"]),
    "elf": ("list", ["O0"]),
    "list": ("list", ["O0", "Og"]),
    "list-lean": ("list", ["O2"]),
    "load": ("list", ["O0"]),
    "load-alone": ("list", ["O0"]),
    "loaded": ("list", ["O0"]),
    "rebuilt": ("list", ["O0"]),
    "refused": ("list", ["O0"]),
    "refused-place": ("list", ["O0"]),
    "refused-read": ("list", ["O0"]),
    "returned": ("sums", ["O0"]),
    "stay": ("list", ["O0", "O1"]),
    "sums": ("sums", ["O0"]),
    "watch": ("list", ["O0"]),
    "watch-lean": ("list", ["O1"]),
    "writes": ("list", ["O0"]),
}
# the sessions in which the program can be run again, and those in whose folder another build of it lies
EXTENDED = ("again", "killed", "load-alone", "loaded", "rebuilt", "script-again", "signalled")
REBUILT = ("loaded", "rebuilt")
OTHER = ("other", ("300", "302"))
# the blocks of a session's script whose labels and lines GDB gets, the first from the start
SYMBOLS = {"gate": ["driver", "counter"], "lines": ["driver", "counter"], "woken": ["woken"]}
# more words for the program: lines of a script that take some seconds have to have the steps, and a run stays at its end
WORDS = {"slow": " --budget 1000000000", "stay": " --stay"}
# the sessions that have a module's symbols: the source for GNU as, and the file in which GDB looks for them
COUNTER = ("counter.s", "Counter.elf")
LIBRARIES = {"back-modules": COUNTER, "libraries": COUNTER, "loads": COUNTER, "tidied": COUNTER}
# a session that has the symbols of a module's block in that file
TITLED = {"titled": ("counter", "Counter.elf")}
# the sessions on the machine of another one's script
SCRIPTS = {"back-modules": "loads", "jumped": "halted", "killed": "halted", "signalled": "halted", "titled": "libraries"}
# lines that are left out: with no program GDB warns that it has none, and of a module that it has no symbols
UNTOLD = (
    "warning: No exec",
    "determining exec",
    "Transfer rate: ",
    "warning: remote target does not support file",
    "warning: Could not load shared library",
    'Do you need "set solib-search-path"',
)


@dataclass(frozen=True)
class Prepared:
    """A session whose files lie in a folder: the command that runs its machine, how GDB connects, and its ELF files."""

    command: str
    kind: str
    elf: tuple[str, ...]


def lacking(*programs: str) -> str:
    """The packages of the programs that aren't installed here; nothing where all are."""
    return ", ".join(sorted({PACKAGES[it] for it in programs if not shutil.which(it)}))


def needed(name: str) -> tuple[str, ...]:
    """The programs that a session takes besides GDB."""
    if name in PROGRAMS:
        return ("arm-none-eabi-gcc",)
    return ("arm-none-eabi-as",) if name in LIBRARIES else ()


def say_left_out(what: str, *programs: str) -> None:
    print(f"try_gdb: left out: {what}, for lack of {lacking(*programs)}")


def compiled(room: str, name: str, level: str) -> str:
    """Compiles a program in C at a level, and answers the name of its ELF without the suffix."""
    for file in ("rosm.h", "rosm.ld", "start.s", "list.c"):
        shutil.copyfile(ROOT / "examples/c" / file, f"{room}/{file}")
    for file in ("busy.c", "sums.c", "twice.c"):
        shutil.copyfile(SESSIONS / file, f"{room}/{file}")
    source = pathlib.Path(room, "list.c").read_text(encoding="utf-8")
    pathlib.Path(room, f"{OTHER[0]}.c").write_text(source.replace(*OTHER[1]), encoding="utf-8")
    made = f"{name}-{level}"
    words = [*FLAGS.split(), f"-{level}", "-T", "rosm.ld", "-o", f"{made}.elf", "start.s", f"{name}.c"]
    subprocess.run(["arm-none-eabi-gcc", *words], cwd=room, check=True, stderr=subprocess.DEVNULL)
    subprocess.run(["arm-none-eabi-objcopy", "-O", "binary", f"{made}.elf", f"{made}.bin"], cwd=room, check=True)
    return made


def write_symbols(room: str, script: str, block: str, made: str = "") -> None:
    """Writes the ELF file of a block of a script, by the launcher of this folder."""
    with open(f"{room}/{made or f'{block}.elf'}", "wb") as elf:
        subprocess.run([f"{ROOT}/rosm_symbols", script, block], cwd=room, stdout=elf, check=True)


def assembled(room: str, source: str, made: str) -> None:
    """Assembles a module in GNU as's language, into an ELF whose addresses count from the module's begin."""
    shutil.copyfile(SESSIONS / source, f"{room}/{source}")
    subprocess.run(["arm-none-eabi-as", "-march=armv2", "-g", "-o", "module.o", source], cwd=room, check=True)
    subprocess.run(["arm-none-eabi-ld", "-Ttext", "0", "-e", "0", "-o", made, "module.o"], cwd=room, check=True)


def prepared(room: str, name: str, level: str | None, program: str) -> Prepared:
    """Writes the files of a session to a folder."""
    kind = "extended-remote" if name in EXTENDED else "remote"
    if level:
        if name in REBUILT:
            compiled(room, OTHER[0], level)
        made = compiled(room, PROGRAMS[name][0], level)
        # GDB must have come to listen before the program, which ends at once, leaves it
        targets = {"load": program, "load-alone": program, "elf": f"{program} {made}.elf; sleep 1"}
        return Prepared(targets.get(name, f"{program}{WORDS.get(name, '')} {made}.bin"), kind, (f"{made}.elf",))
    shutil.copyfile(SESSIONS / f"{SCRIPTS.get(name, name)}.script", f"{room}/{name}.script")
    blocks = SYMBOLS.get(name, [])
    for block in blocks:
        write_symbols(room, f"{name}.script", block)
    if name in LIBRARIES:
        assembled(room, *LIBRARIES[name])
    if name in TITLED:
        write_symbols(room, f"{name}.script", *TITLED[name])
    if name == "gate" and not os.path.islink(f"{room}/gdb_frames.py"):
        os.symlink(f"{ROOT}/python/gdb_frames.py", f"{room}/gdb_frames.py")
    command = f"{program}{WORDS.get(name, '')} --script {name}.script"
    return Prepared(command, kind, tuple(f"{it}.elf" for it in blocks[:1]))


def cleared(room: str, name: str) -> None:
    """Takes away the file of a session that another one would find."""
    for it in (LIBRARIES, TITLED):
        if name in it:
            os.remove(f"{room}/{it[name][1]}")


def tidied(text: str) -> str:
    """What GDB printed, without what differs from host to host."""
    text = re.sub(r"/\S*/(\w[\w.-]*\.(?:gdb|elf|c|s|h)\b)", r"\1", text)
    lines = (line.rstrip() for line in text.splitlines())
    return "\n".join(it for it in lines if not it.startswith(UNTOLD)) + "\n"


def said(room: str, connection: str, script: str, elf: tuple[str, ...] = ()) -> str:
    """What GDB prints in a session: how it is connected is what stands behind its word `target`."""
    command = [GDB, *SETTINGS, "-batch", "-ex", f"target {connection}", "-x", script, *elf]
    out, both = subprocess.PIPE, subprocess.STDOUT
    ran = subprocess.run(command, cwd=room, stdin=subprocess.DEVNULL, stdout=out, stderr=both, timeout=300, check=False)
    return tidied(ran.stdout.decode(errors="replace"))


def kept_file(name: str, level: str | None) -> pathlib.Path:
    return SESSIONS / f"{name}{f'-{level}' if level else ''}.txt"


def is_same(name: str, text: str, kept: str) -> bool:
    if text == kept:
        return True
    print(f"try_gdb: {name} differs; GDB said\n{text}")
    return False
