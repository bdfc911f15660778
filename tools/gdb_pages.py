"""What docs/GDB.md shows, held with the real GDB: its lines are typed in their order, and what stands under a line
`(gdb) ..` must be among what GDB prints to it, in its order, blanks as one. The settings for an editor are tried by the
machine interface. tools/try_gdb calls it.

A block of a page is a number of lines that stand indented. Where it has no line for GDB its lines are the shell's.
Where it has some, those before them are the shell's, but for the one that starts GDB. GDB goes on up to the next one
that is started, and to the section's end."""
from __future__ import annotations

import json
import pathlib
import re
import subprocess
from collections.abc import Iterator
from dataclasses import dataclass, field

from gdb_ports import Client
from gdb_under_test import GDB, ROOT, lacking, say_left_out, tidied

PAGE = ROOT / "docs/GDB.md"
PROMPT = "(gdb) "
# what begins a line in which GDB says that it couldn't do what was asked
FAULTS = ("No symbol \"", "Undefined", "Cannot ", "No such", "The program is not being run", "Error in", "Invalid")
# a program that calls a macro of another file, whose third line it is at which GDB stops
OLD_SOURCE = {
    "prog.s": "        GET     Macros\nstart   MOV     R0,#1\n        DOUBLE  R0\n        SWI     &11\n        END\n",
    "Macros": "        MACRO\n        DOUBLE  $r\n        ADD     $r,$r,$r\n        MEND\n",
}
COUNTER = (
    "cp tools/gdb_sessions/counter.s .",
    "arm-none-eabi-as -march=armv2 -g -o counter.o counter.s",
    "arm-none-eabi-ld -Ttext 0 -e 0 -o Counter.elf counter.o",
)
MODULE = (
    "cp tools/gdb_sessions/module.script .",
    "./rosm_symbols module.script driver >driver.elf",
    "gdb-multiarch -x examples/c/rosm.gdb -ex 'target remote | ./rosm_gdb --script module.script' driver.elf",
)
LIST = ("cp -r examples/c mine", "cd mine", "make -B LEVEL=-O0")
CONNECTED = "gdb-multiarch -x rosm.gdb -ex 'target remote | ../rosm_gdb list.bin' list.elf"


@dataclass(frozen=True)
class Section:
    """A section whose lines are held, and what a reader has done before it: lines of the shell, and then of GDB."""

    title: str
    shell: tuple[str, ...] = ()
    gdb: tuple[str, ...] = ()
    files: dict[str, str] = field(default_factory=dict)
    takes: tuple[str, ...] = ()


IN_C = ("arm-none-eabi-gcc", "make")
EDITOR = Section("Visual Studio Code", LIST, takes=IN_C)
SECTIONS = (
    Section("Five minutes to a line of C", takes=IN_C),
    Section("Five minutes to a line of assembler"),
    Section("Five minutes to a line of a module"),
    Section("Five minutes to a line of an old source", files=OLD_SOURCE),
    Section("The machine's own lines: `monitor`", MODULE),
    Section("Modules as shared libraries", COUNTER, takes=("arm-none-eabi-as",)),
    Section("Back", (*LIST, CONNECTED), ("break 62", "continue"), takes=IN_C),
    Section("Run it again", (*LIST, "gdb-multiarch -x rosm.gdb list.elf"), takes=IN_C),
)
# the section whose lines need a screen: tools/gdb_windows.py
IN_WINDOWS = "The source in a window"


def section_of(page: str, title: str) -> str:
    """The text of a section, without its title."""
    return page.split(f"\n## {title}\n", 1)[1].split("\n## ", 1)[0]


def blocks_of(text: str) -> Iterator[list[str]]:
    """The indented blocks of a text, without what they are indented by: four columns, or eight in a list."""
    block: list[str] = []
    is_list = False
    for line in [*text.splitlines(), "end"]:
        is_list = (is_list or line[:3].rstrip(". ").isdigit()) and not (line[:1].strip() and not line[0].isdigit())
        indent = " " * (8 if is_list else 4)
        if line.startswith(indent):
            block.append(line.removeprefix(indent))
        elif block and line:
            yield block
            block = []


class Reader:
    """Somebody who types what the page says, in a folder of their own."""

    def __init__(self, room: pathlib.Path, program: str) -> None:
        self.top = self.folder = room
        self.client: Client | None = None
        self.shown, self.good = "", True
        for name in ("examples", "tools", "python", "rosm_symbols", "rosm_source", "rosm_debug"):
            (room / name).symlink_to(ROOT / name)
        launcher = room / "rosm_gdb"
        launcher.write_text(f'#!/bin/sh\nexec {program} "$@"\n', encoding="utf-8")
        launcher.chmod(0o755)

    def complain(self, text: str) -> None:
        print(f"try_gdb: {PAGE.name}: {text}")
        self.good = False

    def type_in_shell(self, line: str) -> None:
        words = line.split()
        if words[0] == "cd":
            self.folder = self.folder / words[1]
        elif words[0] == GDB:
            self.start(line)
        elif words[0] == "set":
            self.look_for_setting(line)
        else:
            ran = subprocess.run(["sh", "-c", line], cwd=self.folder, capture_output=True, text=True, check=False)
            if ran.returncode:
                self.complain(f"{line} ended with status {ran.returncode}: {ran.stderr}")

    def look_for_setting(self, line: str) -> None:
        """A setting of GDB's is one of the file that the page names."""
        if line not in (ROOT / "examples/c/rosm.gdb").read_text(encoding="utf-8").splitlines():
            self.complain(f"{line} isn't in rosm.gdb")

    def start(self, line: str) -> None:
        self.end()
        self.client = Client(str(self.folder), command=["sh", "-c", f"exec {line.replace(GDB, f'{GDB} -nx -q', 1)}"])
        self.type_in_gdb("set pagination off")

    def type_in_gdb(self, line: str) -> None:
        if not self.client:
            self.complain(f"no GDB for {line}")
            return
        self.shown = tidied(self.client.ask(line))
        for row in self.shown.splitlines():
            if row.startswith(FAULTS):
                self.complain(f"{line} is answered {row}")

    def expect(self, line: str) -> None:
        """A line must be among those that the last one was answered, behind the one before."""
        rows = [" ".join(row.split()) for row in self.shown.splitlines()]
        wanted = " ".join(line.split())
        if wanted not in rows:
            self.complain(f"GDB didn't print {wanted!r}, but\n{self.shown}")
            return
        self.shown = "\n".join(rows[rows.index(wanted) + 1 :])

    def read(self, block: list[str]) -> None:
        is_gdb = False
        for line in block:
            if line.startswith(PROMPT):
                is_gdb = True
                self.type_in_gdb(line.removeprefix(PROMPT))
            elif is_gdb:
                self.expect(line)
            elif line.strip():
                self.type_in_shell(line)

    def end(self) -> None:
        if self.client:
            self.client.end()
        self.client = None


def begun(room: pathlib.Path, section: Section, program: str) -> Reader:
    """A reader who has done what comes before a section."""
    room.mkdir()
    reader = Reader(room, program)
    for name, text in section.files.items():
        (room / name).write_text(text, encoding="utf-8")
    for line in section.shell:
        reader.type_in_shell(line)
    for line in section.gdb:
        reader.type_in_gdb(line)
    return reader


def try_section(room: pathlib.Path, page: str, section: Section, program: str) -> bool:
    """Whether what a section shows is so."""
    reader = begun(room, section, program)
    for block in blocks_of(section_of(page, section.title)):
        reader.read(block)
    reader.end()
    return reader.good


def try_editor(room: pathlib.Path, page: str, section: Section, program: str) -> bool:
    """Whether the settings for an editor lead to a stop at a break. It gives GDB commands that begin with `-` as they
    are, and others as lines of its own language."""
    reader = begun(room, section, program)
    text = "\n".join(next(blocks_of(section_of(page, section.title))))
    asked = json.loads(text.replace("${workspaceFolder}", str(reader.folder)))["configurations"][0]
    client = Client(asked["cwd"], command=[asked["miDebuggerPath"], "-nx", "-q", "--interpreter=mi3", asked["program"]])
    for setting in [*asked["setupCommands"], *asked["customLaunchSetupCommands"]]:
        line = setting["text"]
        client.send(line if line.startswith("-") else f'-interpreter-exec console "{line}"')
        answer = client.until(b"^done", seconds=30)
        if "^done" not in answer:
            reader.complain(f"{line} is answered {answer}")
    for line, wanted in (("-break-insert insert", 'func="insert"'), ("-exec-continue", 'reason="breakpoint-hit"')):
        client.send(line)
        if wanted not in (answer := client.until(wanted.encode(), seconds=30)):
            reader.complain(f"{line} is answered {answer}")
    client.end()
    return reader.good


def are_all_known(page: str) -> bool:
    """Whether each section of the page that has a line for GDB is tried."""
    known = {IN_WINDOWS, EDITOR.title, *(section.title for section in SECTIONS)}
    parts = (part.split("\n", 1) for part in page.split("\n## ")[1:])
    unknown = [title for title, text in parts if re.search(r"^ +\(gdb\) ", text, re.M) and title not in known]
    if unknown:
        print(f"try_gdb: {PAGE.name}: nothing tries the lines of {', '.join(unknown)}")
    return not unknown


def try_pages(room: str, program: str) -> tuple[int, int]:
    """How many sections are as they should be, and of how many; those that lack a program count nothing."""
    page = PAGE.read_text(encoding="utf-8")
    results = [are_all_known(page)]
    for number, section in enumerate((*SECTIONS, EDITOR)):
        attempt = try_editor if section is EDITOR else try_section
        if lacking(*section.takes):
            say_left_out(f"{PAGE.name}, {section.title}", *section.takes)
        else:
            results.append(attempt(pathlib.Path(room, f"page-{number}"), page, section, program))
    return sum(results), len(results)
