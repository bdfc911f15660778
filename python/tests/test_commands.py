"""The commands: outputs, exit statuses, and what is wrong with a command line."""

from __future__ import annotations

import io
import os
import subprocess
import sys
from contextlib import redirect_stderr, redirect_stdout
from dataclasses import dataclass
from pathlib import Path

import pytest
from machine import ROOT

from rosm.__main__ import main
from rosm.swis import NUMBERS, swi_name, swi_number

COUNTER = str(ROOT / "examples/old/counter.s")
SMALL = "start MOV r0,#1\n DCB \"ab\",0\n ALIGN\nlast DCD start\n"


@dataclass
class Done:
    """What a command came to."""

    returncode: int
    stdout: bytes
    stderr: bytes


def rosm(*words: str, command: str = "source") -> Done:
    """Runs the package's command here."""
    streams = [io.TextIOWrapper(io.BytesIO()) for _ in range(2)]
    with redirect_stdout(streams[0]), redirect_stderr(streams[1]):
        status = main([command, *words])
    for stream in streams:
        stream.flush()
    return Done(status, *(stream.buffer.getvalue() for stream in streams))  # type: ignore[attr-defined]


def apart(*words: str, **more: str) -> subprocess.CompletedProcess[bytes]:
    """Runs the package in a process of its own."""
    environment = {**os.environ, "PYTHONPATH": str(ROOT / "python"), **more}
    return subprocess.run([sys.executable, "-m", "rosm", *words], capture_output=True, check=False,
                          env=environment)


def small(folder: Path) -> str:
    path = folder / "small.s"
    path.write_text(SMALL)
    return str(path)


def test_block(tmp_path: Path) -> None:
    done = rosm("--name", "n", "--origin", "0", small(tmp_path))
    assert done.returncode == 0 and done.stderr == b""
    assert done.stdout.decode() == ("ASM n &0\nstart\n DCD &E3A00001 ; start MOV r0,#1\n"
                                    " DCB &61,&62,&00 ; DCB \"ab\",0\n DCB &00\nlast\n"
                                    " DCD &00000000 ; last DCD start\nEND\n")


def test_binary_and_file(tmp_path: Path) -> None:
    path = tmp_path / "out"
    assert rosm("--output", "binary", "-o", str(path), small(tmp_path)).returncode == 0
    assert path.read_bytes() == bytes.fromhex("0100A0E3 61620000 00800000")


def test_listing(tmp_path: Path) -> None:
    text = rosm("--output", "listing", small(tmp_path)).stdout.decode().splitlines()
    assert text[0] == "00008000 E3A00001        1  start MOV r0,#1"
    assert text[1] == "00008004 61 62 00        2   DCB \"ab\",0"
    assert text[2:] == ["00008007 1 byte that no line made",
                        "00008008 00008000        4  last DCD start", "",
                        "Words that hold an address of the program itself, right at this origin alone",
                        "00008008", "", "Labels", "00008000 start", "00008008 last"]


def test_listing_marks_macros_lines(tmp_path: Path) -> None:
    (tmp_path / "m.s").write_text(" MACRO\n Two $r\n MOV $r,#1\n MOV $r,#2\n MEND\n Two r0\n NOP\n")
    text = rosm("--output", "listing", str(tmp_path / "m.s")).stdout.decode().splitlines()
    assert [line[21:] for line in text[:3]] == ["    3+  MOV $r,#1", "    4+  MOV $r,#2", "    7   NOP"]


def test_comparison(tmp_path: Path) -> None:
    same, other = tmp_path / "same", tmp_path / "other"
    same.write_bytes(bytes.fromhex("0100A0E3 61620000 00800000"))
    other.write_bytes(bytes.fromhex("0100A0E3 61630000 00800000 09000000"))
    done = rosm("--compare", str(same), small(tmp_path))
    assert (done.returncode, done.stdout) == (0, b"0 of 3 words differ\n")
    done = rosm("--compare", str(other), small(tmp_path))
    assert done.returncode == 1
    lines = done.stdout.decode().replace(str(tmp_path) + "/", "").splitlines()
    assert lines == ['00008004 00006261 here, 00006361 in other; small.s:2: DCB "ab",0',
                     "0000800C -------- here, 00000009 in other; no line",
                     "2 of 4 words differ; 12 bytes here, 16 there"]


def test_comparison_with_a_shorter_file(tmp_path: Path) -> None:
    (tmp_path / "short").write_bytes(bytes.fromhex("0100A0E3 61"))
    done = rosm("--compare", str(tmp_path / "short"), small(tmp_path))
    lines = done.stdout.decode().replace(str(tmp_path) + "/", "").splitlines()
    assert lines == ['00008004 00006261 here, 61 in short; small.s:2: DCB "ab",0',
                     "00008008 00008000 here, -------- in short; small.s:4: last DCD start",
                     "2 of 3 words differ; 12 bytes here, 5 there"]


def test_comparison_says_the_macro(tmp_path: Path) -> None:
    (tmp_path / "m.s").write_text(" MACRO\n One\n MOV r0,#1\n MEND\n One\n")
    (tmp_path / "o").write_bytes(bytes(4))
    done = rosm("--compare", str(tmp_path / "o"), str(tmp_path / "m.s"))
    assert "m.s:3 in One, " in done.stdout.decode() and "m.s:5: MOV r0,#1" in done.stdout.decode()


@pytest.mark.parametrize("words, status, text", [
    ((), 2, "a FILE is wanted"), (("-h",), 2, "usage: rosm_source"), (("--strange", "x"), 2, "--strange"),
    (("--origin", "3", COUNTER), 2, "a multiple of 4"), (("--origin", "x", COUNTER), 2, "no number"),
    (("--origin", "&4000000", COUNTER), 2, "a multiple of 4"), (("--bind", "x", COUNTER), 2, "NAME=VALUE"),
    (("--bind", "x=1", "--bind", "x=2", COUNTER), 2, "has a value already"),
    (("--bind", "x=&1FFFFFFFF", COUNTER), 2, "more than 32 bits"),
    (("--name", "a b", COUNTER), 2, "one word"),
    (("--output", "paper", COUNTER), 2, "paper"), (("/nowhere",), 4, "/nowhere: it can't be read"),
    (("-o", "/nowhere/x", COUNTER), 4, "/nowhere/x: No such file"),
    (("--heap", "&9000", COUNTER), 2, "--heap and --time are for listings"),
    ((str(ROOT / "examples/old/wrong.s"),), 1, "wrong.s:1: error: no instruction has the number"),
    (("--basic", "--origin", "0", COUNTER), 2, "--origin isn't for listings")])
def test_what_is_wrong(words: tuple[str, ...], status: int, text: str) -> None:
    done = rosm(*words)
    assert done.returncode == status and text in done.stderr.decode() and done.stdout == b""


def test_bindings_of_a_command_line(tmp_path: Path) -> None:
    (tmp_path / "s").write_text(" IMPORT there\n IMPORT room\n DCD there,room,n\n")
    done = rosm("--output", "binary", "--bind", "there=&9000", "--bind", "|room|=%4", "--bind", "n=-1",
                str(tmp_path / "s"))
    assert done.stdout == bytes.fromhex("00900000 0C800000 FFFFFFFF 00000000")


def test_notes_can_be_left_out(tmp_path: Path) -> None:
    (tmp_path / "s").write_text(" TTL x\n DCD 1\n")
    assert b"note: TTL" in rosm(str(tmp_path / "s")).stderr
    assert rosm("--quiet", str(tmp_path / "s")).stderr == b""


def test_run_hands_the_script_on(tmp_path: Path) -> None:
    """The launcher gets the block and the lines; its status is the command's."""
    launcher = tmp_path / "debug"
    launcher.write_text("#!/bin/sh\ncat\nexit 3\n")
    launcher.chmod(0o755)
    done = apart("run", "--origin", "0", "--name", "n", small(tmp_path), "LOAD n", "REGS",
                 ROSM_DEBUG=str(launcher))
    assert done.returncode == 3
    lines = done.stdout.decode().splitlines()
    assert lines[0] == "ASM n &0" and lines[-3:] == ["END", "LOAD n", "REGS"]
    done = apart("run", small(tmp_path), ROSM_DEBUG=str(launcher))
    assert done.stdout.decode().splitlines()[-2:] == ["BOOT program", "RUN"]


def test_a_wrong_source_isnt_run(tmp_path: Path) -> None:
    (tmp_path / "s").write_text(" FOO\n")
    done = apart("run", str(tmp_path / "s"), ROSM_DEBUG="/bin/cat")
    assert (done.returncode, done.stdout) == (1, b"")


def test_both_languages_make_the_same_module(tmp_path: Path) -> None:
    pytest.importorskip("rosm.basic")
    names = {"s": ("--origin", "0", COUNTER), "bas": (COUNTER.replace(".s", ".bas"), )}
    for name, words in names.items():
        assert rosm("--output", "binary", "-o", str(tmp_path / name), *words).returncode == 0
    assert (tmp_path / "s").read_bytes() == (tmp_path / "bas").read_bytes()


LISTINGS = ["   10 DIM code% 100\n   20 P%=code%\n   30 [OPT 2\n   40 MOV R0,#1\n   50 ]\n",
            "DIM code% 100\nP%=code%\n[OPT 2\nMOV R0,#1\n]\n"]


@pytest.mark.parametrize("text", LISTINGS)
def test_a_listing_that_isnt_said_to_be_one(text: str, tmp_path: Path) -> None:
    (tmp_path / "s").write_text(text)
    done = rosm(str(tmp_path / "s"))
    assert done.returncode == 1 and done.stdout == b""
    assert done.stderr.decode() == f"{tmp_path}/s:1: error: this is a listing in BASIC: --basic runs it\n"


# macros of these names, and what stands in a comment, make no listing of a source
MACROS = " MACRO\n DEFPROC\n MEND\n DEFPROC\n ENDPROC ; P%=code%\n ENDPROC ; [OPT 2\n"


def test_a_wrong_source_doesnt_look_like_a_listing(tmp_path: Path) -> None:
    assert b"--basic" not in rosm(str(ROOT / "examples/old/wrong.s")).stderr
    (tmp_path / "s").write_text(MACROS)
    assert b"ENDPROC: this is no instruction" in rosm(str(tmp_path / "s")).stderr


def test_what_is_no_text(tmp_path: Path) -> None:
    (tmp_path / "m,ffa").write_bytes(bytes(range(256)))
    done = rosm(str(tmp_path / "m,ffa"))
    assert done.returncode == 1 and done.stderr.decode().startswith(f"{tmp_path}/m,ffa:1: error: this is no text; ")
    assert done.stderr.count(b"\n") == 1


def test_a_message_steers_no_terminal(tmp_path: Path) -> None:
    (tmp_path / "s").write_bytes(b" FOO \x1b[2J\x07\x9b\n")
    assert rosm(str(tmp_path / "s")).stderr.decode().splitlines()[1] == r"    FOO \x1B[2J\x07\x9B"


def test_paths_of_any_bytes(tmp_path: Path) -> None:
    path = os.fsencode(tmp_path) + b"/\xff.s"
    with open(path, "w") as file:
        file.write(SMALL)
    assert apart("source", "--output", "elf", os.fsdecode(path)).stdout.count(b"\xff.s\0") == 2
    assert apart("source", "--compare", os.fsdecode(path), os.fsdecode(path)).returncode == 1


def test_commands_that_arent_there() -> None:
    assert rosm(command="nothing").returncode == 2


def test_a_pipe_that_is_closed(tmp_path: Path) -> None:
    (tmp_path / "s").write_text(" % 1000000\n")
    done = subprocess.run(f"{sys.executable} -m rosm source {tmp_path}/s | head -1", shell=True, check=False,
                          capture_output=True, env={**os.environ, "PYTHONPATH": str(ROOT / "python")})
    assert b"Traceback" not in done.stderr and b"Exception" not in done.stderr


def test_swis_of_the_kernel() -> None:
    """Programmer's Reference Manual, "List of SWIs"."""
    known = {"OS_WriteC": 0, "OS_Byte": 6, "XOS_Byte": 0x20006, "OS_Control": 0xF, "OS_ReadVarVal": 0x23,
             "OS_EvaluateExpression": 0x2D, "OS_ServiceCall": 0x30, "OS_ReadModeVariable": 0x35,
             "OS_ValidateAddress": 0x3A, "OS_WriteN": 0x46, "OS_ClaimDeviceVector": 0x4B, "OS_HeapSort": 0x4F,
             "XOS_SerialOp": 0x20057, "OS_CRC": 0x5B, "OS_SetColour": 0x61, "OS_Pointer": 0x64,
             "OS_MMUControl": 0x6B, "OS_ConvertDateAndTime": 0xC1, "OS_ConvertHex8": 0xD4,
             "OS_ConvertSpacedInteger1": 0xE5, "XOS_ConvertFileSize": 0x200EC, "OS_WriteI": 0x100,
             "Wimp_Poll": 0x400C7, "Font_Paint": 0x40086, "MessageTrans_ErrorLookup": 0x41506,
             "Hourglass_On": 0x406C0, "ColourTrans_SetGCOL": 0x40743, "Territory_Collate": 0x4305D}
    assert {name: swi_number(name) for name in known} == known
    assert all(swi_number(name) is None for name in ("OS_", "os_Byte", "XXOS_Byte", "OS_Bytes", ""))
    assert swi_name(0x600C7) == "XWimp_Poll" and swi_name(0x12A) == "OS_WriteI" and swi_name(0xFFFFF) is None
    assert len(set(NUMBERS.values())) == len(NUMBERS)
