"""Labels and lines of blocks of scripts as ELF files: the bytes, how the command ends, and which blocks it finds."""

from __future__ import annotations

import hashlib
import json
import os
import shlex
import struct
import subprocess
import sys
from pathlib import Path

import pytest

from rosm.elf import elf_of
from rosm.messages import Position
from rosm.program import Label, Program, Row
from rosm.script_blocks import LARGEST, Opener, blocks, find_block, tidied
from rosm.symbols import PRODUCER, is_code, quoted
from show.scripts import ROOT, debugger, read, text_of

USAGE = "; usage: rosm_symbols SCRIPT NAME >NAME.elf"
SCRIPT = b"""HEX bytes
00
END
ASM driver &8000
ASM inner &8000
 MOV R0,#1
END
ASM wrong &8000
 MOV R0,#1
 B nowhere
END
 asm\tuntidy   &8000 ; as a debugging script may have it
 MOV R0,#1
END
ASM empty 0
END
ASM ;odd 0
 MOV R0,#1
"""

# start MOV R0,#3; more SUBS R0,R0,#1; BNE more; text DCB "Hi",0. The file was written down from the standards.
# readelf -a and readelf --debug-dump of GNU binutils 2.40 read in it the symbols $a and start at &8000, more at
# &8004, $d and text at &800C, the lines 2 to 5 at &8000, &8004, &8008 and &800C, and the end at &800F. The
# routine start has 12 bytes, since more is a place within it.
PROGRAM = "0300a0e3010050e2fdffff1a486900"
FILE = [
    # the file's header
    "7f454c46010101000000000000000000020028000100000000800000340000005400000000000005",
    "340020000100280008000700",
    # the segment's
    "01000000f401000000800000008000000f0000000f0000000700000004000000",
    # those of sections
    "00000000000000000000000000000000000000000000000000000000000000000000000000000000",
    "01000000020000000000000000000000940100006000000003000000030000000400000010000000",
    "09000000010000000700000000800000f40100000f00000000000000000000000400000000000000",
    "0f000000030000000000000000000000030200001700000000000000000000000100000000000000",
    "170000000100000000000000000000001a0200005c00000000000000000000000100000000000000",
    "23000000010000000000000000000000760200003400000000000000000000000100000000000000",
    "2f000000010000000000000000000000aa0200001200000000000000000000000100000000000000",
    "3d000000030000000000000000000000bc0200004700000000000000000000000100000000000000",
    # symbols
    "0000000000000000000000000000000001000000008000000000000000000200040000000c800000",
    "000000000000020007000000008000000c000000100002000d000000048000000000000010000200",
    "120000000c8000000000000010000200",
    # program
    "0300a0e3010050e2fdffff1a486900",
    # names
    "002461002464007374617274006d6f7265007465787400",
    # lines
    "580000000200200000000101fb0e0a00010101010000000100636f756e742e736372697074000000",
    "00000005020080000003010100050204800000030101000502088000000301010005020c80000003",
    "01010005020f800000000101",
    # unit
    "30000000020000000000040100000000008000000f800000636f756e742e73637269707400726f73",
    "6d5f73796d626f6c73000180",
    # its forms
    "011100100611011201030825081305000000",
    # names of sections
    "002e73796d746162002e74657874002e737472746162002e64656275675f6c696e65002e64656275",
    "675f696e666f002e64656275675f616262726576002e736873747274616200",
]
ENDINGS: list[tuple[list[str | bytes], int, str]] = [
    (["--help"], 2, "SCRIPT is the file of a script, NAME an ASM block of it" + USAGE),
    (["--", "--help"], 2, "a SCRIPT and a NAME are needed" + USAGE),
    (["script"], 2, "a SCRIPT and a NAME are needed" + USAGE),
    (["script", "driver", "more"], 2, "unexpected argument 'more' found" + USAGE),
    (["--bogus=1", "script"], 2, "unexpected argument '--bogus' found" + USAGE),
    (["--help=1"], 2, "unexpected value '1' for '--help' found; no more were expected" + USAGE),
    (["-xy"], 2, "unexpected argument '-x' found" + USAGE),
    ([b"caf\xe9", "driver"], 2, "a word is not text in UTF-8" + USAGE),
    (["gone", "a b"], 2, "NAME is the name of an image: 1 to 63 bytes from ! to ~, and no space"),
    (["gone", "n" * 64], 2, "NAME is the name of an image: 1 to 63 bytes from ! to ~, and no space"),
    (["gone", "driver"], 4, '"gone": no such file'),
    (["", "driver"], 4, '"": no such file'),
    (["--", "-\n\"", "driver"], 4, '"-\\n\\"": no such file'),
    (["folder", "driver"], 4, '"folder": can\'t be read'),
    (["large", "driver"], 4, '"large": a script has at most 1048576 bytes'),
    (["script", "other"], 2, "no ASM block is named other"),
    (["script", "DRIVER"], 2, "no ASM block is named DRIVER"),
    (["script", "bytes"], 2, "no ASM block is named bytes"),
    (["script", "inner"], 2, "no ASM block is named inner"),
    (["script", "driver"], 2, "asm driver: line 1: Syntax"),
    (["script", "wrong"], 2, "asm wrong: line 2: UnknownLabel"),
]


def symbols(words: list[str | bytes], room: Path, at: Path | None = None,
            **rest: object) -> "subprocess.CompletedProcess[bytes]":
    """What the command does, in a folder that has rosm_debug, or elsewhere."""
    environment = {**os.environ, "PYTHONPATH": str(ROOT / "python"), "ROSM_DEBUG": str(room / "rosm_debug")}
    return subprocess.run([sys.executable, "-m", "rosm", "symbols", *words], cwd=at or room, env=environment,
                          check=False, **({"capture_output": True} | rest))  # type: ignore[call-overload, no-any-return]


@pytest.fixture(scope="module")
def folder(tmp_path_factory: pytest.TempPathFactory) -> Path:
    made = tmp_path_factory.mktemp("symbols")
    (made / "script").write_bytes(SCRIPT)
    (made / "large").write_bytes(bytes(LARGEST + 1))
    (made / "folder").mkdir()
    (made / "rosm_debug").write_text(f"#!/bin/sh\nexec {shlex.join(debugger())} \"$@\"\n")
    (made / "rosm_debug").chmod(0o755)
    return made


def test_a_file_that_readelf_was_asked_about() -> None:
    rows = [Row(0x8000, 4, Position("count.script", 2), True), Row(0x8004, 4, Position("count.script", 3), True),
            Row(0x8008, 4, Position("count.script", 4), True), Row(0x800C, 3, Position("count.script", 5))]
    labels = [Label(name, address, Position("count.script", 0))
              for name, address in (("start", 0x8000), ("more", 0x8004), ("text", 0x800C))]
    program = Program(0x8000, bytes.fromhex(PROGRAM), path="count.script", labels=labels, rows=rows)
    assert elf_of(program, PRODUCER) == bytes.fromhex("".join(FILE))


@pytest.mark.parametrize("words, status, said", ENDINGS)
def test_endings(words: list[str | bytes], status: int, said: str, folder: Path) -> None:
    done = symbols(words, folder)
    assert (done.stdout, done.stderr.decode(), done.returncode) == (b"", f"rosm_symbols: {said}\n", status)


def test_output_that_cant_be_written(folder: Path) -> None:
    with open("/dev/full", "wb") as full:
        done = symbols(["script", "untidy"], folder, capture_output=False, stdout=full, stderr=subprocess.PIPE)
    assert (done.stderr, done.returncode) == (b"rosm_symbols: the output can't be written\n", 4)


def test_blocks_of_odd_forms(folder: Path) -> None:
    for name in ("untidy", "empty", ";odd"):
        done = symbols(["script", name], folder)
        assert (done.stderr, done.returncode) == (b"", 0)
        assert done.stdout.startswith(b"\x7fELF") and done.stdout.count(b"script\0") == 2


def test_a_script_without_an_end_of_its_last_line(folder: Path) -> None:
    """A return is a byte of a line that has no line feed: no blank, but it may stand in a comment."""
    for text, status, said in ((b" DCD 1\r", 2, b"rosm_symbols: asm a: line 1: Syntax\n"), (b" DCD 1 ; one\r", 0, b""),
                               (b" DCD 1\nEND", 0, b"")):
        (folder / "returns").write_bytes(b"ASM a &8000\n" + text)
        done = symbols(["returns", "a"], folder)
        assert (done.returncode, done.stderr) == (status, said)


def test_a_large_image(folder: Path) -> None:
    """Of more bytes than programs have where no size is given."""
    (folder / "wide").write_text("ASM wide &8000\n SPACE 1048570\n DCB \"ROSM\"\nEND\n")
    done = symbols(["wide", "wide"], folder)
    assert done.returncode == 0
    assert done.stdout.count(bytes(1_048_570) + b"ROSM") == 1


def kept() -> list[tuple[str, str, str]]:
    """Blocks with the digest of the file that the program in Rattle wrote that stood here before this one."""
    lines = (ROOT / "python/tests/data/symbols.txt").read_text().splitlines()
    return [(path, name, digest) for digest, path, name in (line.split() for line in lines if line[0] != "#")]


def without_sizes(data: bytes) -> bytes:
    """An ELF file whose symbols have no size ("Symbol Table" in the System V ABI), as that program wrote it."""
    out, headers = bytearray(data), int.from_bytes(data[32:36], "little")
    for number in range(int.from_bytes(data[48:50], "little")):
        kind, _, _, place, length = struct.unpack_from("<5I", data, headers + 40 * number + 4)
        for entry in range(place, place + length, 16) if kind == 2 else ():
            out[entry + 8:entry + 12] = bytes(4)
    return bytes(out)


def test_files_are_as_they_were(folder: Path) -> None:
    wrong = []
    for path, name, digest in kept():
        done = symbols([path, name], folder, ROOT)
        if hashlib.sha256(without_sizes(done.stdout)).hexdigest() != digest:
            wrong.append((path, name, done.stderr))
    assert wrong == []


# blocks that came when that program was no more; GNU binutils read files of random programs in tools/symbols_beside_gnu
LATER = {("examples/debug/best-fit.script", "holes")} | {
    (f"examples/riscos/{name}.script", name)
    for name in ("commands", "convert", "environment", "input", "output", "sort", "strings", "system", "vectors")
} | {
    (f"examples/riscos/programs/{script}.script", name)
    for script, names in (("clicker", "clicker keys"), ("later", "later user"), ("pots", "pots keeper"))
    for name in names.split()
} | {
    (f"examples/riscos/programs/{name}.script", name)
    for name in ("hexdump", "messages", "move", "options", "plotter", "sorted", "texts")
}


def test_every_block_of_the_examples_is_compared() -> None:
    found = [(str(path.relative_to(ROOT)), block.opener.name.decode())
             for path in sorted((ROOT / "examples").rglob("*.script"))
             for block in blocks(path.read_bytes()) if block.opener.is_asm]
    assert set(found) == {(path, name) for path, name, _ in kept()} | LATER


@pytest.mark.parametrize("group", ["assembler", "debug", "malformed"])
def test_blocks_are_those_of_the_program(group: str) -> None:
    """Lines that open blocks, and the lines in them, as the records have them."""
    compared = 0
    for path in sorted((ROOT / "transcripts" / group).rglob("*.txt")):
        transcript = read(text_of(path))
        if transcript.images:
            continue
        done = subprocess.run([*debugger(), "--json", *transcript.options], input=transcript.script,
                              capture_output=True, check=False)
        records = [json.loads(line) for line in done.stdout.splitlines()]
        lines = [record for record in records if "line" in record and record.get("repeat", 1) == 1]
        last = max((record["line"] for record in lines), default=0)
        seen = [(record["line"] + 1, [line.encode("latin-1") for line in record["block"]])
                for record in lines if "block" in record]
        # the records have the END of a block too
        found = [(block.first, [*block.lines, *block.text.split()[-1:]] if block.has_end else list(block.lines))
                 for block in blocks(transcript.script) if block.first - 1 <= last]
        assert found == seen, path.name
        compared += len(found)
    assert compared > 5


def test_lines_made_tidy() -> None:
    assert tidied(b"  ASM\ta \t &8000 ; a note") == b"ASM a &8000"
    assert tidied(b'EXPECT OUTPUT "a ; \\" b"  ;c') == b'EXPECT OUTPUT "a ; \\" b"'
    assert tidied(b"a;b ;c") == b"a;b" and tidied(b"; all") == b"" and tidied(b'"a') == b'"a'


def test_blocks_by_their_text() -> None:
    names = [(block.opener, block.first, block.has_end) for block in blocks(SCRIPT)]
    assert names == [(Opener(False, b"bytes"), 2, True), (Opener(True, b"driver"), 5, True),
                     (Opener(True, b"wrong"), 9, True), (Opener(True, b"untidy"), 13, True),
                     (Opener(True, b"empty"), 16, True), (Opener(True, b";odd"), 18, False)]
    for line in (b"ASM a 2", b"ASM a &4000000", b"ASM a", b"HEX", b"ASM a b", b"TRACE ASM a 0", b"REPEAT 2 HEX a",
                 b"ASM " + b"n" * 64 + b" 0", b"ASM a -4"):
        assert find_block(line + b"\nEND\n", b"a") is None
    found = find_block(b"ASM a &3FFFFFC\r\n B a\r\nend\r\nASM a 0\nEND", b"a")
    assert found and found.lines == (b" B a", ) and found.text == b"ASM a &3FFFFFC\r\n B a\r\nend\r\n"


def test_instructions_and_directives() -> None:
    assert all(map(is_code, (b" MOV R0,#1", b"dcd MOV R0,#1", b"label DCDX 1")))
    assert not any(map(is_code, (b" DCD 1", b"a dcb 1", b"a  SPACE 4 ; b", b" align")))


def test_paths_between_quotes() -> None:
    assert quoted('a"b\\\t\x7f\u00e9e\u0301') == '"a\\"b\\\\\\t\\u{7f}\u00e9e\\u{301}"'
