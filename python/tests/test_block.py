"""Blocks for rosm: the grammar of its assembler, odd labels, and rosm itself reading them."""

from __future__ import annotations

import random
import re
from pathlib import Path

import pytest
from machine import ROOT, code_lines, image_of, rosm_program
from rows import Row
from test_objasm_rows import ROWS, assembled

from rosm.arm2 import fault_of
from rosm.block import block_of, label_for
from rosm.messages import Position
from rosm.objasm import Options, assemble_files
from rosm.program import Label, Program
from rosm.program import Row as ProgramRow

needs_rosm = pytest.mark.skipif(rosm_program() is None, reason="rosm isn't built; ROSM names it")
LAID = [row for row in ROWS if "bytes" in row.parts]

_NAME = r"[A-Za-z_][A-Za-z0-9_]{0,62}"
_LINE = re.compile(rf"{_NAME}( ;[ -~]*)?|(?! *END)( DC[DB] (&[0-9A-F]+,)*&[0-9A-F]+)?( ;[ -~]*)?")


def check_grammar(block: str) -> None:
    """Each line but the first and the last is a label, DCD or DCB, and a comment."""
    lines = block.splitlines()
    assert re.fullmatch(r"ASM [!-~]+ &[0-9A-F]+", lines[0]) and lines[-1] == "END"
    for line in lines[1:-1]:
        assert _LINE.fullmatch(line), line
        assert line.strip().upper() != "END"


@pytest.mark.parametrize("row", LAID, ids=lambda row: row.name.replace(" ", "_"))
def test_block_is_in_the_grammar(row: Row, tmp_path: Path) -> None:
    check_grammar(block_of(assembled(row, tmp_path)))


@needs_rosm
@pytest.mark.parametrize("row", LAID, ids=lambda row: row.name.replace(" ", "_"))
def test_rosm_reads_the_block(row: Row, tmp_path: Path) -> None:
    program = assembled(row, tmp_path)
    assert image_of(block_of(program), "program", program.origin) == program.data


def program_with(labels: list[tuple[str, int]], data: bytes) -> Program:
    place = Position("s", 1, "\tDCB\t\"\xa9\x07\" ; \x01")
    return Program(0x8000, data, labels=[Label(name, address, place) for name, address in labels],
                   rows=[ProgramRow(0x8000, len(data), place)])


ODD = ["END", "end", "r0", "PC", "Sp", "1x", "a b", "a$b", "a.b", "x" * 80, "x" * 80 + "y", "MOV", "\xe9", "",
       "_", "same", "same", "DCD", "ASM"]


def test_odd_labels() -> None:
    program = program_with([(name, 0x8000 + place) for place, name in enumerate(ODD)], bytes(range(40)))
    block = block_of(program)
    check_grammar(block)
    names = [line.split(" ")[0] for line in block.splitlines()[1:-1] if line[0] != " "]
    assert len(set(names)) == len(names) == len(ODD)
    assert not any(re.fullmatch(r"(?i)r1?[0-9]|sp|lr|pc", name) for name in names)
    if rosm_program():
        assert image_of(block, "program", 0x8000) == program.data


def test_labels_outside_are_named() -> None:
    block = block_of(program_with([("before", 0x7000), ("behind", 0x9000), ("last", 0x8004)], bytes(4)))
    assert " ; before is &7000, outside the program" in block
    assert block.splitlines()[-4:-2] == ["last", " ; before is &7000, outside the program"]


def test_names_that_are_cut_stay_apart() -> None:
    used: set[str] = set()
    names = {label_for("x" * 70 + ending, used) for ending in ("a", "b", "c")}
    assert len(names) == 3 and all(len(name) <= 63 for name in names)


def test_pieces_are_cut_at_labels() -> None:
    program = program_with([("one", 0x8001), ("six", 0x8006)], bytes(range(1, 13)))
    assert [line.split(" ; ")[0] for line in block_of(program).splitlines()] == [
        "ASM program &8000", " DCB &01", "one", " DCB &02,&03,&04,&05,&06", "six", " DCB &07,&08",
        " DCD &0C0B0A09", "END"]


def words_of(data: bytes) -> list[int]:
    return [int.from_bytes(data[place:place + 4], "little") for place in range(0, len(data), 4)]


@needs_rosm
def test_disassembly_is_assembled_to_the_same_words(tmp_path: Path) -> None:
    """Random words, of which rosm prints the instructions, and which are assembled again."""
    rng = random.Random(5)
    for _ in range(3):
        words = [rng.getrandbits(32) for _ in range(1500)]
        words += [rng.getrandbits(28) | 14 << 28 for _ in range(1500)]
        lines = code_lines(words)
        assert len(lines) == len(words)
        assert [line for line, word in zip(lines, words) if line[:3] != "DCD" and fault_of(word)] == []
        (tmp_path / "s").write_text("".join(f" {line}\n" for line in lines))
        program = assemble_files(Options([str(tmp_path / "s")]))
        assert [message.text() for message in program.messages.errors()] == []
        made = words_of(program.data)
        assert [(line, f"{word:08X}", f"{other:08X}") for line, word, other in zip(lines, words, made)
                if word != other] == []


@needs_rosm
def test_a_source_goes_round(tmp_path: Path) -> None:
    """A module is assembled, read by rosm as a block, disassembled, and assembled again."""
    program = assemble_files(Options([str(ROOT / "examples/old/counter.s")], origin=0))
    assert image_of(block_of(program), "program", 0) == program.data
    lines = code_lines(words_of(program.data))
    (tmp_path / "s").write_text("".join(f" {line}\n" for line in lines))
    assert assemble_files(Options([str(tmp_path / "s")])).data == program.data
