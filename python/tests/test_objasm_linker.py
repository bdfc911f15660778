"""The names to which a linker gives addresses: where an image's parts and its areas begin and end."""

from __future__ import annotations

from pathlib import Path

import pytest

from rosm.objasm import Options, assemble_files
from rosm.program import Program

# three instructions, five words, the pool's word: &8000 to &8024; three words to &8030; 64 bytes to &8070
SOURCE = """        AREA    Code, CODE, READONLY
        IMPORT  |Image$$RO$$Base|
        IMPORT  |Image$$RO$$Limit|
        IMPORT  |Image$$RW$$Base|
        IMPORT  |Image$$ZI$$Base|
        IMPORT  |Image$$ZI$$Limit|
        IMPORT  |Vars$$Base|
start   LDR     R0,=|Image$$RO$$Base|
        LDR     R1,here
        MOV     PC,R14
here    DCD     |Image$$RO$$Limit|, |Image$$RW$$Base|, |Vars$$Base|
        DCD     |Image$$ZI$$Base|, |Image$$ZI$$Limit|
        AREA    Vars, DATA
        DCD     1,2,3
        AREA    Zeros, DATA, NOINIT
        %       64
        END
"""


def assembled(folder: Path, source: str, **bindings: int) -> Program:
    path = folder / "p.s"
    path.write_text(source)
    return assemble_files(Options([str(path)], "p", 0x8000, bindings))


def words(program: Program, at: int, count: int) -> list[int]:
    return [int.from_bytes(program.bytes_at(at + 4 * place, 4), "little") for place in range(count)]


def test_parts_and_areas(tmp_path: Path) -> None:
    program = assembled(tmp_path, SOURCE)
    assert not program.messages.errors()
    assert words(program, 0x800C, 6) == [0x8024, 0x8024, 0x8024, 0x8030, 0x8070, 0x8000]
    assert {0x800C, 0x8010, 0x8014, 0x8018, 0x801C, 0x8020} <= set(program.relocated)


def test_a_value_from_the_command_line_counts(tmp_path: Path) -> None:
    program = assembled(tmp_path, SOURCE, **{"Image$$RO$$Base": 0x9200})
    assert words(program, 0x8020, 1) == [0x9200] and 0x8020 not in program.relocated


@pytest.mark.parametrize("name", ["Image$$RX$$Base", "Other$$Limit", "Image$$RW$$Limit", "Elsewhere"])
def test_what_no_linker_gives(tmp_path: Path, name: str) -> None:
    """Of the limit of what can be written manuals differ where there are areas with NOINIT."""
    program = assembled(tmp_path, SOURCE.replace("|Image$$ZI$$Limit|", f"|{name}|"))
    assert [message.reason.split(";")[0] for message in program.messages.errors()] == [
        "it is imported, and nothing gives it an address"]


def test_the_writable_part_ends_with_its_areas(tmp_path: Path) -> None:
    source = SOURCE.replace(", NOINIT", "").replace("ZI$$Limit", "RW$$Limit")
    assert words(assembled(tmp_path, source), 0x8018, 2) == [0x8070, 0x8070]
