"""ObjAsm's instructions beside GNU as (binutils-arm-none-eabi): random ones, and realistic sources."""

from __future__ import annotations

import random
from pathlib import Path

import pytest
from random_programs import program_pair
from random_words import HAS_GNU, ObjAsmWriter, draw, gnu_bytes, gnu_text
from rows import DATA

from rosm.objasm import Options, assemble_files

pytestmark = pytest.mark.skipif(not HAS_GNU, reason="binutils-arm-none-eabi isn't there")


def words_that_differ(count: int, seed: int, folder: Path) -> list[str]:
    """The instructions whose words differ, of so many."""
    rng = random.Random(seed)
    writer = ObjAsmWriter(rng)
    drawn = [draw(rng) for _ in range(count)]
    lines = [writer.text(item) for item in drawn]
    (folder / "s").write_text("\n".join(lines) + "\n")
    program = assemble_files(Options([str(folder / "s")]))
    assert [message.text() for message in program.messages.errors()] == []
    theirs = gnu_bytes("\n".join(gnu_text(item) for item in drawn) + "\n", folder)
    assert len(theirs) == len(program.data) == 4 * count
    return [f"{lines[place]}: {program.data[4 * place:4 * place + 4].hex()} {gnu_text(drawn[place])}"
            for place in range(count)
            if program.data[4 * place:4 * place + 4] != theirs[4 * place:4 * place + 4]]


def test_two_thousand_words(tmp_path: Path) -> None:
    assert words_that_differ(2_000, 1, tmp_path) == []


@pytest.mark.slow
@pytest.mark.parametrize("seed", range(2, 12))
def test_a_hundred_thousand_words(seed: int, tmp_path: Path) -> None:
    assert words_that_differ(10_000, seed, tmp_path) == []


SOURCES = DATA / "gnu"


@pytest.mark.parametrize("name, origin, words", [("module", 0, 150), ("features", 0x8000, 600)])
def test_source_beside_a_translation_by_hand(name: str, origin: int, words: int, tmp_path: Path) -> None:
    """Sources in the style of their time, and the same in GNU as's own macros and data."""
    paths = [str(SOURCES / f"{name}.s"), str(SOURCES / "hdr"), str(SOURCES / "h")]
    program = assemble_files(Options(paths, origin=origin))
    assert [message.text() for message in program.messages.errors()] == []
    theirs = gnu_bytes((SOURCES / f"{name}.gnu.s").read_text(), tmp_path, origin)
    lines = [(f"{row.position.short()}: {row.position.text}", program.bytes_at(row.address, row.length).hex())
             for row in program.sorted_rows()
             if program.bytes_at(row.address, row.length) !=
             theirs[row.address - origin:row.address - origin + row.length]]
    assert lines == []
    assert len(program.data) == len(theirs) > 4 * words


def upwards(theirs: bytes, ours: bytes) -> bytes:
    """GNU as's bytes, where a load from the PC with no distance counts up, and not down, as ours do."""
    out = bytearray(theirs)
    for place in range(0, min(len(theirs), len(ours)) - 3, 4):
        word, other = (int.from_bytes(data[place:place + 4], "little") for data in (theirs, ours))
        if word & 0x0F9F0FFF == 0x051F0000 | word & 0x00100000 and other == word | 1 << 23:
            out[place:place + 4] = other.to_bytes(4, "little")
    return bytes(out)


def programs_that_differ(seeds: range, steps: int, folder: Path) -> list[str]:
    """The first line that differs of each random program, if one does."""
    found = []
    for seed in seeds:
        ours, theirs = program_pair(seed, steps)
        (folder / "s").write_text(ours)
        program = assemble_files(Options([str(folder / "s")]))
        assert [message.text() for message in program.messages.errors()] == [], seed
        wanted = upwards(gnu_bytes(theirs, folder), program.data)
        assert len(wanted) > 3 * steps
        if program.data != wanted:
            row = next((row for row in program.sorted_rows() if program.bytes_at(row.address, row.length) !=
                        wanted[row.address - 0x8000:row.address - 0x8000 + row.length]), None)
            found.append(f"{seed}: {row and row.position.short()}: {row and row.position.text}")
    return found


def test_programs(tmp_path: Path) -> None:
    assert programs_that_differ(range(15), 150, tmp_path) == []


@pytest.mark.slow
def test_many_programs(tmp_path: Path) -> None:
    assert programs_that_differ(range(100, 600), 200, tmp_path) == []
