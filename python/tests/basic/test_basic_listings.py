"""Realistic listings, whose bytes are also written for GNU as, and those of the old examples."""

from __future__ import annotations

import struct
from pathlib import Path

import pytest

from basic_gnu import AVAILABLE, gnu_bytes
from basic_runs import image, images
from rosm.objasm import Options, assemble_files

LISTINGS = Path(__file__).parent / "listings"
EXAMPLES = Path(__file__).parents[3] / "examples" / "old"
needs_gnu = pytest.mark.skipif(not AVAILABLE, reason="binutils-arm-none-eabi isn't installed")


def listing(name: str) -> str:
    return (LISTINGS / f"{name}.bas").read_text(encoding="latin-1")


def gnu(name: str, folder: Path, origin: int = 0) -> bytes:
    return gnu_bytes((LISTINGS / f"{name}.s").read_text(encoding="latin-1"), folder, origin)


@needs_gnu
def test_a_module_of_macros(tmp_path: Path) -> None:
    programs, messages = images(listing("module"))
    assert [message.text() for message in messages.items] == []
    assert [(program.name, program.origin) for program in programs] == [("Pots", 0)]
    assert programs[0].data == gnu("module", tmp_path)


@needs_gnu
def test_tables(tmp_path: Path) -> None:
    # GNU's .balign 64 counts from its section, BASIC's sum from address 0: &8F00 is a multiple of 64.
    assert image(listing("tables")) == gnu("tables", tmp_path, 0x8F00)


@needs_gnu
def test_choices(tmp_path: Path) -> None:
    text = (LISTINGS / "choices.s").read_text(encoding="latin-1")
    before = gnu_bytes(text.partition("@CHECKSUM")[0], tmp_path)
    total = 0
    for (word,) in struct.iter_unpack("<I", before):
        total ^= word
    wanted = gnu_bytes(text.replace("@CHECKSUM", f".word 0x{total:x}"), tmp_path)
    assert image(listing("choices")) == wanted


def test_the_example() -> None:
    """The module that is also written for ObjAsm has the same bytes."""
    programs, messages = images((EXAMPLES / "counter.bas").read_bytes())
    other = assemble_files(Options([str(EXAMPLES / "counter.s")], origin=0))
    assert not messages.items and not other.messages.errors()
    assert [(program.name, program.origin) for program in programs] == [("Counter", 0)]
    assert programs[0].data == other.data and len(other.data) == 212
