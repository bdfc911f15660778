"""ELF files, as binutils and GDB read them."""

from __future__ import annotations

import re
import shutil
import subprocess
from pathlib import Path

import pytest

from rosm.elf import elf_of, signed_leb, unsigned_leb
from rosm.objasm import Options, assemble_files

needs_binutils = pytest.mark.skipif(shutil.which("arm-none-eabi-addr2line") is None,
                                    reason="binutils-arm-none-eabi isn't there")
MAIN = ("        GET     Macros\nstart   MOV     r0,#1\n        Twice   r1\n"
        "|a b|   DCD     start\nlast    NOP\n")
MACROS = ("; one\n; two\n; three\n; four\n        MACRO\n        Twice   $r\n        ADD     $r,$r,$r\n"
          "        NOP\n        MEND\n")


def elf(folder: Path, origin: int = 0x8000) -> str:
    (folder / "main.s").write_text(MAIN)
    (folder / "Macros").write_text(MACROS)
    program = assemble_files(Options([str(folder / "main.s"), str(folder / "Macros")], origin=origin))
    path = folder / "main.elf"
    path.write_bytes(elf_of(program))
    return str(path)


def told(*words: str, folder: Path) -> str:
    return subprocess.run(words, check=True, capture_output=True).stdout.decode().replace(f"{folder}/", "")


@needs_binutils
def test_places_are_the_sources_own(tmp_path: Path) -> None:
    """A macro's word belongs to the macro's line."""
    path = elf(tmp_path)
    addresses = ("8000", "8004", "8008", "800c", "8010")
    lines = told("arm-none-eabi-addr2line", "-e", path, *addresses, folder=tmp_path)
    assert lines.split() == ["main.s:2", "Macros:7", "Macros:8", "main.s:4", "main.s:5"]


@needs_binutils
def test_symbols(tmp_path: Path) -> None:
    shown = told("arm-none-eabi-nm", elf(tmp_path), folder=tmp_path)
    assert sorted(shown.splitlines()) == ["00008000 T start", "0000800c T a b", "00008010 T last"]


@needs_binutils
def test_the_file_is_whole(tmp_path: Path) -> None:
    path = elf(tmp_path, 0)
    shown = subprocess.run(["arm-none-eabi-readelf", "-a", "--debug-dump=line,info,abbrev", path], check=True,
                           capture_output=True)
    assert shown.stderr == b""
    subprocess.run(["arm-none-eabi-objcopy", "-O", "binary", path, str(tmp_path / "bin")], check=True)
    assert (tmp_path / "bin").read_bytes()[:4] == bytes.fromhex("0100A0E3")


@needs_binutils
def test_disassembly_knows_code_and_data(tmp_path: Path) -> None:
    shown = told("arm-none-eabi-objdump", "-d", elf(tmp_path), folder=tmp_path)
    assert re.search(r"8004:\s+e0811001\s+add\s+r1, r1, r1", shown)
    assert re.search(r"800c:\s+00008000\s+\.word\s+0x00008000", shown)


@pytest.mark.skipif(shutil.which("gdb-multiarch") is None, reason="gdb-multiarch isn't there")
def test_gdb_finds_lines(tmp_path: Path) -> None:
    path = elf(tmp_path)
    words = ["-ex", "info line last", "-ex", "info line Macros:7", "-ex", "list last", path]
    done = subprocess.run(["gdb-multiarch", "-nx", "-batch", *words], capture_output=True, check=True)
    shown = done.stdout.decode().replace(f"{tmp_path}/", "")
    assert 'Line 5 of "main.s" starts at address 0x8010 <last>' in shown
    assert 'Line 7 of "Macros" starts at address 0x8004 <start+4>' in shown
    assert "5\tlast    NOP" in shown


def test_numbers_of_dwarf() -> None:
    """DWARF 2, "Variable Length Data", its own examples."""
    assert [unsigned_leb(number) for number in (2, 127, 128, 129, 130, 12857)] == [
        b"\x02", b"\x7f", b"\x80\x01", b"\x81\x01", b"\x82\x01", b"\xb9\x64"]
    assert [signed_leb(number) for number in (2, -2, 127, -127, 128, -128, 129, -129)] == [
        b"\x02", b"\x7e", b"\xff\x00", b"\x81\x7f", b"\x80\x01", b"\x80\x7f", b"\x81\x01", b"\xff\x7e"]
