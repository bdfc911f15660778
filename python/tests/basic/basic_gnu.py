"""Bytes of GNU's assembler for the ARM2."""

from __future__ import annotations

import shutil
import subprocess
from pathlib import Path

AVAILABLE = shutil.which("arm-none-eabi-as") is not None


def gnu_bytes(text: str, folder: Path, origin: int = 0) -> bytes:
    """What GNU as and ld make of a source at an origin."""
    source, obj, linked, binary = (folder / f"gnu.{end}" for end in ("s", "o", "elf", "bin"))
    source.write_text(f"        .syntax divided\n        .text\n{text}\n", encoding="latin-1")
    _run("as", "-mcpu=arm2", "-mapcs-26", "-o", obj, source)
    _run("ld", "-Ttext", hex(origin), "-e", "0", "-o", linked, obj)
    _run("objcopy", "-O", "binary", "-j", ".text", linked, binary)
    return binary.read_bytes()


def _run(tool: str, *words: object) -> None:
    done = subprocess.run(
        [f"arm-none-eabi-{tool}", *map(str, words)], capture_output=True, text=True, check=False
    )
    assert done.returncode == 0, done.stderr[:2000]
