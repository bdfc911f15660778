"""The program rosm, for tests that let it read blocks: ROSM, or what stands built in this repository."""

from __future__ import annotations

import os
import re
import subprocess
from pathlib import Path

ROOT = Path(__file__).resolve().parents[2]


def rosm_program() -> str | None:
    """The path of rosm, or None where it isn't built."""
    places = [os.environ.get("ROSM", ""), str(ROOT / "crates/rosm/out/rosm"), str(ROOT / "out/unproved/rosm")]
    return next((place for place in places if place and os.access(place, os.X_OK)), None)


def answers(script: str) -> list[str]:
    """What rosm answers to a script."""
    program = rosm_program()
    assert program
    done = subprocess.run([program], input=script.encode(), capture_output=True, check=False)
    return done.stdout.decode("latin-1").splitlines()


def image_of(block: str, name: str, origin: int) -> bytes:
    """The bytes that rosm's own assembler makes of a block at &8000, or of one at 0."""
    head = answers(block)[0]
    found = re.fullmatch(rf"asm {re.escape(name)}: (\d+) bytes", head)
    assert found, head
    size = int(found[1])
    script = block + f"BOOT {name}\n" + "".join(
        f"MEM &{0x8000 + place:X} 4096\n" for place in range(0, size, 4096))
    shown = [line.split(": ")[1] for line in answers(script) if re.match(r"[0-9A-F]{8}: ", line)]
    return bytes.fromhex(" ".join(shown).replace("--", ""))[:size]


def code_lines(words: list[int]) -> list[str]:
    """The disassembly of words at &8000, line by line, without addresses and words."""
    block = "ASM p &8000\n" + "".join(f" DCD &{word:X}\n" for word in words) + "END\nBOOT p\n"
    script = block + "".join(f"CODE &{0x8000 + 4 * place:X} {min(1024, len(words) - place)}\n"
                             for place in range(0, len(words), 1024))
    return [line[18:] for line in answers(script) if re.match(r"[0-9A-F]{8} [0-9A-F]{8} ", line)]
