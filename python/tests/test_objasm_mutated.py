"""Sources that are changed at random: no exception, no hang, and a message wherever there are no bytes."""

from __future__ import annotations

import random
import time
from pathlib import Path

import pytest
from machine import ROOT
from rows import DATA, rows_of, trimmed

from rosm.block import block_of
from rosm.elf import elf_of
from rosm.listing import listing_of
from rosm.objasm import Options, assemble_files, control

PIECES = ["$", "$$", "|", '"', "'", "%", "&", "(", ")", "[", "]", "{", "}", "#", "^", ";", "\\", ",", "=",
          "*", ":", ":SHL:", ":DEF:", ":INDEX:", "MACRO", "MEND", "WHILE", "WEND", "IF", "ENDIF", "[ {TRUE}",
          "]", "|", "GET x", "LTORG", "AREA x, CODE", "ROUT", "10", "%BT10", "ALIGN 16", "ORG &9000", "END",
          "LDR r0,=", "DCD .", "-1", "&FFFFFFFF", "\t", " ", "\n", "\r", "\0", "\xff",
          "EQU", "SETA", "GBLA x",
          "x", "r0", "MEXIT", "LCLA x", "RN 3", "SWI \"", "ADRL r0,", "? x", "@", "4294967295", "% &FFFFFFF"]


def sources() -> list[str]:
    rows = [row for path in sorted((DATA / "objasm").glob("*.txt")) for row in rows_of(path)
            if "without an end" not in row.name and "reads itself" not in row.name]
    texts = [trimmed(row.parts["source"]) for row in rows]
    return texts + [(ROOT / "examples/old/counter.s").read_text()]


def changed(rng: random.Random, text: str) -> str:
    """A text with a few changes: pieces put in, taken away, and lines moved."""
    for _ in range(rng.randint(1, 6)):
        place = rng.randrange(len(text) + 1)
        choice = rng.randrange(5)
        if choice == 0:
            text = text[:place] + rng.choice(PIECES) + text[place:]
        elif choice == 1:
            text = text[:place] + text[place + rng.randint(1, 12):]
        elif choice == 2:
            text = text[:place] + chr(rng.randrange(256)) + text[place + 1:]
        else:
            lines = text.split("\n")
            first, second = rng.randrange(len(lines)), rng.randrange(len(lines))
            if choice == 3:
                lines.insert(first, lines[second])
            else:
                lines.insert(first, " " + rng.choice(PIECES) + " " + rng.choice(PIECES))
            text = "\n".join(lines)
    return text


def check(text: str, folder: Path) -> bool:
    """Assembles a text; whether it had errors."""
    source = folder / "s"
    source.write_text(text, encoding="latin-1", newline="")
    start = time.process_time()
    program = assemble_files(Options([str(source)]))
    assert time.process_time() - start < 20, text
    errors = program.messages.errors()
    assert bool(errors) == (not program.data), text
    for message in program.messages.items:
        assert message.position.file and message.reason and message.text(), text
    if program.data:
        assert all(row.length > 0 for row in program.rows)
        assert block_of(program) and listing_of(program) and elf_of(program)
    return bool(errors)


def run(seed: int, count: int, folder: Path, monkeypatch: pytest.MonkeyPatch) -> None:
    monkeypatch.setattr(control, "LONGEST_LOOP", 5_000)
    monkeypatch.setattr("rosm.objasm.assembler.MOST_LINES", 50_000)
    rng = random.Random(seed)
    texts = sources()
    wrong = sum(check(changed(rng, rng.choice(texts)), folder) for _ in range(count))
    assert count // 5 < wrong < count  # some are right still


def test_changed_sources(tmp_path: Path, monkeypatch: pytest.MonkeyPatch) -> None:
    run(1, 600, tmp_path, monkeypatch)


@pytest.mark.slow
@pytest.mark.parametrize("seed", range(2, 12))
def test_many_changed_sources(seed: int, tmp_path: Path, monkeypatch: pytest.MonkeyPatch) -> None:
    run(seed, 2_000, tmp_path, monkeypatch)


def test_random_bytes(tmp_path: Path) -> None:
    rng = random.Random(3)
    for size in (0, 1, 10, 100, 2000):
        for _ in range(10):
            check(bytes(rng.randrange(256) for _ in range(size)).decode("latin-1"), tmp_path)
