"""Random instructions in BASIC's spelling beside GNU as, where binutils for ARM are installed."""

from __future__ import annotations

import random
from pathlib import Path

import pytest

from basic_gnu import AVAILABLE, gnu_bytes
from basic_runs import image, images
from basic_instructions import ORIGIN, instruction
from basic_listings import listing

pytestmark = pytest.mark.skipif(not AVAILABLE, reason="binutils-arm-none-eabi isn't installed")


def differing(count: int, seed: int, folder: Path) -> list[str]:
    """The instructions of which the two assemblers make different words."""
    dice = random.Random(seed)
    pairs = [instruction(dice, place) for place in range(count)]
    listing = [
        "link=14",
        f"DIM code% {4 * count}",
        "FOR pass%=0 TO 2 STEP 2",
        "P%=code%",
        "[OPT pass%",
        *(basic for basic, _ in pairs),
        "]",
        "NEXT",
    ]
    ours = image("\n".join(listing))
    theirs = gnu_bytes("\n".join(gnu for _, gnu in pairs), folder, ORIGIN)
    assert len(ours) == len(theirs) == 4 * count
    return [
        f"{basic} | {gnu}: {ours[at:at + 4].hex()} here, {theirs[at:at + 4].hex()} there"
        for at, (basic, gnu) in zip(range(0, 4 * count, 4), pairs)
        if ours[at : at + 4] != theirs[at : at + 4]
    ]


def test_instructions(tmp_path: Path) -> None:
    assert differing(2000, 1, tmp_path) == []


@pytest.mark.slow
@pytest.mark.parametrize("seed", range(2, 12))
def test_many_instructions(seed: int, tmp_path: Path) -> None:
    assert differing(5000, seed, tmp_path) == []


def check_listings(count: int, seed: int, folder: Path) -> None:
    """Whole listings: labels in both directions, macros, loops, tables, gaps, offset assembly."""
    dice = random.Random(seed)
    for _ in range(count):
        basic, gnu, origin = listing(dice)
        programs, messages = images(basic)
        assert not messages.errors(), messages.errors()[0].text() + "\n" + basic
        assert [program.origin for program in programs] == [origin]
        assert programs[0].data == gnu_bytes(gnu, folder, origin), basic


def test_listings(tmp_path: Path) -> None:
    check_listings(25, 1, tmp_path)


@pytest.mark.slow
@pytest.mark.parametrize("seed", range(2, 12))
def test_many_listings(seed: int, tmp_path: Path) -> None:
    check_listings(50, seed, tmp_path)
