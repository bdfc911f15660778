"""How the time that a source takes grows with its length."""

from __future__ import annotations

import random
import time

from basic_runs import images
from basic_instructions import instruction


def seconds(count: int) -> float:
    """The processor's time for so many lines of assembler; the least of three, since other programs may slow one of them."""
    dice = random.Random(5)
    lines = ["link=14", "DIM code% 50000", "FOR pass%=0 TO 2 STEP 2", "P%=code%", "[OPT pass%"]
    lines += [f".l{place} {instruction(dice, place)[0]} ; a remark" for place in range(count)]
    text = "\n".join([*lines, "]", "NEXT"])
    used = []
    for _ in range(3):
        started = time.process_time()
        programs, messages = images(text)
        used.append(time.process_time() - started)
        assert not messages.errors() and len(programs[0].data) == 4 * count
    return min(used)


def test_ten_thousand_lines() -> None:
    """About two seconds where nothing else runs. Ten times the lines may take fifty times the time on a busy machine, not a hundred times."""
    long = seconds(10_000)
    assert long < 2 or long < 50 * seconds(1_000)
