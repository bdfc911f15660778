"""All examples, line by line: what a History has after each is what the machine itself shows."""

from __future__ import annotations

import random
import re
from pathlib import Path
from typing import Any

import pytest
from library import lines_of_script, needs_library, scripts

from rosm.machine.history import FLAGS, History
from rosm.machine.session import Line, MachineError, Session
from rosm.native import library_engine

pytestmark = needs_library
ALIKE = re.compile(r"(R\d+) +([0-9A-F]{8})")


def all_state(history: History, moment: int) -> dict[str, Any]:
    """All that can be asked of a moment."""
    heaps = history.heaps(moment).heaps
    words = {at: history.word(at, moment) for at in history.words}
    return {"regs": {name: cell.at(moment) for name, cell in history.registers.items()},
            "flags": {name: history.flags[name].at(moment) for name in FLAGS},
            "mode": history.mode.at(moment), "pc": history.pc.at(moment), "output": history.output(moment),
            "words": {at: word for at, word in words.items() if word},
            "heaps": {start: (heap.base, heap.end, heap.items) for start, heap in heaps.items()},
            "areas": history.whole["areas"].at(moment), "modules": history.whole["modules"].at(moment),
            "flex": history.flex.at(moment), "store": history.whole["flex_store"].at(moment),
            "frames": history.frames.at(moment), "mapped": history.mapped(moment)}


def lines_of(path: Path) -> list[Line]:
    found = lines_of_script(path.read_text())
    return [line for line in found if line.text.strip().upper() != "QUIT"]


@pytest.mark.parametrize("path", scripts(), ids=lambda path: path.stem)
def test_line_by_line_as_in_one_go(path: Path) -> None:
    lines = lines_of(path)
    whole, parts = Session(library_engine), Session(library_engine)
    whole.do(*lines, is_strict=False)
    numbers = random.Random(path.stem)
    place = 0
    while place < len(lines):
        count = numbers.randrange(1, 5)
        parts.do(*lines[place:place + count], is_strict=False)
        place += count
    assert [entry.answered for entry in parts.entries] == [entry.answered for entry in whole.entries]
    assert parts.history.steps == whole.history.steps
    for moment in {0, whole.history.last, *numbers.choices(range(whole.history.last + 1), k=20)}:
        assert all_state(parts.history, moment) == all_state(whole.history, moment)


@pytest.mark.parametrize("path", scripts(), ids=lambda path: path.stem)
def test_views_show_what_the_records_say(path: Path) -> None:
    """Behind each line the machine is asked: REGS, MEM of words that were written, HEAP of each heap."""
    session = Session(library_engine)
    numbers = random.Random(path.stem)
    for line in lines_of(path):
        session.do(line, is_strict=False)
        history = session.history
        known = [at for at in history.words if history.is_known(at, history.last)]
        asked = numbers.sample(known, min(len(known), 6))
        heaps = history.heaps(history.last).heaps
        views = [Line("REGS"), *(Line(f"MEM &{at:X} 4") for at in asked), *(Line(f"HEAP &{at:X}") for at in heaps)]
        count = len(session.entries)
        answers = session.do(*views, is_strict=False)
        check_registers(history, answers[0].text)
        for at, answer in zip(asked, answers[1:]):
            check_word(history, at, answer.text)
        for start, answer in zip(heaps, answers[1 + len(asked):]):
            shown = [f"heap {start:08X} base {heaps[start].base} end {heaps[start].end}"]
            shown += [f"{kind} {at:08X} {size}" for at, (kind, size) in sorted(heaps[start].items.items())]
            assert answer.text.split("\n") == shown
        # the views are no part of the script, whose lines may ask for the last answer
        del session.entries[count:]


def check_registers(history: History, text: str) -> None:
    now = history.last
    shown = {name: int(digits, 16) for name, digits in ALIKE.findall(text)}
    assert {name: value for name, value in shown.items() if name != "R15"} \
        == {f"R{number}": history.register(number, now) for number in range(15)}
    assert shown["R15"] & 0x03FFFFFC == history.register(15, now)
    flags = "".join(name if history.flags[name].at(now) else name.lower() for name in FLAGS)
    assert text.split("\n")[-1] == f"PSR {flags} {history.mode.at(now)}"


def check_word(history: History, at: int, text: str) -> None:
    shown = text.partition(": ")[2]
    is_mapped = any(start <= at < start + size for start, size in history.mapped(history.last))
    word = history.word(at, history.last).to_bytes(4, "little").hex(" ").upper()
    assert shown == (word if is_mapped else "-- -- -- --")


@pytest.mark.parametrize("seed", range(12))
def test_going_back_and_another_way(seed: int) -> None:
    """From a moment in the past on: the machine is the one that a fresh session of the kept lines has."""
    numbers = random.Random(seed)
    session = Session(library_engine)
    session.do(*lines_of(numbers.choice(scripts())), is_strict=False)
    for _ in range(4):
        moment = numbers.randrange(session.history.last + 1)
        before = all_state(session.history, moment)
        try:
            session.cut(moment)
        except MachineError:
            assert any(entry.before < moment < entry.last for entry in session.entries)
            continue
        assert all_state(session.history, session.history.last) == before
        fresh = Session(library_engine)
        fresh.do(*(entry.line for entry in session.entries), is_strict=False)
        assert all_state(fresh.history, fresh.history.last) == before
        session.do(Line("SET R3 5"), Line("STEP 2"), is_strict=False)
