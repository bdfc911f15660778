"""Labels and lines of a source by address, and traces that have them."""

from __future__ import annotations

from library import needs_library

import rosm
from rosm.machine.sources import Source, Sources, source_of

LOOP = """; three rounds
        MOV     R0,#3
loop    SUBS    R0,R0,#1
        BNE     loop
        SWI     OS_Exit
"""


def test_labels_and_lines_by_address() -> None:
    record = {"length": 12, "labels": {"loop": 4, "again": 4}, "lines": [[2, 0, 4], [3, 4, 4], [4, 8, 4], [5, 12, 0]]}
    sources = Sources([(0x8000, source_of(record, LOOP.splitlines()))])
    assert [sources.label(at) for at in (0x8000, 0x8004, 0x8008, 0x7FFC, 0x800C)] == ["", "loop", "", "", ""]
    assert sources.line(0x8004) == (3, "loop    SUBS    R0,R0,#1")
    assert sources.line(0x8002) is None and sources.line(0x800C) is None


def test_branches_have_labels() -> None:
    sources = Sources([(0x8000, Source(8, {4: "loop"}))])
    assert sources.named("BNE &8004") == "BNE loop" and sources.named("BL &8004") == "BL loop"
    assert sources.named("BNE &8000") == "BNE &8000" and sources.named("B &9004") == "B &9004"
    assert sources.named("BIC R0,R0,#&4") == "BIC R0,R0,#&4"


def test_the_newest_image_at_an_address_counts() -> None:
    sources = Sources([(0x8000, Source(8, {4: "old"})), (0x8000, Source(8, {4: "new"}))])
    assert sources.label(0x8004) == "new"


@needs_library
def test_a_trace_has_labels_and_lines() -> None:
    machine = rosm.Machine()
    machine.asm(LOOP)
    machine.run()
    steps = machine.trace()
    assert [(step.line, step.label, step.text) for step in steps][:3] == [
        (2, "", "MOV R0,#&3"), (3, "loop", "SUBS R0,R0,#&1"), (4, "", "BNE loop")]
    assert str(steps).splitlines()[1].startswith("     2 00008004 3 loop SUBS R0,R0,#&1")
    assert "<td>loop</td>" in steps._repr_html_()
