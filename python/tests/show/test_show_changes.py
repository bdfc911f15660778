"""What has become of boxes, and heaps in blocks: expected lines are worked out by hand, by docs/SHOW.md."""

from __future__ import annotations

from rosm.pictures.bars import bar_lines
from rosm.pictures.boxes import Box, Holder, Kind, View, flex_view, heap_view, sorted_boxes
from rosm.pictures.layout import layout_of

RMA = 0x01800000


def bar(views: list[View], before: list[View]) -> list[str]:
    return bar_lines(layout_of(views, before, 100), 93)


def told(new: View, old: View) -> list[str]:
    """The lines that say what has become of boxes."""
    words = {kind.word for kind in Kind}
    return [line for line in bar([new], [old]) if words & set(line.split()[:2])
            and not line.startswith(("|", "free chain"))]


def modules(*boxes: Box) -> View:
    return View(("modules", 0), sorted_boxes(list(boxes)))


def test_modules():
    old = modules(Box(Kind.MODULE, RMA + 20, 64, "A"), Box(Kind.MODULE, RMA + 100, 64, "B"))
    new = modules(Box(Kind.MODULE, RMA + 20, 80, "A"), Box(Kind.MODULE, RMA + 120, 64, "B"))
    assert told(new, old) == ["01800014 module replaced", "01800078 module moved from 01800064"]


def test_a_heap_that_was_made_anew_is_compared_with_none():
    old = heap_view(0x9000, 56, 240, [("live", 0x9010, 40)])
    assert told(heap_view(0x9000, 36, 480, [("live", 0x9010, 20)]), old) == []
    assert told(heap_view(0x9000, 36, 240, [("live", 0x9010, 20)]), old) == [
        "00009010 live resized", "00009024 room grown"]
    # where its end alone was moved, all blocks are as they were
    assert told(heap_view(0x9000, 56, 480, [("live", 0x9010, 40)]), old) == ["00009038 room grown"]


def test_a_module_area_that_was_tidied():
    # blocks of one size keep their order
    old = heap_view(RMA, 96, 240, [("live", RMA + 16, 16), ("free", RMA + 32, 16), ("live", RMA + 48, 16),
                                   ("free", RMA + 64, 16), ("live", RMA + 80, 16)])
    new = heap_view(RMA, 64, 240, [("live", RMA + 16, 16), ("live", RMA + 32, 16), ("live", RMA + 48, 16)])
    assert told(new, old) == [
        "01800020 live moved from 01800030", "01800030 live moved from 01800050",
        "01800040 room grown", "01800040 free gone"]
    left = heap_view(RMA, 96, 240, [("live", RMA + 16, 16), ("live", RMA + 32, 16), ("live", RMA + 48, 16),
                                    ("free", RMA + 64, 32)])
    assert "01800040 free left by what moved" in told(left, old)


def test_a_module_area_with_a_block_less_was_not_tidied():
    old = heap_view(RMA, 64, 240, [("live", RMA + 16, 16), ("live", RMA + 32, 32)])
    new = heap_view(RMA, 64, 240, [("free", RMA + 16, 16), ("live", RMA + 32, 32)])
    assert told(new, old) == ["01800010 free freed"]


def test_another_heap_is_not_tidied():
    old = heap_view(0x9000, 64, 240, [("free", 0x9010, 16), ("live", 0x9020, 32)])
    new = heap_view(0x9000, 48, 240, [("live", 0x9010, 32)])
    assert told(new, old) == ["00009010 live new", "00009030 room grown", "00009020 live gone"]


def test_an_anchor_is_the_same_where_those_that_hold_it_are():
    def store(anchor: int) -> View:
        inner = Box(Kind.BLOCK, 0xA018, 8, detail=0xA008, holder=Holder(0xA008, 0))
        return flex_view(0xA000, 0xA100, 32, [Box(Kind.BLOCK, 0xA008, 8, detail=anchor), inner])

    assert told(store(0x9000), store(0x9000)) == []
    assert told(store(0x9004), store(0x9000)) == [
        "0000A008 block new", "0000A018 block new", "0000A008 block gone", "0000A018 block gone"]


def test_heaps_that_end_where_their_blocks_do():
    # of 256 bytes 16 have 3 characters of 60, 56 have 13 and 144 have 33
    outer = heap_view(0x9000, 0x70, 0x100, [("live", 0x9010, 0x60)])
    inner = heap_view(0x9014, 0x5C, 0x5C, [("live", 0x9024, 0x4C)])
    innermost = heap_view(0x9028, 0x10, 0x48, [])
    assert bar([outer, inner, innermost], [])[0] == (
        "|ddd|#{ddd|#{ddd|" + " " * 13 + "]]|" + " " * 33 + "|")


def test_each_heap_has_its_own_free_chain():
    items = [("live", 0x9010, 0x60), ("free", 0x9070, 16), ("live", 0x9080, 16)]
    outer = heap_view(0x9000, 0x90, 0x100, items)
    inner = heap_view(0x9014, 0x30, 0x40, [("free", 0x9024, 16), ("live", 0x9034, 16)])
    assert bar([outer, inner], [])[2:] == [
        "blocks 00009014 00009038 00009084",
        "free chain 00009070 -> end",
        "free chain 00009024 -> end",
    ]


def test_heaps_in_blocks_that_come_and_go():
    outer = heap_view(0x9000, 0x70, 0x100, [("live", 0x9010, 0x60)])
    inner = heap_view(0x9014, 16, 0x40, [])
    assert "00009014 descriptor new" in bar([outer, inner], [outer])
    assert "00009014 descriptor gone" in bar([outer], [outer, inner])
    assert bar([outer, inner], []) == bar([outer, inner], [outer, inner])
