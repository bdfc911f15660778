"""Pages beside those that a proved program wrote: data/show/README.md says which."""

from __future__ import annotations

from pathlib import Path

import pytest
from rosm.pictures.page import TextPage
from rosm.pictures.state import RecordError

from .scripts import output, script_of

KEPT = sorted((Path(__file__).parents[1] / "data/show").glob("*.txt"))


def test_there_are_twenty():
    assert len(KEPT) == 20


@pytest.mark.parametrize("kept", KEPT, ids=lambda path: path.stem)
def test_page_is_as_it_was(kept: Path, tmp_path: Path):
    name, width = kept.stem.rsplit(".", 1)
    script = script_of(name)
    records = output(script, "json", tmp_path)
    transcript = output(script, "transcript", tmp_path) if b"TRACE" in script.script else None
    # no signs stood in the pages of scripts that aren't for debugging
    page = TextPage(int(width), has_signs=script.is_debugging)
    assert list(page.lines(records, transcript)) == kept.read_text(encoding="latin-1").splitlines()


def test_records_that_are_cut_off(tmp_path: Path):
    records = output(script_of("pages_lesson-tidy"), "json", tmp_path)
    whole = list(TextPage().lines(records))
    for count in range(len(records)):
        lines = []
        with pytest.raises(RecordError):
            for line in TextPage().lines(records[:count] if count else ["{"]):
                lines.append(line)
        assert lines == whole[:len(lines)]


def test_a_record_that_is_missing(tmp_path: Path):
    """Where a step that changes a heap is left out, the next view of the heap shows it."""
    records = output(script_of("pages_heaps-in-blocks"), "json", tmp_path)
    steps = [place for place, record in enumerate(records) if '"step":' in record and '"heaps":' in record]
    views = [place for place, record in enumerate(records) if '"text":"heap ' in record]
    assert steps[0] < views[0]
    with pytest.raises(RecordError):
        list(TextPage().lines(records[:steps[0]] + records[steps[0] + 1:]))
