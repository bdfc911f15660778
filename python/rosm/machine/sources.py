"""Where code comes from: the labels and the lines of sources, by the addresses at which their images are."""

from __future__ import annotations

import re
from dataclasses import dataclass, field
from typing import Any, Iterable, Mapping, Sequence

BRANCH = re.compile(r"(BL?[A-Z]* )&([0-9A-F]+)")


@dataclass(frozen=True)
class Source:
    """An image's labels and lines by their offsets. A line is its number and its text."""

    length: int
    labels: Mapping[int, str] = field(default_factory=dict)
    lines: Mapping[int, tuple[int, str]] = field(default_factory=dict)


class Sources:
    """Images with their addresses. The last one that is at an address counts."""

    def __init__(self, placed: Iterable[tuple[int, Source]] = ()) -> None:
        self.placed = list(placed)[::-1]

    def _found(self, at: int) -> tuple[int, Source] | None:
        return next(((start, source) for start, source in self.placed if 0 <= at - start < source.length), None)

    def label(self, at: int) -> str:
        """The label at an address, or nothing."""
        found = self._found(at)
        return found[1].labels.get(at - found[0], "") if found else ""

    def line(self, at: int) -> tuple[int, str] | None:
        """The line of the source that made the word at an address: its number and its text."""
        found = self._found(at)
        return found[1].lines.get(at - found[0]) if found else None

    def named(self, text: str) -> str:
        """An instruction, with the label in place of the address that it branches to."""
        found = BRANCH.fullmatch(text)
        label = self.label(int(found[2], 16)) if found else ""
        return f"{found[1]}{label}" if found and label else text


def source_of(image: Mapping[str, Any], block: Sequence[str]) -> Source:
    """The source of an image by its record, whose lines are numbers of the block's."""
    labels: dict[int, str] = {}
    for label, offset in image.get("labels", {}).items():
        labels.setdefault(offset, label)
    lines = {offset: (number, block[number - 1] if 0 < number <= len(block) else "")
             for number, offset, size in image.get("lines", ()) if size}
    return Source(image["length"], labels, lines)
