"""Rows of data files: sources with the bytes, labels and messages that they must come to.

A row begins with `== name`. Its parts begin with `-- source`, `-- file PATH` (another file that the
source may GET), `-- bytes` (hexadecimal), `-- origin`, `-- options`, `-- labels` (name and address),
`-- errors` and `-- warnings` (`FILE:LINE: WORD: part of the reason`, or `LINE: ..` for the source).
"""

from __future__ import annotations

from dataclasses import dataclass, field
from pathlib import Path

DATA = Path(__file__).parent / "data"


@dataclass
class Row:
    """One row: its name and its parts."""

    name: str
    parts: dict[str, str] = field(default_factory=dict)

    def words(self, part: str) -> list[str]:
        return self.parts.get(part, "").split()

    def lines(self, part: str) -> list[str]:
        return [line for line in self.parts.get(part, "").splitlines() if line.strip()]

    def bytes(self) -> bytes:
        return bytes.fromhex(self.parts["bytes"].replace("\n", " "))


def rows_of(path: Path) -> list[Row]:
    """All rows of a file."""
    rows: list[Row] = []
    part = None
    for line in path.read_text(encoding="latin-1").split("\n"):
        if line.startswith("== "):
            rows.append(Row(line[3:]))
            part = None
        elif line.startswith("-- ") and rows:
            part = line[3:]
            rows[-1].parts[part] = ""
        elif part is not None:
            rows[-1].parts[part] += line + "\n"
    return rows


def trimmed(text: str) -> str:
    """A part without the empty line that parts it from the next row."""
    return text.rstrip("\n") + "\n"
