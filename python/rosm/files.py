"""Files of the command line, by the names that sources have for them under RISC OS.

A RISC OS name has parts joined by dots, as `Hdr:Swi.ListOpts` or `<App$Dir>.h.Foo`; here they are
folders, or an ending: `h.Foo` is h/Foo, Foo.h or h.Foo. Letters of either case are the same.
"""

from __future__ import annotations

import re
from pathlib import Path

from .messages import SourceError

LARGEST = 8 << 20  # bytes of a file that is read


def path_parts(path: str) -> list[str]:
    """The parts of a path of this system, without a file type and in small letters."""
    text = re.sub(r",[0-9a-f]{3}\Z", "", path, flags=re.IGNORECASE)
    return [part for part in text.lower().split("/") if part not in ("", ".", "..")]


def wanted_parts(name: str) -> list[str]:
    """The parts of a RISC OS name, in small letters, without what only says where to look."""
    text = re.sub(r"<[^>]*>", "", name.strip().strip('"')).lower()
    text = text.rsplit(":", 1)[-1]
    return [part for part in re.split(r"[./]", text) if part not in ("", "^", "@", "$", "&", "%", "\\")]


def spellings(path: str) -> list[list[str]]:
    """A path as the lists of parts that may name it: folders, `Foo.h` both ways, `Foo/h`."""
    parts = path_parts(path)
    if not parts:
        return []
    front, last = parts[:-1], parts[-1]
    found = [front + [last]]
    pieces = last.split(".")
    if len(pieces) > 1:
        found.append(front + pieces)
        found.append(front + [pieces[-1]] + pieces[:-1])
        found.append(front + pieces[:-1])
    return found


def fit(wanted: list[str], path: str) -> int:
    """How many last parts of a name and a path are the same; 0 where the last ones differ."""
    best = 0
    for parts in spellings(path):
        count = 0
        while count < min(len(parts), len(wanted)) and parts[-1 - count] == wanted[-1 - count]:
            count += 1
        best = max(best, count)
    return best


class Library:
    """The files that a source may ask for: those given, and all within folders that are given."""

    def __init__(self, paths: list[str]) -> None:
        self.paths: list[str] = []
        for path in paths:
            found = sorted(str(item) for item in Path(path).rglob("*") if item.is_file()) \
                if Path(path).is_dir() else [path]
            self.paths += [item for item in found if item not in self.paths]

    def find(self, name: str) -> str:
        """The path of the file that a source calls so; SourceError where none or several fit."""
        wanted = wanted_parts(name)
        if not wanted:
            raise SourceError("this names no file", name)
        scores = [(fit(wanted, path), path) for path in self.paths]
        best = max((score for score, _ in scores), default=0)
        fitting = [path for score, path in scores if score == best]
        if best == 0:
            raise SourceError("none of the files given with the source has this name", name)
        if len(fitting) > 1:
            raise SourceError(f"several files have this name: {', '.join(fitting)}", name)
        return fitting[0]


def read_bytes(path: str) -> bytes:
    """A file's bytes; SourceError where it can't be read or is too large."""
    try:
        data = Path(path).read_bytes()
    except OSError as error:
        raise SourceError(f"it can't be read: {error.strerror or error}", path) from None
    if len(data) > LARGEST:
        raise SourceError(f"it has more than {LARGEST} bytes", path)
    return data


def lines_of(data: bytes) -> list[str]:
    """A text's lines: LF, CR or CR LF ends each. Bytes are Latin-1, as RISC OS has them."""
    text = data.decode("latin-1")
    lines = re.split(r"\r\n|\n\r|\n|\r", text)
    return lines[:-1] if lines and lines[-1] == "" else lines
