"""RISC OS names of files, and lines of texts."""

from __future__ import annotations

from pathlib import Path

import pytest

from rosm.files import Library, lines_of, read_bytes
from rosm.messages import SourceError

PATHS = ["src/main.s", "hdr/ListOpts.h", "h/Macros", "h.RegNames", "SwiNos.h,fff", "deep/Hdr/System",
         "one/Twice.h", "two/Twice.h", "x/h/same", "y/same.h"]


def library() -> Library:
    found = Library([])
    found.paths = list(PATHS)
    return found


@pytest.mark.parametrize("name, path", [
    ("Hdr:Swi.ListOpts", "hdr/ListOpts.h"), ("h.ListOpts", "hdr/ListOpts.h"), ("listopts", "hdr/ListOpts.h"),
    ("h.Macros", "h/Macros"), ("^.h.Macros", "h/Macros"), ("<App$Dir>.h.macros", "h/Macros"),
    ("h.RegNames", "h.RegNames"), ("RegNames", "h.RegNames"), ("h.SWINOS", "SwiNos.h,fff"),
    ("Hdr:System", "deep/Hdr/System"),
    ("ListOpts.h", "hdr/ListOpts.h"), ("one.h.Twice", "one/Twice.h"), ("two.Twice", "two/Twice.h"),
    ("\"h.Macros\"", "h/Macros"), ("@.h.Macros", "h/Macros")])
def test_name_fits(name: str, path: str) -> None:
    assert library().find(name) == path


@pytest.mark.parametrize("name, reason", [
    ("h.Nothing", "none of the files given"), ("ListOptsX", "none of the files given"),
    ("h.Twice", "several files have this name: one/Twice.h, two/Twice.h"), ("^", "this names no file"),
    ("h.same", "several files have this name: x/h/same, y/same.h")])
def test_name_is_refused(name: str, reason: str) -> None:
    with pytest.raises(SourceError, match=reason) as caught:
        library().find(name)
    assert caught.value.word == name


def test_folders_are_searched(tmp_path: Path) -> None:
    (tmp_path / "h").mkdir()
    (tmp_path / "h" / "Foo").write_text("")
    assert Library([str(tmp_path)]).find("h.foo") == str(tmp_path / "h" / "Foo")


@pytest.mark.parametrize("data, lines", [
    (b"", []), (b"a", ["a"]), (b"a\n", ["a"]), (b"a\r\nb\r\n", ["a", "b"]), (b"a\rb\r", ["a", "b"]),
    (b"a\n\nb", ["a", "", "b"]), (b"a\r\n\r\nb", ["a", "", "b"]), (b"\xa9\n", ["\xa9"]), (b"\n", [""])])
def test_lines(data: bytes, lines: list[str]) -> None:
    assert lines_of(data) == lines


def test_files_that_cant_be_read(tmp_path: Path) -> None:
    for path in (tmp_path, tmp_path / "gone"):
        with pytest.raises(SourceError, match="it can't be read"):
            read_bytes(str(path))
