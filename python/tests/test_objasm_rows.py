"""Sources for ObjAsm, row by row, with their bytes, labels and messages."""

from __future__ import annotations

from pathlib import Path

import pytest
from rows import DATA, Row, rows_of, trimmed

from rosm.objasm import Options, assemble_files, control
from rosm.program import Program

ROWS = [row for path in sorted((DATA / "objasm").glob("*.txt")) for row in rows_of(path)]


def assembled(row: Row, folder: Path) -> Program:
    """The program of a row's source."""
    source = folder / "source.s"
    source.write_text(trimmed(row.parts["source"]), encoding="latin-1")
    paths = [str(source)]
    for part, text in row.parts.items():
        if part.startswith("file "):
            path = folder / part[5:]
            path.parent.mkdir(parents=True, exist_ok=True)
            path.write_text(trimmed(text), encoding="latin-1")
            paths.append(str(path))
    options = Options(paths)
    for word in row.words("options"):
        if word == "bars":
            options.bars = True
        elif word == "source-order":
            options.linked = False
        else:
            name, value = word.split("=")
            if value.startswith("%"):
                options.rooms[name] = int(value[1:])
            else:
                options.bindings[name] = int(value, 0)
    if "origin" in row.parts:
        options.origin = int(row.parts["origin"], 0)
    return assemble_files(options)


def shown(program: Program, severity: str, folder: Path) -> list[str]:
    """The messages of a kind as rows have them."""
    found = []
    for message in program.messages.items:
        if message.severity == severity:
            file = message.position.file.replace(str(folder) + "/", "").replace("source.s", "")
            place = f"{file}:{message.position.line}" if file else str(message.position.line)
            word = f"{message.word}: " if message.word else ""
            found.append(f"{place}: {word}{message.reason}")
    return found


def agree(wanted: list[str], found: list[str]) -> bool:
    """Whether each wanted message is the beginning of one, in any order, and none is left."""
    left = list(found)
    for line in wanted:
        fitting = [message for message in left if message.startswith(line)]
        if not fitting:
            return False
        left.remove(fitting[0])
    return not left


@pytest.mark.parametrize("row", ROWS, ids=lambda row: row.name.replace(" ", "_"))
def test_row(row: Row, tmp_path: Path, monkeypatch: pytest.MonkeyPatch) -> None:
    if row.name == "a loop without an end":
        monkeypatch.setattr(control, "LONGEST_LOOP", 5_000)
    program = assembled(row, tmp_path)
    errors = shown(program, "error", tmp_path)
    assert agree(row.lines("errors"), errors), errors
    if "bytes" in row.parts:
        assert program.data.hex(" ", 4) == row.bytes().hex(" ", 4)
    else:
        assert row.lines("errors"), "a row has bytes or errors"
        assert program.data == b""
    if "warnings" in row.parts:
        warnings = shown(program, "warning", tmp_path)
        assert agree(row.lines("warnings"), warnings), warnings
    for line in row.lines("labels"):
        name, address = line.rsplit(" ", 1)
        assert {label.address for label in program.labels if label.name == name} == {int(address, 0)}


def test_there_are_rows() -> None:
    assert len(ROWS) > 60


def test_a_loop_may_have_half_a_million_lines() -> None:
    assert control.LONGEST_LOOP == 500_000


def test_bytes_have_a_limit(tmp_path: Path) -> None:
    """Sixteen megabytes, however they are laid."""
    text = " GBLA i\n WHILE i < 50\n AREA x$i, CODE\n % 4000000\ni SETA i+1\n WEND\n"
    (tmp_path / "s").write_text(text)
    program = assemble_files(Options([str(tmp_path / "s")]))
    assert [message.reason for message in program.messages.errors()] == [
        "the source lays more than 16777216 bytes; nothing behind is read"]
