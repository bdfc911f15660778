"""The command: a class of files of every kind, and what it writes for others."""

from __future__ import annotations

import json
import os
import subprocess
import sys
from html.parser import HTMLParser
from pathlib import Path

import pytest
from library import needs_library
from machine import ROOT
from marking_cases import CASES, RIGHT

pytestmark = needs_library
WRONG = RIGHT.replace("MOVCC", "MOVLS")


def rosm(*words: str, **more: str) -> subprocess.CompletedProcess[bytes]:
    environment = {**os.environ, "PYTHONPATH": str(ROOT / "python"), **more}
    return subprocess.run([sys.executable, "-m", "rosm", "mark", *words], capture_output=True, check=False,
                          env=environment, timeout=600)


@pytest.fixture
def folder(tmp_path: Path) -> Path:
    (tmp_path / "cases.toml").write_text(CASES.replace("[exercise]", '[exercise]\nsolution = "solution.s"'))
    (tmp_path / "solution.s").write_text(RIGHT)
    for name, text in (("anna", RIGHT), ("ben", WRONG), ("carl", " MOVE R0\n")):
        (tmp_path / f"{name}.s").write_text(text)
    return tmp_path


def test_a_class_of_every_kind(folder: Path) -> None:
    """What can't be read, is no text, is huge or never ends costs nobody else a mark."""
    made = {"empty": b"", "bytes": bytes(range(256)) * 10, "huge": b"; x\n" * 500_000, "utf16": RIGHT.encode("utf-16"),
            "end": b" MOV R0,#1\nEND\n", "long": b" MOV R0,#1 ;" + b"x" * 60_000 + b"\n", "loop": b"l B l\n",
            "zero": b" MOV R0,#1\0\n"}
    for name, data in made.items():
        (folder / f"{name}.s").write_bytes(data)
    (folder / "folder.s").mkdir()
    os.mkfifo(folder / "pipe.s")
    (folder / "loops.s").symlink_to("loops.s")
    names = ["anna", *made, "folder", "pipe", "loops", "absent", "ben", "carl"]
    done = rosm(str(folder / "cases.toml"), *(str(folder / f"{name}.s") for name in names))
    assert done.returncode == 0 and done.stderr == b""
    lines = dict(zip(names, done.stdout.decode().splitlines()))
    assert len(done.stdout.splitlines()) == len(names) + 2
    assert done.stdout.decode().splitlines()[-2:] == [
        "15 files: 1 with all points, 11 that weren't run; 1.13 of 10 points on average",
        "failed in most files: 15 by 5 (3); 17 by 5 (2); the largest, which nobody is shown (2)"]
    assert lines["anna"] == f"{folder}/anna.s: 10 of 10 points, 3 of 3 cases"
    assert lines["ben"] == f"{folder}/ben.s: 7 of 10 points, 2 of 3 cases; 15 by 5: R2 is 2, and should be 3"
    for name, reason in (("empty", "it is empty"), ("bytes", "it is no text: line 1 has a byte 0"),
                         ("huge", "it has more than 65536 bytes"), ("utf16", "UTF-16"),
                         ("end", "line 2: END alone on a line isn't allowed"), ("folder", "it is no file"), ("pipe", "it is no file"),
                         ("loops", "there is no such file"), ("absent", "there is no such file"),
                         ("zero", "it is no text: line 1 has a byte 0"), ("carl", "line 1: "), ("loop", "isn't done after")):
        assert "0 of 10 points" in lines[name] and reason in lines[name], lines[name]


@pytest.mark.skipif(os.geteuid() == 0, reason="root may read every file")
def test_a_file_that_may_not_be_read(folder: Path) -> None:
    (folder / "anna.s").chmod(0)
    done = rosm(str(folder / "cases.toml"), str(folder / "anna.s"))
    assert done.returncode == 0 and b"it can't be read: Permission denied" in done.stdout


def test_the_page_shows_what_is_printed(tmp_path: Path) -> None:
    """docs/MARKING.md has these lines of examples/marking, by other names."""
    (tmp_path / "handed-in").mkdir()
    folder = ROOT / "examples/marking"
    for name, text in (("anna", (folder / "solution.s").read_text()), ("ben", (folder / "wrong.s").read_text()),
                       ("carl", "divide  MOV     R2,#0\n        MOVE    R0,R1\n")):
        (tmp_path / f"handed-in/{name}.s").write_text(text)
    words = [str(tmp_path / f"handed-in/{name}.s") for name in ("anna", "ben", "carl")]
    done = rosm(str(folder / "division.toml"), *words)
    page = (ROOT / "docs/MARKING.md").read_text()
    for line in done.stdout.decode().splitlines():
        assert "    " + line.removeprefix(f"{tmp_path}/") + "\n" in page
    assert len(done.stdout.splitlines()) == 5


def test_a_solution_that_fails(folder: Path) -> None:
    (folder / "solution.s").write_text(WRONG)
    done = rosm(str(folder / "cases.toml"), str(folder / "anna.s"))
    assert done.returncode == 1 and done.stdout == b"" and b"the solution doesn't pass all cases" in done.stderr


def test_results_for_gradescope(folder: Path) -> None:
    target = folder / "results.json"
    assert rosm("--gradescope", str(target), str(folder / "cases.toml"), str(folder / "ben.s")).returncode == 0
    found = json.loads(target.read_text())
    assert [(test["score"], test["max_score"], test["visibility"], test["status"]) for test in found["tests"]] == [
        (2, 2, "visible", "passed"), (0, 3, "visible", "failed"), (5, 5, "hidden", "passed")]
    assert "R2 is 2, and should be 3" in found["tests"][1]["output"] and "score" not in found


def test_results_for_github_classroom(folder: Path) -> None:
    target = folder / "out"
    words = [str(folder / f"{name}.s") for name in ("anna", "ben", "carl")]
    assert rosm("--classroom", str(target), str(folder / "cases.toml"), *words).returncode == 0
    anna, ben, carl = (json.loads((target / f"{name}.json").read_text()) for name in ("anna", "ben", "carl"))
    assert (anna["version"], anna["status"], ben["status"], carl["status"], ben["max_score"]) == (1, "pass", "fail", "error", 10)
    assert [test["score"] for test in ben["tests"]] == [2, 0, 5]
    assert "nobody is shown" not in json.dumps(ben) and "7FFFFFFF" not in json.dumps(ben)


def test_all_errors_of_a_source(folder: Path) -> None:
    """The first stands on the terminal, all on the page, where their lines are marked, and in the table on one line."""
    (folder / "dora.s").write_text("divide: MOV R2,#0\n MOVE R0,R1 ; line 1\n MOV PC,R14\n B nowhere\n")
    words = ["--html", str(folder / "pages"), "--csv", str(folder / "marks.csv"), str(folder / "cases.toml")]
    done = rosm(*words, str(folder / "dora.s"))
    first = "line 1: Syntax: divide: MOV R2,#0 (a label has no colon)"
    assert done.stdout.decode() == f"{folder}/dora.s: 0 of 10 points, 0 of 3 cases; nothing was run: {first} (and 2 more)\n"
    page = (folder / "pages/dora.html").read_text()
    second, third = "line 2: Syntax: MOVE R0,R1 ; line 1 (no instruction MOVE; MOV?)", "line 4: UnknownLabel: B nowhere"
    assert all(f"<p>{reason}</p>" in page for reason in (first, second, third))
    assert page.count("<li class=named>") == 3 and "<li class=named> B nowhere" in page
    assert f'"{first} / {second} / {third}"\n' in (folder / "marks.csv").read_text()


def test_a_table_of_the_class(folder: Path) -> None:
    words = [str(folder / f"{name}.s") for name in ("anna", "ben")]
    assert rosm("--csv", str(folder / "marks.csv"), str(folder / "cases.toml"), *words).returncode == 0
    assert (folder / "marks.csv").read_text().splitlines() == [
        'file,points,of,17 by 5,15 by 5,"the largest, which nobody is shown",remark',
        f"{folder}/anna.s,10,10,2,3,5,", f"{folder}/ben.s,7,10,2,0,5,"]


class Page(HTMLParser):
    """The elements of a page, and what it would fetch."""

    def __init__(self) -> None:
        super().__init__()
        self.seen: set[str] = set()
        self.fetched: list[str] = []

    def handle_starttag(self, tag: str, attrs: list[tuple[str, str | None]]) -> None:
        self.seen.add(tag)
        self.fetched += [value or "" for name, value in attrs if name in ("src", "href", "srcset", "action")]


def test_a_page_for_each(folder: Path) -> None:
    hostile = ' ; </ol><script>alert(1)</script><img src=x onerror="alert(1)">\n MOVE R0\n'
    (folder / "dora.s").write_text(hostile)
    words = [str(folder / f"{name}.s") for name in ("anna", "ben", "dora")]
    assert rosm("--html", str(folder / "pages"), str(folder / "cases.toml"), *words).returncode == 0
    for name in ("anna", "ben", "dora"):
        text = (folder / "pages" / f"{name}.html").read_text()
        page = Page()
        page.feed(text)
        assert not page.seen & {"script", "img"} and page.fetched == []
        assert "nobody is shown" not in text and "FFFFFFFF" not in text and "default-src 'none'" in text
    ben = (folder / "pages/ben.html").read_text()
    assert "R2 is 2, and should be 3" in ben and "7 of 10 points" in ben and "MOVLS" in ben and "Hidden cases: 1 of 1 passed" in ben and str(folder) not in ben
    assert "<li class=named> MOVE R0" in (folder / "pages/dora.html").read_text()


def test_names_that_are_alike(folder: Path) -> None:
    for name in ("anna", "ben"):
        (folder / name).mkdir()
        (folder / name / "answer.s").write_text(RIGHT)
    words = [str(folder / name / "answer.s") for name in ("anna", "ben")]
    assert rosm("--html", str(folder / "pages"), str(folder / "cases.toml"), *words, words[0]).returncode == 0
    assert sorted(path.name for path in (folder / "pages").iterdir()) == [
        "anna_answer.html", "anna_answer_2.html", "ben_answer.html"]


def test_what_takes_too_long(folder: Path) -> None:
    """A source whose assembly goes round for long."""
    text = (folder / "cases.toml").read_text()
    text = text.replace('solution = "solution.s"', 'language = "objasm"\nseconds = 1')
    (folder / "cases.toml").write_text(text)
    rounds = "        WHILE 1 = 1\n        GBLA n\nn       SETA 1\n        WEND\n" * 30
    inner = "".join(f"        GBLA a{number}\na{number} SETA 0\n        WHILE a{number} < 4000\na{number} SETA a{number}+1\n        WEND\n"
                    for number in range(40))
    (folder / "long.s").write_text(inner + rounds)
    done = rosm(str(folder / "cases.toml"), str(folder / "long.s"), str(folder / "anna.s"))
    lines = done.stdout.decode().splitlines()
    assert done.returncode == 0 and "nothing was run: marking it took more than 1 seconds" in lines[0]
    assert "10 of 10 points" in lines[1]


def test_the_whole_class_side_by_side(folder: Path) -> None:
    """Each file has a process of its own; marks come in the order of the files."""
    words = []
    for number in range(12):
        (folder / f"s{number}.s").write_text(RIGHT if number % 2 else WRONG)
        words.append(str(folder / f"s{number}.s"))
    done = rosm("--jobs", "4", str(folder / "cases.toml"), *words)
    assert [line.split(": ")[1].split(" ")[0] for line in done.stdout.decode().splitlines()[:-2]] == ["7", "10"] * 6


@pytest.mark.parametrize("words, status, text", [
    ((), 2, "CASES.toml and at least one FILE are wanted"), (("x",), 2, "at least one FILE"), (("--colour",), 2, "--colour"),
    (("/nowhere.toml", "x"), 4, "/nowhere.toml: No such file"), (("--jobs", "0", "x", "y"), 2, "--jobs takes")])
def test_what_is_wrong_with_a_command(words: tuple[str, ...], status: int, text: str) -> None:
    done = rosm(*words)
    assert done.returncode == status and text in done.stderr.decode() and done.stdout == b""


def test_strict(folder: Path) -> None:
    assert rosm("--strict", str(folder / "cases.toml"), str(folder / "anna.s")).returncode == 0
    assert rosm("--strict", str(folder / "cases.toml"), str(folder / "ben.s")).returncode == 5


def test_a_library_that_is_missing(folder: Path) -> None:
    done = rosm(str(folder / "cases.toml"), str(folder / "anna.s"), ROSM_LIBRARY="/nowhere")
    assert done.returncode == 4 and b"./build --unproved" in done.stderr and b"Traceback" not in done.stderr
