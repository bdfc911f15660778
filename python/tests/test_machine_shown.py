"""What a Machine shows: traces, tables in a notebook, the player; and what is missing where no library is."""

from __future__ import annotations

import os
import re
import shutil
import subprocess
import sys
from html.parser import HTMLParser
from pathlib import Path

import pytest
from library import needs_library
from machine import ROOT
from test_machine import SUM, summed

import rosm
from rosm.native import LibraryMissing, library_path

HOSTILE = '</pre></div><script>alert(1)</script><img src=x onerror=alert(1)>\x1b[2J'
VOID = {"br", "rect", "meta"}


class Balanced(HTMLParser):
    """Looks at whether elements are closed in order, and which there are."""

    def __init__(self) -> None:
        super().__init__()
        self.opened: list[str] = []
        self.seen: set[str] = set()
        self.attributes: set[str] = set()

    def handle_starttag(self, tag: str, attrs: list[tuple[str, str | None]]) -> None:
        self.seen.add(tag)
        self.attributes |= {name for name, _ in attrs}
        if tag not in VOID:
            self.opened.append(tag)

    def handle_endtag(self, tag: str) -> None:
        if tag not in VOID:
            assert self.opened and self.opened.pop() == tag


def looked_at(text: str) -> Balanced:
    parser = Balanced()
    parser.feed(text)
    parser.close()
    assert parser.opened == []
    return parser


@needs_library
def test_a_trace_is_text() -> None:
    machine = summed()
    lines = str(machine.trace(2)).splitlines()
    assert re.fullmatch(r" +12 00008014 7 STR R0,\[PC\] +\[0000801C\]=00000006 was 000000FF", lines[0])
    assert re.fullmatch(r" +13 00008018 8 SWI OS_Exit +stops Exit", lines[1])
    trace = machine.trace()
    assert len(trace) == 13 and trace[0].effects == ("R0=00000000",) and trace[10].effects == ("skipped",)
    assert [step.number for step in machine.back(12).trace()] == [1]


@needs_library
def test_a_trace_has_calls_of_heaps() -> None:
    machine = rosm.Machine()
    machine.call("OS_Heap", R0=0, R1=0x9000, R3=256)
    machine.call("OS_Heap", R0=2, R3=20)
    text = str(machine.trace(1))
    assert "XOS_Heap 2 Get" in text and "+live 00009010 24" in text and "R2=00009014" in text


@needs_library
def test_a_table_in_a_notebook() -> None:
    machine = summed()
    machine.call("OS_Heap", R0=0, R1=0x9000, R3=256)
    text = machine._repr_html_()
    looked_at(text)
    assert "00000006" in text and "&amp;8018" in text
    machine.reset()
    machine.call("OS_Heap", R0=0, R1=0x9000, R3=256)
    machine.call("OS_Heap", R0=2, R3=20)
    seen = looked_at(machine._repr_html_())
    assert "svg" in seen.seen and "script" not in seen.seen
    assert "live 00009010 24" in machine.heap(0x9000)._repr_html_()


@needs_library
def test_what_is_printed_is_no_markup() -> None:
    machine = rosm.Machine()
    data = ",".join(str(byte) for byte in HOSTILE.encode())
    machine.asm(f" ADR R0,text\n SWI OS_Write0\n SWI OS_Exit\ntext DCB {data},0\n".replace(" ADR R0,text\n",
                                                                                    " ADD R0,PC,#text-&8008\n"))
    machine.run()
    assert machine.output == HOSTILE
    seen = looked_at(machine._repr_html_())
    assert not seen.seen & {"script", "img"} and "\x1b" not in machine._repr_html_()


@needs_library
def test_the_page_has_the_whole_run(tmp_path: Path) -> None:
    text = summed().page(tmp_path / "run.html").read_text()
    assert "Content-Security-Policy" in text and '{"step":13,' in text


@needs_library
def test_a_short_text() -> None:
    assert repr(summed()) == "<Machine at &8018, nZCvif USR, 13 steps>"


def test_a_library_that_is_missing(monkeypatch: pytest.MonkeyPatch) -> None:
    monkeypatch.setenv("ROSM_LIBRARY", "/nowhere/librosm.so")
    with pytest.raises(LibraryMissing, match=r"\./build --unproved.*looked for here: /nowhere/librosm\.so"):
        rosm.Machine()


def test_a_library_that_is_none(monkeypatch: pytest.MonkeyPatch, tmp_path: Path) -> None:
    (tmp_path / "librosm.so").write_text("no library")
    monkeypatch.setenv("ROSM_LIBRARY", str(tmp_path / "librosm.so"))
    with pytest.raises(LibraryMissing, match="can't be used"):
        rosm.run("STEP 0\n")


@needs_library
def test_scripts_of_rosm() -> None:
    assert rosm.run("STEP 0\n") == (3, "at &8000\n")
    assert rosm.run("BOOT quit\nRUN\n", image=("quit", bytes.fromhex("110000EF"))) == (0, "boot quit\nstop Exit\n")
    with pytest.raises(rosm.ScriptError):
        rosm.run("RUN\n", image=("a b", b"x"))


@needs_library
def test_it_is_installed_with_its_library(tmp_path: Path) -> None:
    """`pip install` of the folder, without a network, and the package where it then is."""
    for needed in ("pip", "setuptools", "wheel"):
        if subprocess.run([sys.executable, "-c", f"import {needed}"], capture_output=True, check=False).returncode:
            pytest.skip(f"{needed} isn't there")
    words = ["-m", "pip", "install", "--quiet", "--no-build-isolation", "--no-deps", "--no-index", "--target"]
    checkout = tmp_path / "checkout"
    for name in ("python", "web", "tools"):
        shutil.copytree(ROOT / name, checkout / name, ignore=shutil.ignore_patterns("__pycache__", "node_modules"))
    environment = {**os.environ, "ROSM_LIBRARY": str(library_path())}
    subprocess.run([sys.executable, *words, str(tmp_path / "to"), str(checkout / "python")], check=True, env=environment)
    code = ("import rosm; m = rosm.Machine(); m.asm(' MOV R0,#3\\n SWI OS_Exit\\n'); m.run(); m.page('run.html');"
            "print(m.r[0], rosm.native.library_path())")
    clean = {name: value for name, value in os.environ.items() if name not in ("ROSM_LIBRARY", "PYTHONPATH")}
    done = subprocess.run([sys.executable, "-c", code], capture_output=True, check=False, cwd=tmp_path,
                          env={**clean, "PYTHONPATH": str(tmp_path / "to")})
    assert done.stdout.decode() == f"3 {tmp_path}/to/rosm/librosm.so\n", done.stderr.decode()
    assert (tmp_path / "to/rosm/py.typed").is_file()
    assert '{"step":2,' in (tmp_path / "run.html").read_text()


@pytest.mark.slow
def test_types_are_right() -> None:
    """mypy, where it is there (apt-get install mypy): the packages that others call are typed."""
    found = [python for python in (sys.executable, "/usr/bin/python3")
             if subprocess.run([python, "-c", "import mypy, prompt_toolkit"], capture_output=True,
                               check=False).returncode == 0]
    if not found:
        pytest.skip("mypy or prompt_toolkit isn't there: apt-get install mypy python3-prompt-toolkit")
    names = ["-p", "rosm.machine", "-p", "rosm.marking", "-p", "rosm.terminal", "-m", "rosm.native", "-m", "rosm.programs",
             "-m", "rosm.player"]
    words = [found[0], "-m", "mypy", "--strict", "--follow-imports=silent", "--cache-dir=/dev/null", *names]
    done = subprocess.run(words, capture_output=True, check=False, cwd=ROOT / "python")
    assert done.returncode == 0, done.stdout.decode()
