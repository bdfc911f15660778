"""Lines INCLUDE of rosm_debug: the lines of files in their place, and what can't be included."""

from __future__ import annotations

import json
import os
import pty
import subprocess
from pathlib import Path

import pytest

from show.scripts import ROOT, debugger

REMARK = "; INCLUDE {}: lines {} to {} here"


def run(room: Path, *words: str, typed: str = "") -> subprocess.CompletedProcess[str]:
    return subprocess.run(
        [*debugger(), *words], input=typed, cwd=room, capture_output=True, text=True, check=False, timeout=60
    )


def made(room: Path, **texts: str) -> Path:
    """Files of these names, with a point for each `__`, in a folder for each `___`."""
    for name, text in texts.items():
        path = room / name.replace("___", "/").replace("__", ".")
        path.parent.mkdir(exist_ok=True)
        path.write_text(text)
    return room


def test_lines_stand_in_place(tmp_path: Path) -> None:
    made(tmp_path, main__script="EXPECT R0 0\nINCLUDE one.script\nEXPECT R0 2\n", one__script="SET R0 2\nEXPECT R0 2\n")
    done = run(tmp_path, "--script", "main.script")
    assert (done.stdout, done.stderr, done.returncode) == ("pass\npass\npass\n3 passed, 0 failed\n", "", 0)


def test_numbers_count_in_the_whole_text(tmp_path: Path) -> None:
    made(tmp_path, main__script="SET R0 1\ninclude\tone.script ; two lines\nEXPECT R0 2\n", one__script="SET R0 2\nFOO")
    done = run(tmp_path, "--transcript", "--script", "main.script")
    assert done.stdout.splitlines() == [
        "> SET R0 1",
        "> " + REMARK.format("one.script", 3, 4),
        "> SET R0 2",
        "> FOO",
        "? line 4: no such line; HELP lists them",
        "> EXPECT R0 2",
        "pass",
        "1 passed, 0 failed, 1 refused",
    ]
    assert done.returncode == 5


def test_paths_count_from_the_script(tmp_path: Path) -> None:
    made(
        tmp_path,
        main__script="INCLUDE sub/one.script\nEXPECT R0 3\n",
        sub___one__script="INCLUDE two.script\nINCLUDE ../three.script\n",
        sub___two__script="EXPECT R0 0\n",
        three__script=f"INCLUDE {tmp_path}/four.script\n",
        four__script="SET R0 3\n",
    )
    (tmp_path / "away").mkdir()
    done = run(tmp_path / "away", "--script", "../main.script")
    assert (done.stdout, done.returncode) == ("pass\npass\n2 passed, 0 failed\n", 0)


def test_standard_input_counts_from_the_folder(tmp_path: Path) -> None:
    made(tmp_path, one__script="SET R0 4\n")
    done = run(tmp_path, typed="INCLUDE one.script\nEXPECT R0 4")
    assert (done.stdout, done.returncode) == ("pass\n1 passed, 0 failed\n", 0)
    unended = run(tmp_path, typed="INCLUDE one.script")
    assert (unended.stdout, unended.stderr, unended.returncode) == ("", "", 3)


def test_a_line_of_a_block_is_the_blocks(tmp_path: Path) -> None:
    done = run(tmp_path, typed="ASM a &8000\nINCLUDE gone\nEND\nEXPECT R0 0\n")
    assert done.stdout.startswith("asm a: line 1: ") and done.stdout.endswith("pass\n1 passed, 0 failed, 1 refused\n")
    assert done.stderr == ""


def test_a_block_of_two_files(tmp_path: Path) -> None:
    made(tmp_path, main__script="INCLUDE open.script\nINCLUDE gone\nEND\nEXPECT R0 0\n", open__script="HEX a\n00\n")
    done = run(tmp_path, "--script", "main.script")
    assert done.stderr == "" and "INCLUDE" not in done.stdout and done.stdout.endswith("pass\n1 passed, 0 failed, 1 refused\n")
    made(tmp_path, main__script="INCLUDE open.script\n01\nEND\nINCLUDE ends.script\n", ends__script="HEX b\n02\nEND\n")
    assert run(tmp_path, "--script", "main.script").stdout == "hex a: 2 bytes\nhex b: 1 bytes\n"


@pytest.mark.parametrize("line, reason", [
    ("INCLUDE", "INCLUDE wants one file"),
    ("INCLUDE one.script two.script", "INCLUDE wants one file"),
    ("INCLUDE gone.script", 'INCLUDE "sub/gone.script": no such file'),
    ("INCLUDE .", 'INCLUDE "sub/.": a directory'),
    ("INCLUDE large.script", 'INCLUDE "sub/large.script": more than 1048576 bytes'),
    ("INCLUDE \udcff", "a path is text in UTF-8"),
])
def test_what_includes_no_file(tmp_path: Path, line: str, reason: str) -> None:
    (tmp_path / "sub").mkdir()
    (tmp_path / "sub/large.script").write_text("\n" * 1_048_577)
    (tmp_path / "sub/one.script").write_bytes(f"EXPECT R0 0\n{line}\n".encode(errors="surrogateescape"))
    (tmp_path / "main.script").write_text("EXPECT R1 0\n\nINCLUDE sub/one.script\nEXPECT R0 1\n")
    done = run(tmp_path, "--script", "sub/one.script")
    assert (done.stdout, done.returncode) == ("pass\n", 4)
    assert done.stderr == f'rosm_debug: "sub/one.script" line 2: {reason}\n'
    within = run(tmp_path, "--script", "main.script")
    assert (within.stdout, within.stderr, within.returncode) == ("pass\n", done.stderr, 4)
    for form in ("--transcript", "--json"):
        whole = run(tmp_path, form, "--script", "main.script")
        assert (whole.stdout, whole.stderr, whole.returncode) == ("", done.stderr, 4)


def test_files_that_include_themselves(tmp_path: Path) -> None:
    made(tmp_path, main__script="INCLUDE one.script\n", one__script="\nINCLUDE two.script\n", two__script="INCLUDE one.script\n")
    done = run(tmp_path, "--script", "main.script")
    assert (done.stdout, done.returncode) == ("", 4)
    assert done.stderr == (
        'rosm_debug: "two.script" line 1: INCLUDE "one.script": files include one another more than 8 deep\n'
    )


def test_eight_files_deep(tmp_path: Path) -> None:
    for n in range(1, 10):
        (tmp_path / f"{n}.script").write_text(f"INCLUDE {n + 1}.script\n" if n < 9 else "EXPECT R0 0\n")
    assert run(tmp_path, "--script", "1.script").stdout == "pass\n1 passed, 0 failed\n"
    (tmp_path / "0.script").write_text("INCLUDE 1.script\n")
    assert run(tmp_path, "--script", "0.script").stderr == (
        'rosm_debug: "8.script" line 1: INCLUDE "9.script": files include one another more than 8 deep\n'
    )


def test_files_that_grow_too_large(tmp_path: Path) -> None:
    made(tmp_path, main__script="INCLUDE ten.script\n", ten__script="INCLUDE one.script\n" * 11, one__script="\n" * 100_000)
    done = run(tmp_path, "--script", "main.script")
    assert (done.returncode, done.stderr) == (
        4, 'rosm_debug: "main.script" line 1: INCLUDE "ten.script": more than 1048576 bytes with what it includes\n'
    )


def test_a_script_and_then_standard_input(tmp_path: Path) -> None:
    made(tmp_path, sub___main__script="INCLUDE one.script", sub___one__script="SET R0 4", two__script="EXPECT R0 4\n")
    done = run(tmp_path, "--script", "sub/main.script", "-i", typed="INCLUDE two.script\n")
    assert (done.stdout, done.returncode) == ("pass\n1 passed, 0 failed\n", 0)
    made(tmp_path, sub___main__script="INCLUDE gone")
    done = run(tmp_path, "--script", "sub/main.script", "-i", typed="EXPECT R0 0\n")
    assert (done.stdout, done.stderr) == ("", 'rosm_debug: "sub/main.script" line 1: INCLUDE "sub/gone": no such file\n')
    made(tmp_path, sub___main__script="EXPECT R0 0")
    done = run(tmp_path, "--script", "sub/main.script", "-i", typed="\nINCLUDE gone\n")
    assert (done.stdout, done.stderr, done.returncode) == (
        "pass\n", 'rosm_debug: standard input line 2: INCLUDE "gone": no such file\n', 4
    )


def test_the_protocol_and_records(tmp_path: Path) -> None:
    made(tmp_path, main__script="INCLUDE one.script\nEXPECT R0 1\n", one__script="EXPECT R0 0\n")
    tapped = run(tmp_path, "--tap", "--script", "main.script").stdout.splitlines()
    assert [line for line in tapped if "ok" in line.split()] == [
        "ok 1 - line 2 EXPECT R0 0", "not ok 2 - line 3 EXPECT R0 1"
    ]
    done = run(tmp_path, "--json", "--script", "main.script")
    records = [json.loads(line) for line in done.stdout.splitlines()]
    assert REMARK.format("one.script", 2, 2) in json.dumps(records) and done.returncode == 5


def test_a_person_types_on(tmp_path: Path) -> None:
    made(tmp_path, one__script="SET R0 4\n")
    host, guest = pty.openpty()
    os.write(host, b"INCLUDE gone\nINCLUDE one.script\nEXPECT R0 4\nQUIT\n")
    done = subprocess.run(
        debugger(), stdin=guest, cwd=tmp_path, capture_output=True, text=True, check=False, timeout=60
    )
    os.close(host)
    os.close(guest)
    assert done.stderr == 'rosm_debug: standard input line 1: INCLUDE "gone": no such file\n'
    assert "pass" in done.stdout and done.returncode == 0


def test_the_library_of_riscos(tmp_path: Path) -> None:
    lines = "SET PSR SVC\nSET R0 &12AB\nSET R1 &8000\nSET R2 9\nGOSUB convert:hex8\nDUMP &8000 9\n"
    done = run(tmp_path, typed=f"INCLUDE {ROOT}/examples/riscos/convert.script\n{lines}")
    assert "00008000: 30 30 30 30 31 32 41 42 00  000012AB." in done.stdout.splitlines() and done.stderr == ""
