"""Lines SAVE of rosm_debug: the files that they write, and what can't be written."""

from __future__ import annotations

import os
import pty
import subprocess
from pathlib import Path

import pytest

from show.scripts import debugger

# MOV R0,#7 and SWI OS_Exit, as the data sheet of the ARM gives their bits
CODE = bytes.fromhex("0700a0e3 110000ef")
MODULE = "HEX pots\n07 00 A0 E3\n11 00 00 EF\nEND\n"
NOTE = "rosm_debug: save {}: {} bytes\n"


def run(room: Path, *words: str, typed: str = "") -> subprocess.CompletedProcess[str]:
    return subprocess.run(
        [*debugger(), *words], input=typed, cwd=room, capture_output=True, text=True, check=False, timeout=60
    )


def test_an_image_is_saved(tmp_path: Path) -> None:
    done = run(tmp_path, typed=MODULE + "SAVE pots lib\nEXPECT R0 0\n")
    assert (done.stdout, done.stderr, done.returncode) == (
        "hex pots: 8 bytes\npass\n1 passed, 0 failed\n", NOTE.format("lib", 8), 0
    )
    assert (tmp_path / "lib").read_bytes() == CODE


def test_memory_is_saved(tmp_path: Path) -> None:
    script = 'POKE &9000 "Pots"\nPOKE &9004 BYTES 0 255\nsave\t&9000 6 table ; its end\nSAVE 36869 1 last\n'
    done = run(tmp_path, typed=script + "EXPECT BYTE &9005 255\n")
    assert (done.stdout, done.returncode) == ("pass\n1 passed, 0 failed\n", 0)
    assert done.stderr == NOTE.format("table", 6) + NOTE.format("last", 1)
    assert (tmp_path / "table").read_bytes() == b"Pots\0\xff"
    assert (tmp_path / "last").read_bytes() == b"\xff"


def test_each_line_saves_what_is_there_then(tmp_path: Path) -> None:
    lines = [f"POKE &9000 {n}\nSAVE &9000 4 word{n}\n" for n in range(1, 40)]
    done = run(tmp_path, typed="".join(lines) + "EXPECT WORD &9000 39\n")
    assert done.stdout == "pass\n1 passed, 0 failed\n"
    for n in range(1, 40):
        assert (tmp_path / f"word{n}").read_bytes() == n.to_bytes(4, "little")


def test_a_line_across_pieces_of_input(tmp_path: Path) -> None:
    for length in range(4060, 4100):
        done = run(tmp_path, typed="#" * length + "\nPOKE &9000 7\nSAVE &9000 1 seven\nEXPECT R0 0")
        assert (done.stdout, done.stderr) == ("pass\n1 passed, 0 failed\n", NOTE.format("seven", 1))
        assert (tmp_path / "seven").read_bytes() == b"\7"
        (tmp_path / "seven").unlink()


def test_an_empty_image_and_a_file_that_is_there(tmp_path: Path) -> None:
    (tmp_path / "lib").write_text("longer than the image is")
    (tmp_path / "none").write_text("")
    done = run(tmp_path, "none", typed=MODULE + "SAVE pots lib\nSAVE none nothing")
    assert done.stderr == NOTE.format("lib", 8) + NOTE.format("nothing", 0)
    assert (tmp_path / "lib").read_bytes() == CODE and (tmp_path / "nothing").read_bytes() == b""


def test_what_was_saved_is_read_again(tmp_path: Path) -> None:
    assert run(tmp_path, typed=MODULE + "SAVE pots code\n").stdout == "hex pots: 8 bytes\n"
    done = run(tmp_path, "code", typed="BOOT code\nRUN\nEXPECT R0 7\n")
    assert (done.stdout, done.returncode) == ("boot code\nstop Exit\npass\n1 passed, 0 failed\n", 0)


def test_paths_count_from_the_script(tmp_path: Path) -> None:
    (tmp_path / "sub/lib").mkdir(parents=True)
    (tmp_path / "sub/main.script").write_text(MODULE + "SAVE pots lib/pots\nSAVE pots ../pots\n")
    done = run(tmp_path, "--script", "sub/main.script")
    assert done.stderr == NOTE.format("sub/lib/pots", 8) + NOTE.format("sub/../pots", 8)
    assert (tmp_path / "sub/lib/pots").read_bytes() == CODE == (tmp_path / "pots").read_bytes()


def test_numbers_of_lines_go_on(tmp_path: Path) -> None:
    done = run(tmp_path, typed="\nSAVE &8000 1 byte\nFOO\n")
    assert done.stdout == "? line 3: no such line; HELP lists them\n"
    tapped = run(tmp_path, "--tap", typed="SAVE &8000 1 byte\nEXPECT R0 0\n")
    assert (tapped.stdout, tapped.stderr) == ("ok 1 - line 2 EXPECT R0 0\n1..1\n", NOTE.format("byte", 1))


def test_a_line_of_a_block_and_one_behind_quit(tmp_path: Path) -> None:
    done = run(tmp_path, typed="ASM a &8000\nSAVE a lib\nEND\nQUIT\nSAVE &8000 1 lib\n")
    assert done.stdout.startswith("asm a: line 1: ") and done.stderr == "" and not (tmp_path / "lib").exists()


@pytest.mark.parametrize("line, reason", [
    ("SAVE", "SAVE wants an image and a file, as SAVE pots lib/pots, or an address, how many bytes and a file, as SAVE &9000 64 table"),
    ("SAVE gone lib", 'SAVE "lib": refused NoImage'),
    ("SAVE &FFF 1 lib", 'SAVE "lib": refused DataUnmapped'),
    ("SAVE &8000 67108864 lib", 'SAVE "lib": refused DataUnmapped'),
    ("SAVE &4000000 1 lib", 'SAVE "lib": refused DataUnmapped'),
    ("SAVE &8000 1 gone/lib", 'SAVE "gone/lib": no such folder'),
    ("SAVE &8000 1 .", 'SAVE ".": a directory'),
])
def test_what_saves_nothing(tmp_path: Path, line: str, reason: str) -> None:
    (tmp_path / "main.script").write_text(f"EXPECT R0 0\n{line}\nEXPECT R0 1\n")
    done = run(tmp_path, "--script", "main.script")
    assert (done.stdout, done.returncode) == ("pass\n", 4)
    assert done.stderr == f'rosm_debug: "main.script" line 2: {reason}\n'
    assert [path.name for path in tmp_path.iterdir()] == ["main.script"]


@pytest.mark.parametrize("words", ["pots", "pots a b c", "&8000 0 lib", "&8000 67108865 lib", "R0 x lib", "pots \udcff"])
def test_words_that_name_nothing(tmp_path: Path, words: str) -> None:
    (tmp_path / "main.script").write_bytes(f"SAVE {words}\n".encode(errors="surrogateescape"))
    done = run(tmp_path, "--script", "main.script")
    assert done.returncode == 4 and done.stderr.startswith('rosm_debug: "main.script" line 1: SAVE wants an image')
    assert [path.name for path in tmp_path.iterdir()] == ["main.script"]


@pytest.mark.parametrize("form", ["--transcript", "--json"])
def test_forms_that_read_a_script_whole(tmp_path: Path, form: str) -> None:
    done = run(tmp_path, form, typed=MODULE + "SAVE pots lib\n")
    assert (done.stdout, done.returncode) == ("", 4) and not (tmp_path / "lib").exists()
    assert done.stderr == "rosm_debug: standard input line 5: SAVE isn't read with --transcript and --json\n"


def test_a_script_and_then_standard_input(tmp_path: Path) -> None:
    (tmp_path / "sub").mkdir()
    (tmp_path / "sub/main.script").write_text(MODULE + "SAVE pots one")
    done = run(tmp_path, "--script", "sub/main.script", "-i", typed="SAVE pots two\nEXPECT R0 0\n")
    assert (done.stdout, done.returncode) == ("hex pots: 8 bytes\npass\n1 passed, 0 failed\n", 0)
    assert done.stderr == NOTE.format("sub/one", 8) + NOTE.format("two", 8)
    assert (tmp_path / "sub/one").read_bytes() == CODE == (tmp_path / "two").read_bytes()


def test_an_included_file_saves_nothing(tmp_path: Path) -> None:
    (tmp_path / "main.script").write_text("EXPECT R0 0\nINCLUDE one.script\n")
    (tmp_path / "one.script").write_text("SAVE &8000 1 lib\nEXPECT R0 0\n")
    done = run(tmp_path, "--script", "main.script")
    assert (done.stdout, done.returncode) == ("pass\n", 4) and not (tmp_path / "lib").exists()
    assert done.stderr == 'rosm_debug: "main.script" line 2: INCLUDE "one.script": it has a line SAVE\n'


def test_a_person_types_on(tmp_path: Path) -> None:
    host, guest = pty.openpty()
    os.write(host, b"SAVE gone lib\nSAVE &8000 4 lib\nEXPECT R0 0\nQUIT\n")
    done = subprocess.run(
        debugger(), stdin=guest, cwd=tmp_path, capture_output=True, text=True, check=False, timeout=60
    )
    os.close(host)
    os.close(guest)
    assert done.stderr == 'rosm_debug: standard input line 1: SAVE "lib": refused NoImage\n' + NOTE.format("lib", 4)
    assert "pass" in done.stdout and done.returncode == 0 and (tmp_path / "lib").read_bytes() == bytes(4)
