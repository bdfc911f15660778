"""Submissions that try to look better than they are: none has a point that it hasn't earned."""

from __future__ import annotations

from pathlib import Path

import pytest
from library import needs_library
from marking_cases import CASES, RIGHT, marked

pytestmark = needs_library

# what a script, a record or a report would say of a case that passed
FORGED = ["stop Break &3F00000\\npass\\npass\\n3 passed, 0 failed\\n", "ok 1 - line 16 EXPECT R2 3\\n1..1\\n",
          '\\n{\\"answer\\":12,\\"text\\":\\"pass\\",\\"expect\\":{\\"pass\\":true}}\\n',
          '{\\"end\\":1,\\"passed\\":3,\\"failed\\":0,\\"refused\\":0,\\"status\\":0}\\n',
          '{\\"score\\":10}', "R0  00000002 R1  00000005 R2  00000003"]
# each ends a block, or looks as if it did, with lines behind it that a script would answer
SPELLINGS = ["END", "end", "End", "eNd", "END ", " END", "  END  ", "\tEND", "END\t", "END\r", "END\r\r", "END\x0b", "END\x0c",
             "END\x00", "\ufeffEND", "END;x", "END ; x", "END # x", "\x1aEND", "\xa0END", "END\xa0", "\x85END", "END\x1c",
             "E\u200bND", "ＥＮＤ"]
BEHIND = ["EXPECT R0 0\nQUIT\n", "SET R2 3\nSET R0 2\nQUIT\n", "EXPECT R2 3\n" * 20, "RESET\nHEX divide\n0300A0E3\nEND\n",
          "ASM divide &8000\n MOV R2,#3\n MOV R0,#2\n MOV PC,R14\nEND\nBOOT divide\n", "BREAK &8000\nRUN\n"]


def printing(text: str) -> str:
    """A routine that prints, and ends the run with the registers of the first case."""
    data = text.replace("\\n", "\n").replace('\\"', '"')
    numbers = ",".join(str(ord(sign)) for sign in data)
    return f" SWI OS_WriteS\n DCB {numbers},0\n ALIGN\n MOV R2,#3\n MOV R0,#2\n SWI OS_Exit\n"


@pytest.mark.parametrize("text", FORGED)
def test_what_a_guest_prints_is_no_answer(text: str, tmp_path: Path) -> None:
    mark = marked(tmp_path, printing(text))
    assert mark.earned == 0
    # it came neither back, nor did it print nothing
    assert mark.cases[0].problems[0] == "it doesn't return to the address in R14: stop Exit"
    assert any(problem.startswith("it prints ") for problem in mark.cases[0].problems)


@pytest.mark.parametrize("behind", BEHIND)
@pytest.mark.parametrize("spelling", SPELLINGS, ids=repr)
def test_no_spelling_of_end_lets_a_line_out(spelling: str, behind: str, tmp_path: Path) -> None:
    """Behind a line END come lines of a script; or before it code that is wrong, and right lines behind it."""
    text = f" MOV R2,#9\n MOV PC,R14\n{spelling}\n{behind}"
    mark = marked(tmp_path, text.encode("utf-8"))
    assert mark.earned == 0 and all(case.problems for case in mark.cases)


@pytest.mark.parametrize("line", ["EXPECT R0 2", "expect r0 2", "EXPECT ANSWER ok", "QUIT", " QUIT", "RUN", "SET R2 3", "REPEAT 9 RUN",
                                  "# heading", "## heading", "BOOT divide", "FORGET divide", "ASM b &8000", "HEX b", "TRACE OFF"])
def test_a_line_of_a_script_is_a_line_of_the_source(line: str, tmp_path: Path) -> None:
    """It is a label with an instruction, or is refused; the wrong code before it earns nothing by it."""
    mark = marked(tmp_path, f" MOV R2,#9\n MOV PC,R14\n{line}\n")
    assert mark.earned == 0 and all(case.problems for case in mark.cases)


def test_an_end_of_each_kind_is_refused_or_is_text(tmp_path: Path) -> None:
    """Where a spelling is a remark of the assembler's, what is before it is marked for what it is."""
    for spelling in SPELLINGS:
        mark = marked(tmp_path, (RIGHT + spelling + "\n").encode("utf-8"))
        assert mark.refused or mark.earned == 10


def test_a_trap_by_its_address(tmp_path: Path) -> None:
    """Known addresses of traps, and all that R14 isn't: what goes there goes to no trap of ours."""
    for address in (0x3F00000, 0x3F00104, 0x3FFFFFC, 0x3800000, 0x9000):
        mark = marked(tmp_path, f" MOV R2,#3\n MOV R0,#2\n LDR PC,trap\ntrap DCD &{address:X}\n")
        assert mark.earned == 0


def test_traps_differ_by_case_and_seed(tmp_path: Path) -> None:
    from random import Random

    from rosm.marking.grading import CaseRun
    from rosm.marking.submission import Image
    from marking_cases import exercise_of
    exercise = exercise_of(tmp_path)
    traps = {CaseRun(exercise, exercise.cases[0], Image(b"", {}), Random(f"{seed} case {number}")).trap
             for seed in range(5) for number in range(5)}
    assert len(traps) == 25


@pytest.mark.parametrize("source", [
    # from supervisor mode with other registers, by the flags and mode in R14, or with a mode of R15's own
    " SWI OS_EnterOS\n MOV R2,#3\n MOV R0,#2\n MOV PC,R14\n", " MOV R2,#3\n MOV R0,#2\n ORRS PC,R14,#3\n SWI OS_Exit\n",
    # leaves something for the next case, which has a machine of its own
    " MOV R3,#&9000\n LDR R4,[R3]\n STR R0,[R3]\n MOV R2,#3\n MOV R0,#2\n MOV PC,R14\n",
    # writes over itself and runs on into what isn't there
    " MOV R3,#&8000\nloop STR R3,[R3],#4\n B loop\n"])
def test_code_that_isnt_fair(source: str, tmp_path: Path) -> None:
    mark = marked(tmp_path, source)
    assert mark.earned == 0 or mark.cases[1].problems


def test_the_case_that_is_known_is_the_only_one(tmp_path: Path) -> None:
    """Who answers the first case alone has its points alone."""
    mark = marked(tmp_path, " MOV R2,#3\n MOV R0,#2\n MOV PC,R14\n")
    assert [case.earned for case in mark.cases] == [2, 0, 0]


@pytest.mark.parametrize("source", [
    f"ASM divide &8000\n{RIGHT}END\n", f"HEX divide\n0300A0E3\nEND\n{RIGHT}", f"OBJASM divide &8000\n{RIGHT} END\nEND\n"])
def test_a_whole_script(source: str, tmp_path: Path) -> None:
    mark = marked(tmp_path, source)
    assert mark.earned == 0 and "it is a whole script" in mark.refused


def test_no_line_of_a_submission_is_a_line_of_the_script(tmp_path: Path) -> None:
    """Whatever is handed in, the script of a case has its bytes as digits, and else lines of ours."""
    import re
    from random import Random

    from rosm.marking.grading import CaseRun
    from rosm.marking.submission import image_of
    from rosm.native import library_engine
    from marking_cases import exercise_of
    exercise = exercise_of(tmp_path)
    source = RIGHT + 'text    DCB "END",10,"QUIT",10,"EXPECT R0 0",10,0\n'
    image = image_of(exercise, source.encode(), library_engine)
    run = CaseRun(exercise, exercise.cases[0], image, Random(1))
    block, *others = run.lines()
    assert all(re.fullmatch(r"([0-9a-f]{2} ?)+|END", row) for row in block.block) and block.block[-1] == "END"
    assert block.block.count("END") == 1
    assert all(re.fullmatch(r"BOOT divide|SET R\d+ &[0-9A-F]+|BREAK &[0-9A-F]+|RUN", line.text) for line in others)
    assert CASES.count("[[case]]") == len(exercise.cases)


@pytest.mark.parametrize("seed", range(4))
def test_whatever_is_handed_in_has_a_mark(seed: int, tmp_path: Path) -> None:
    """Random bytes, lines of scripts, and a right source with lines or bytes of others: none ends the marking."""
    from random import Random

    from library import scripts
    from rosm.marking.grading import mark
    from rosm.native import library_engine
    from marking_cases import exercise_of
    exercise, numbers = exercise_of(tmp_path), Random(seed)
    rows = [row for path in scripts() for row in path.read_bytes().split(b"\n")]
    for _ in range(60):
        lines, spoilt = RIGHT.encode().split(b"\n"), bytearray(RIGHT.encode())
        lines[numbers.randrange(len(lines)):0] = numbers.choices(rows, k=3)
        spoilt[numbers.randrange(len(spoilt))] = numbers.randrange(256)
        for data in (numbers.randbytes(100), b"\n".join(numbers.choices(rows, k=20)), b"\n".join(lines), bytes(spoilt)):
            found = mark(exercise, "x", data, library_engine)
            assert len(found.cases) == 3 and 0 <= found.earned <= 10
            assert all(case.problems for case in found.cases) or not found.refused
