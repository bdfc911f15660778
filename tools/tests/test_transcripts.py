"""How transcripts are read, and that what is wrong with one is found: each check has a case in which it must complain.
These tests need the standard library alone, so that the gate needs no more."""
from __future__ import annotations

import importlib.machinery
import importlib.util
import pathlib
import sys
import unittest
from types import ModuleType
from unittest import mock

TOOLS = pathlib.Path(__file__).resolve().parent.parent
sys.path.insert(0, str(TOOLS))

import malformed  # noqa: E402
import programs  # noqa: E402
from programs import Outcome  # noqa: E402
from transcripts import TRANSCRIPTS, LineError, line_bytes, read, spelling, text_of, with_those_in_front  # noqa: E402


def tool(name: str) -> ModuleType:
    """A tool as a module."""
    loader = importlib.machinery.SourceFileLoader(name, str(TOOLS / name))
    spec = importlib.util.spec_from_loader(name, loader)
    assert spec
    module = importlib.util.module_from_spec(spec)
    sys.modules[name] = module
    loader.exec_module(module)
    return module


run_transcripts = tool("run_transcripts")
run_grid = tool("run_grid")

WHOLE = "# What.\n$ --pages=11 --app=6 a=0Aff*2\n> STEP 1\nat &8004\n> x\n? line 2\n= status 3\n"


# what has no meaning, and how the complaint begins
NO_TRANSCRIPTS = (
    ("", "0: the last line is = status N"),
    ("> STEP 1\n= status 3\n", "1: a line of this kind can't stand here"),
    ("# a\nok\n= status 3\n", "2: a line of this kind can't stand here"),
    ("# a\n> x\n$ --debug\n= status 3\n", "3: a line of this kind can't stand here"),
    ("# a\n> x\n= status 3\n= status 3\n", "4: a line of this kind can't stand here"),
    ("# a\n> x\n= status 3\n! b\n! c\n", "5: a line of this kind can't stand here"),
    ("# a\n> x\n", "2: the last line is = status N"),
    ("# a\n> x\n= status 256\n", "3: no line begins so"),
    ("# a\n>x\n= status 3\n", "2: no line begins so"),
    ("# a\n> \xe9\n= status 3\n", "2: a byte that is not printable; it is written \\xNN"),
    ("# a\n> \\n\n= status 3\n", "2: a backslash stands before \\ # $ > = ! r t xNN, or at the end of the line"),
    ("# a\n$ --tap\n= status 3\n", "2: a word is --debug, --tap or --behind=NAME after it, --pages=N"),
    ("# a\n$ a=0\n= status 3\n", "2: a word is --debug, --tap or --behind=NAME after it, --pages=N"),
    ("# a\n$ a/b=00\n= status 3\n", "2: no file, or one more, can hand in an image of the name a/b"),
)
OUTCOMES = (
    (Outcome(b"at &8004\n? line 2\n", b"", 3), None),
    (Outcome(b"at &8008\n? line 2\n", b"", 3), '4: wanted "at &8004", found "at &8008"'),
    (Outcome(b"at &8004\n? line 2", b"", 3), '6: wanted "? line 2", found "? line 2\\"'),
    (Outcome(b"at &8004\n", b"", 3), '6: wanted "? line 2", found no more'),
    (Outcome(b"at &8004\n? line 2\nok\n", b"", 3), '7: wanted no more, found "ok"'),
    (Outcome(b"at &8004\n? line 2\n", b"", 1), "7: wanted status 3, found status 1"),
    (Outcome(b"at &8004\n? line 2\n", b"", None), "7: wanted status 3, found no end in time"),
    (Outcome(b"at &8004\n? line 2\n", b"oh", 3), "  and standard error has b'oh'"),
)


class Transcripts(unittest.TestCase):
    """Reading, spelling, and differences."""

    def test_a_transcript_is_read(self) -> None:
        transcript = read(WHOLE)
        self.assertEqual(transcript.script, b"STEP 1\nx\n")
        self.assertEqual(transcript.answer, b"at &8004\n? line 2\n")
        self.assertEqual(transcript.answer_lines, [4, 6])
        self.assertEqual((transcript.status, transcript.status_line), (3, 7))
        self.assertEqual(transcript.options, ["--pages=11", "--app=6"])
        self.assertEqual(transcript.images, {"a": b"\x0a\xff\x0a\xff"})

    def test_a_line_without_meaning_is_found(self) -> None:
        for text, complaint in NO_TRANSCRIPTS:
            with self.subTest(text), self.assertRaises(LineError) as caught:
                read(text)
            self.assertEqual(str(caught.exception)[: len(complaint)], complaint)

    def test_a_transcript_stands_behind_another(self) -> None:
        front = "# a\n$ --debug --behind=budgets/empty-script.txt --behind=debug/help.txt\n"
        text = front + "> STEP 0\nat &8000\n= status 3\n"
        alone = read(text)
        self.assertEqual(alone.script, b"STEP 0\n")
        whole, other = with_those_in_front(alone), read(text_of(TRANSCRIPTS / "debug/help.txt"))
        self.assertTrue(other.script)
        self.assertEqual(whole.script, other.script + b"STEP 0\n")
        self.assertEqual(whole.answer, other.answer + b"at &8000\n")
        self.assertEqual(whole.answer_lines, [1] * len(other.answer_lines) + [4])
        for wrong in (text.replace("empty-script", "no"), text.replace("--debug ", "")):
            with self.assertRaises(LineError):
                with_those_in_front(read(wrong))

    def test_bytes_are_spelt(self) -> None:
        self.assertEqual(line_bytes("a\\r\\t\\x1B\\\\\\>"), b"a\r\t\x1b\\>\n")
        self.assertEqual(line_bytes("a\\"), b"a")
        self.assertEqual(spelling(b"a\r\t\x1b\\\xff\n"), "a\\r\\t\\x1B\\\\\\xFF")
        self.assertEqual(spelling(b"a"), "a\\")

    def test_a_difference_is_found(self) -> None:
        for outcome, complaint in OUTCOMES:
            with self.subTest(outcome=outcome):
                self.assertEqual(run_transcripts.complaint_of(read(WHOLE), outcome, False), complaint)

    def test_a_transcript_that_is_wrong_on_purpose_needs_its_complaint(self) -> None:
        wrong = read(WHOLE + '! 4: wanted "at &8004", found "at &8008"\n')
        for address, is_right in ((b"8008", True), (b"8004", False), (b"800C", False)):
            outcome = Outcome(b"at &%s\n? line 2\n" % address, b"", 3)
            self.assertEqual(run_transcripts.complaint_of(wrong, outcome, False) is None, is_right)


class Runs(unittest.TestCase):
    """How a program is run."""

    def test_each_read_of_a_program_is_a_piece(self) -> None:
        reads = "import os\nwhile (piece := os.read(0, 4096)): os.write(1, piece + b'|')"
        self.assertEqual(programs.run([sys.executable, "-c", reads], b"abcdefgh", 3).answer, b"abc|def|gh|")
        self.assertEqual(programs.run([sys.executable, "-c", reads], b"abcdefgh").answer, b"abcdefgh|")

    def test_a_program_without_end_is_ended(self) -> None:
        with mock.patch.object(programs, "SECONDS", 0.2):
            self.assertIsNone(programs.run([sys.executable, "-c", "import time\ntime.sleep(60)"], b"").status)
        self.assertEqual(programs.run([sys.executable, "-c", "import sys\nsys.exit(4)"], b"").status, 4)


# what is typed, and how a machine of three kinds of lines answers it
SCRIPT = "# a\n> STEP 1\nat &8004\n> HEX a\n> 00\n> END\nhex a: 1 bytes\n= status 3\n"


def answered(script: bytes, loses_blocks: bool = False, status: int = 3) -> Outcome:
    """The answers of a small shell that knows STEP n, and HEX with a name of any letters."""
    answer, block, size = b"", False, 0
    for number, line in enumerate(script.split(b"\n"), 1):
        words = line.split(b" ")
        if block and line == b"END":
            answer, block = answer + b"hex a: %d bytes\n" % size, False
        elif block:
            size += len(line) // 2
        elif words[0] == b"STEP" and words[1:] and words[1]:
            answer += b"at &8004\n"
        elif words[0] == b"HEX" and words[1:] and words[1]:
            block, size = True, 0
        elif line:
            answer += b"? line %d\n" % number
    return Outcome(answer + (b"" if loses_blocks or not block else b"hex a: %d bytes\n" % size), b"", status)


STATUSES = (
    (b"", 3),
    (b"ok\nerror 1\n", 3),
    (b"stop Exit\n", 0),
    (b"stop Exit\nat &8004\n", 3),
    (b"stop Budget\n", 3),
    (b"stop Break &8000\n", 3),
    (b"at &8000\nstop ErrorStop 1 &8000\n", 1),
    (b"a stop Exit\n", 3),
)


class Malformed(unittest.TestCase):
    """Scripts that are cut off and changed, for a shell that is right and for others."""

    def test_cuts_are_looked_at(self) -> None:
        self.assertEqual([*malformed.wrong_cuts(SCRIPT, answered)], [])
        for wrong in (
            lambda script: answered(script, loses_blocks=True),
            lambda script: answered(script, status=1),
            lambda script: Outcome(b"at &8004\n" if script else b"", b"", 3),
        ):
            self.assertNotEqual([*malformed.wrong_cuts(SCRIPT, wrong)], [])

    def test_changes_are_looked_at(self) -> None:
        self.assertEqual([*malformed.wrong_changes(SCRIPT, answered)], [])
        wrong = [*malformed.wrong_changes(SCRIPT, lambda script: answered(script, status=0))]
        self.assertEqual(wrong, [*range(malformed.CHANGES)])
        forgetful = [*malformed.wrong_changes(SCRIPT, lambda script: Outcome(b"", b"", 3))]
        self.assertTrue(0 < len(forgetful) < malformed.CHANGES)

    def test_the_last_stop_has_the_status(self) -> None:
        for answer, status in STATUSES:
            with self.subTest(answer=answer):
                self.assertEqual(malformed.status_told(answer), status)


CALLED = Outcome(b"boot a\nerror 1\nregs\n", b"", 3)
STEPPED = Outcome(b"boot a\nat &F000\nregs\nstop ErrorStop 1 &F000\nregs\n", b"", 1)
NO_SUCH_STOP = "as an instruction without the X bit it is no such stop"


def grid_complaints(called: Outcome, stepped: Outcome) -> list[str | None]:
    """What is found of a case whose call, and whose instruction, come to this."""
    begin = run_grid.Session([b"BOOT a"], b"boot a\n")
    session = run_grid.Session([b"SET R0 9", b"CALL &1D", b"REGS"], b"error 1\nregs\n")
    with mock.patch.object(run_grid, "run", lambda _command, script: called if b"CALL" in script else stepped):
        return run_grid.complaints_of(run_grid.Case("heap-get R0-9", 3, begin, session, "rosm"))


class Grid(unittest.TestCase):
    """A case of the grid is run twice."""

    def test_a_case_as_it_says(self) -> None:
        self.assertEqual(grid_complaints(CALLED, STEPPED), [None, None])

    def test_other_answers_are_found(self) -> None:
        for answer in (b"boot a\nerror 2\nregs\n", b"boot a\nerror 1\n", b""):
            self.assertTrue(grid_complaints(Outcome(answer, b"", 3), STEPPED)[0])
        self.assertEqual(grid_complaints(Outcome(CALLED.answer, b"", 1), STEPPED)[0], "wanted status 3, found 1 b''")
        self.assertEqual(grid_complaints(Outcome(b"", b"", None), STEPPED)[0], "no end in time")

    def test_a_refused_instruction_changes_nothing(self) -> None:
        for stepped in (
            Outcome(STEPPED.answer, b"", 3),
            Outcome(STEPPED.answer.replace(b"Stop 1", b"Stop 2"), b"", 1),
            Outcome(STEPPED.answer[:-5] + b"Regs\n", b"", 1),
            Outcome(b"boot a\nat &F000\nstop ErrorStop 1 &F000\n", b"", 1),
        ):
            self.assertEqual(grid_complaints(CALLED, stepped), [None, NO_SUCH_STOP])


if __name__ == "__main__":
    unittest.main()
