"""That a screen is read as people read it, and that one which lacks something is found."""
from __future__ import annotations

import pathlib
import sys
import unittest

sys.path.insert(0, str(pathlib.Path(__file__).resolve().parent.parent))
from gdb_windows import Look, is_shown, rows_of  # noqa: E402

SCREEN = """+-some.script--------+
|        2  start    |
|  >     3   MOV R0  |
+--------------------+
remote In: start   L3
(gdb) stepi
"""


class Screens(unittest.TestCase):
    def test_rows_have_neither_frames_nor_blanks(self) -> None:
        self.assertEqual(rows_of(SCREEN)[1:3], ["2 start", "> 3 MOV R0"])

    def test_what_is_shown_in_its_order(self) -> None:
        self.assertTrue(is_shown(SCREEN, Look("stepi", ("2 start", "> 3 MOV R0", "In: start L3"))))
        self.assertTrue(is_shown(SCREEN, Look("stepi", ("> 3", "MOV R0"))))

    def test_what_is_missing_or_in_another_order(self) -> None:
        self.assertFalse(is_shown(SCREEN, Look("stepi", ("> 2 start",))))
        self.assertFalse(is_shown(SCREEN, Look("stepi", ("> 3 MOV R0", "2 start"))))
        self.assertFalse(is_shown("", Look("stepi", ("(gdb)",))))

    def test_what_must_be_gone(self) -> None:
        self.assertFalse(is_shown(SCREEN, Look("stepi", ("2 start",), gone=("> 3",))))
        self.assertTrue(is_shown(SCREEN, Look("stepi", ("2 start",), gone=("> 4",))))


if __name__ == "__main__":
    unittest.main()
