"""That the blocks of a page are found as people see them, and that a section which nothing tries is named."""
from __future__ import annotations

import contextlib
import io
import pathlib
import sys
import unittest

sys.path.insert(0, str(pathlib.Path(__file__).resolve().parent.parent))
from gdb_pages import PAGE, SECTIONS, are_all_known, blocks_of, section_of  # noqa: E402

TEXT = """Some words:

    one
      two

More of them.

1. In a list:

        three
        (gdb) four

   Behind it.

2. Next:

        five

At last:

    six
"""


class Blocks(unittest.TestCase):
    def test_they_stand_indented_in_text_and_in_lists(self) -> None:
        self.assertEqual(list(blocks_of(TEXT)), [["one", "  two"], ["three", "(gdb) four"], ["five"], ["six"]])

    def test_a_section_ends_where_the_next_begins(self) -> None:
        page = "# A page\n\n## One\n\nfirst\n\n## Two\n\nsecond\n"
        self.assertEqual(section_of(page, "One").strip(), "first")
        self.assertEqual(section_of(page, "Two").strip(), "second")


class Sections(unittest.TestCase):
    def test_each_is_on_the_page(self) -> None:
        page = PAGE.read_text(encoding="utf-8")
        for section in SECTIONS:
            self.assertTrue(list(blocks_of(section_of(page, section.title))), section.title)

    def test_one_that_nothing_tries(self) -> None:
        with contextlib.redirect_stdout(io.StringIO()) as said:
            self.assertFalse(are_all_known("# A page\n\n## New\n\n    (gdb) continue\n"))
        self.assertIn("New", said.getvalue())
        self.assertTrue(are_all_known("# A page\n\n## New\n\n    socat\n\n## Back\n\n    (gdb) continue\n"))


if __name__ == "__main__":
    unittest.main()
