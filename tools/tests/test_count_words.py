"""How the words of pages are counted, and that each limit is found where it is passed."""
from __future__ import annotations

import importlib.machinery
import importlib.util
import pathlib
import tempfile
import unittest

TOOL = pathlib.Path(__file__).resolve().parent.parent / "count_words"
loader = importlib.machinery.SourceFileLoader("count_words", str(TOOL))
spec = importlib.util.spec_from_loader("count_words", loader)
assert spec
count_words = importlib.util.module_from_spec(spec)
loader.exec_module(count_words)


class Words(unittest.TestCase):
    def test_what_is_a_word(self) -> None:
        self.assertEqual(count_words.words_of("# A title\n\nTwo words, - and & a `third`.\n"), 7)
        self.assertEqual(count_words.words_of("| a | b c |\n|---|---|\n"), 3)

    def test_scripts_and_comments_are_none(self) -> None:
        self.assertEqual(count_words.words_of("one\n    SET R0 0\n<!-- pages/x.txt script -->\ntwo\n"), 2)
        self.assertEqual(count_words.words_of("one\n```\nMOV R0,#1\n```\ntwo\n"), 2)


class Limits(unittest.TestCase):
    def test_pages_within_them(self) -> None:
        self.assertEqual(count_words.faults_of({"docs/A.md": "a\n" * 400, "README.md": "a " * 900}), [])

    def test_all_pages_together(self) -> None:
        pages = {"docs/A.md": "a " * 30_000, "docs/lessons/B.md": "b " * 30_001}
        self.assertEqual(count_words.faults_of(pages), ["docs/ has 60001 words, and may have 60000"])

    def test_the_front_page(self) -> None:
        self.assertEqual(count_words.faults_of({"README.md": "a " * 901}), ["README.md has 901 words, and may have 900"])

    def test_lines(self) -> None:
        self.assertEqual(count_words.faults_of({"docs/A.md": "\n" * 401}), ["docs/A.md has 401 lines, and may have 400"])

    def test_what_is_set_aside(self) -> None:
        with tempfile.TemporaryDirectory() as name:
            root = pathlib.Path(name)
            (root / "docs/lessons").mkdir(parents=True)
            for path in ("README.md", "docs/A.md", "docs/CLAUSES.md", "docs/lessons/B.md"):
                (root / path).write_text("a\n", encoding="utf-8")
            self.assertEqual(list(count_words.pages_of(root)), ["README.md", "docs/A.md", "docs/lessons/B.md"])


if __name__ == "__main__":
    unittest.main()
