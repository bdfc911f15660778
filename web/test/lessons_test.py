#!/usr/bin/python3
"""The players of the lessons, docs/lessons/*.html, in a browser: pages that take script and style from beside them."""
import sys
import unittest
from pathlib import Path

HERE = Path(__file__).resolve().parent
LESSONS = HERE.parent.parent / "docs/lessons"
sys.path.insert(0, str(HERE))

try:
    from browser import Browser  # noqa: E402
    from selenium.webdriver.common.keys import Keys
except ImportError as missing:
    WANTED = "there is no selenium here: apt-get install -y chromium chromium-driver python3-selenium"
    if __name__ == "__main__":
        sys.exit("lessons_test: " + WANTED)
    raise unittest.SkipTest(WANTED) from missing

SIZES = [(320, 640), (768, 1024), (1400, 900)]
# Scripts, styles and pictures that a page names, and where they are.
NAMED = ("return [...document.querySelectorAll('[src],link[href]')].map((e) => e.src || e.href)")


class LessonsTest(unittest.TestCase):
    browser: Browser

    @classmethod
    def setUpClass(cls) -> None:
        cls.browser = Browser()
        cls.pages = sorted(LESSONS.glob("*.html"))

    @classmethod
    def tearDownClass(cls) -> None:
        cls.browser.quit()

    def test_each_lesson_has_one(self) -> None:
        self.assertEqual([page.stem for page in self.pages], sorted(lesson.stem for lesson in LESSONS.glob("[0-9]*.md")))
        self.assertGreater(len(self.pages), 8)

    def test_no_message_on_the_console_and_nothing_from_elsewhere(self) -> None:
        for page in self.pages:
            with self.subTest(page.stem):
                self.browser.log()
                self.browser.open(page)
                self.browser.js("const p = rosm.player; for (let i = 0; i <= p.trace.last; i++) p.go(i)")
                self.assertEqual(self.browser.log(), [])
                beside = [f"file://{LESSONS}/{name}" for name in ("player.css", "player.js")]
                self.assertEqual(sorted(self.browser.js(NAMED)), beside)
                fetched = self.browser.js('return performance.getEntriesByType("resource").map(e => e.name)')
                self.assertLessEqual(set(fetched), set(beside))

    def test_what_is_shown_is_the_lesson(self) -> None:
        """At the end of lesson 1 one live block is left, at &9010, as its last HEAP answers; lesson 9 adds 3, 2 and 1."""
        self.browser.open(LESSONS / "1_CARVED.html")
        self.browser.keys(Keys.END)
        left = self.browser.js("return rosm.trace.heaps.at(0x9000).itemsAt(rosm.player.moment).map((i) => [i.kind, i.at, i.size])")
        self.assertEqual(left, [["live", 0x9010, 8]])
        self.assertEqual(len(self.browser.all(".block[data-block]")), 1)
        self.browser.open(LESSONS / "9_TRACE.html")
        self.browser.keys(Keys.END)
        self.assertIn("00000006", self.browser.all(".reg")[0].text)
        self.browser.keys(Keys.HOME)
        self.assertIn("00000000", self.browser.all(".reg")[0].text)

    def test_no_width_scrolls_sideways(self) -> None:
        for size in SIZES:
            for page in self.pages:
                with self.subTest(size=size, page=page.stem):
                    self.browser.open(page, size=size)
                    self.assertLessEqual(self.browser.js("return document.documentElement.scrollWidth"), size[0])


if __name__ == "__main__":
    unittest.main()
