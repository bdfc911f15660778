#!/usr/bin/python3
"""A run of 200,000 steps in a browser: how long its page takes to load, and to step. Nothing else may run beside it."""
import sys
import tempfile
import unittest
from pathlib import Path

HERE = Path(__file__).resolve().parent
sys.path[:0] = [str(HERE), str(HERE.parent.parent / "tools")]
from long_run import records  # noqa: E402
from web_pages import player_page  # noqa: E402

try:
    from browser import Browser  # noqa: E402
except ImportError as missing:
    WANTED = "there is no selenium here: apt-get install -y chromium chromium-driver python3-selenium"
    if __name__ == "__main__":
        sys.exit("long_test: " + WANTED)
    raise unittest.SkipTest(WANTED) from missing

STEPS = 200_000
MOST_TO_LOAD, MOST_TO_STEP = 2000, 20
# A busy machine is slow now and then: the best of so many counts.
TRIES = 3


class LongRunTest(unittest.TestCase):
    browser: Browser

    @classmethod
    def setUpClass(cls) -> None:
        cls.browser = Browser()

    @classmethod
    def tearDownClass(cls) -> None:
        cls.browser.quit()

    def test_it_loads_and_steps_in_time(self) -> None:
        data = records(STEPS)
        with tempfile.TemporaryDirectory(prefix="rosm-pages-") as folder:
            page = Path(folder) / "long.html"
            for name, plain in (("packed", False), ("plain", True)):
                with self.subTest(name):
                    page.write_text(player_page(data, plain), encoding="utf-8")
                    loads, steps = zip(*[self.load_and_step(page) for _ in range(TRIES)])
                    print(f"{name}: {len(data)} bytes, loaded in {min(loads):.0f} ms, a step in {min(steps):.1f} ms", file=sys.stderr)
                    self.assertLess(min(loads), MOST_TO_LOAD, loads)
                    self.assertLess(min(steps), MOST_TO_STEP, steps)

    def load_and_step(self, page: Path) -> tuple[float, float]:
        """Milliseconds that loading takes, and a step of a hundred."""
        browser = self.browser
        browser.open(page, "#step=150000")
        self.assertEqual(browser.step(), 150000)
        self.assertIn("0000C350", browser.all(".reg")[0].text)
        load = browser.js("return rosm.times.drawn - rosm.times.begin")
        each = browser.js("const p = rosm.player, from = performance.now();"
                          "for (let i = 1; i <= 100; i++) { p.go(p.moment + 1); document.body.offsetHeight; }"
                          "return (performance.now() - from) / 100")
        self.assertEqual(browser.step(), 150100)
        browser.driver.get("about:blank")
        return load, each


if __name__ == "__main__":
    unittest.main()
