#!/usr/bin/python3
"""The player in a browser: web/test/browser_test.py, with chromium, chromium-driver and python3-selenium of Debian."""
import sys
import tempfile
import time
import unittest
from pathlib import Path

HERE = Path(__file__).resolve().parent
sys.path[:0] = [str(HERE), str(HERE.parent.parent / "tools")]
from web_pages import player_page  # noqa: E402

try:
    from browser import Browser  # noqa: E402
    from selenium.webdriver.common.action_chains import ActionChains
    from selenium.webdriver.common.keys import Keys
except ImportError as missing:
    WANTED = "there is no selenium here: apt-get install -y chromium chromium-driver python3-selenium"
    if __name__ == "__main__":
        sys.exit("browser_test: " + WANTED)
    raise unittest.SkipTest(WANTED) from missing

SIZES = [(320, 640), (400, 800), (768, 1024), (1000, 800), (1280, 720), (1400, 900), (1920, 1080)]
BUG = "use-after-free"


class PlayerTest(unittest.TestCase):
    browser: Browser
    folder: "tempfile.TemporaryDirectory[str]"

    @classmethod
    def setUpClass(cls) -> None:
        cls.folder = tempfile.TemporaryDirectory(prefix="rosm-pages-")
        for sample in sorted((HERE / "data").glob("*.jsonl")):
            cls.make(sample.stem, sample.read_bytes())
        cls.browser = Browser()

    @classmethod
    def tearDownClass(cls) -> None:
        cls.browser.quit()
        cls.folder.cleanup()

    @classmethod
    def make(cls, name: str, data: bytes, plain: bool = False) -> None:
        cls.page(name).write_text(player_page(data, plain), encoding="utf-8")

    @classmethod
    def page(cls, name: str) -> Path:
        return Path(cls.folder.name) / f"{name}.html"

    def open(self, name: str, *words: str, **how: object) -> Browser:
        self.browser.open(self.page(name), *words, **how)  # type: ignore[arg-type]
        return self.browser

    def register(self, n: int) -> str:
        return self.browser.all(".reg")[n].text

    # ---- nothing but what is in the page

    def test_every_page_opens_without_a_message_on_the_console(self) -> None:
        for page in sorted(Path(self.folder.name).glob("*.html")):
            with self.subTest(page.stem):
                self.browser.log()
                browser = self.open(page.stem)
                browser.js("const p = rosm.player, n = p.trace.last;"
                           "for (let i = 0; i <= n; i += Math.max(1, n >> 5)) p.go(i); p.go(n)")
                self.assertEqual(browser.log(), [])

    def test_nothing_is_fetched(self) -> None:
        html = self.page(BUG).read_text(encoding="utf-8")
        self.assertNotRegex(html.split('id="trace"')[0], r'\b(src|href)\s*=\s*"(?!#)')
        browser = self.open(BUG)
        self.assertEqual(browser.js('return performance.getEntriesByType("resource").map(e => e.name)'), [])

    def test_hostile_bytes_stay_text(self) -> None:
        browser = self.open("hostile")
        for moment in range(browser.js("return rosm.trace.last") + 1):
            browser.go(moment)
        self.assertIsNone(browser.js("return window.hacked ?? null"))
        self.assertEqual(browser.js('return document.querySelectorAll("#player img, #player script, h1 *").length'), 0)
        self.assertIn("</script><script>window.hacked=3", browser.text("#output"))
        self.assertIn("<img src=x", browser.text("h1"))

    # ---- moving

    def test_keys(self) -> None:
        browser = self.open(BUG)
        self.assertEqual(browser.moment(), 0)
        browser.keys(Keys.ARROW_RIGHT, Keys.ARROW_RIGHT, Keys.ARROW_RIGHT)
        self.assertEqual(browser.moment(), 3)
        browser.keys(Keys.ARROW_LEFT)
        self.assertEqual(browser.moment(), 2)
        browser.keys(Keys.END)
        self.assertEqual(browser.moment(), browser.js("return rosm.trace.last"))
        browser.keys(Keys.HOME)
        self.assertEqual(browser.moment(), 0)
        ActionChains(browser.driver).key_down(Keys.SHIFT).send_keys(Keys.ARROW_RIGHT).key_up(Keys.SHIFT).perform()
        self.assertEqual(browser.moment(), 10)
        browser.keys(Keys.PAGE_DOWN)
        self.assertEqual(browser.step(), 108)
        browser.keys(Keys.PAGE_DOWN)
        self.assertIn("EXPECT OUTPUT", browser.text("#what"))
        browser.keys(Keys.PAGE_UP)
        self.assertEqual(browser.step(), 1)
        browser.keys(Keys.HOME, "h")
        self.assertIn("heap &9000 made", browser.text("#effects") + browser.text("#now"))
        browser.keys("f")
        self.assertIn("error", browser.text("#now"))
        browser.keys("x")
        self.assertEqual(browser.js("return rosm.player.format"), "dec")

    def test_keyboard_alone_finds_who_wrote_a_word(self) -> None:
        browser = self.open(BUG, "#step=108")
        self.assertTrue(browser.tab_to("words"))
        at = lambda: browser.js("return rosm.player.chosen && rosm.player.chosen.word")
        browser.keys(Keys.ARROW_DOWN)
        for _ in range(80):
            if at() == 0x9028:
                break
            browser.keys(Keys.ARROW_RIGHT)
        self.assertEqual(at(), 0x9028)
        browser.keys(Keys.ENTER)
        self.assertEqual(browser.step(), 63)

    def test_tab_reaches_each_part_once(self) -> None:
        browser = self.open(BUG, "#step=63")
        seen: list[str] = []
        for _ in range(60):
            browser.keys(Keys.TAB)
            seen.append(browser.js("const e = document.activeElement; return e.id || e.className.split(' ')[0] || e.tagName"))
        first = seen.index("slider")
        again = seen.index("slider", first + 1) if seen.count("slider") > 1 else len(seen)
        for part in ("slider", "play", "speed", "row", "line", "reg", "words", "block"):
            self.assertEqual(seen[first:again].count(part), 1, f"{part} of {' '.join(seen[first:again])}")

    def test_play_and_stop(self) -> None:
        browser = self.open(BUG)
        browser.keys(" ")
        self.assertTrue(browser.until(lambda: browser.moment() > 2, 20))
        self.assertEqual(browser.one("#play").get_attribute("aria-pressed"), "true")
        browser.keys(" ")
        moment = browser.moment()
        time.sleep(1.2)
        self.assertEqual(browser.moment(), moment)

    def test_letters_can_be_switched_off(self) -> None:
        browser = self.open(BUG)
        browser.keys("?")
        self.assertTrue(browser.one("#keys").is_displayed())
        browser.one("#keys input").click()
        browser.keys(Keys.ESCAPE)
        browser.keys("h")
        self.assertEqual(browser.moment(), 0)
        browser.js("localStorage.clear(); rosm.player.lettersAreKeys = true")
        browser.keys("h")
        self.assertGreater(browser.moment(), 0)

    def test_the_address_names_the_moment_both_ways(self) -> None:
        browser = self.open(BUG, "#step=63")
        self.assertEqual(browser.step(), 63)
        browser.keys(Keys.ARROW_RIGHT)
        self.assertTrue(browser.until(lambda: browser.driver.current_url.endswith("#step=64")))
        self.open(BUG, "#line=65")
        self.assertIn("EXPECT OUTPUT", browser.text("#what"))
        browser.js('location.hash = "#step=20"')
        self.assertTrue(browser.until(lambda: browser.step() == 20))
        self.open(BUG, "#step=99999")
        self.assertEqual(browser.step(), 108)

    # ---- what is shown

    def test_who_wrote_this_word(self) -> None:
        browser = self.open(BUG)
        browser.keys(Keys.END)
        browser.js("document.querySelector('#words [data-word=\"36904\"]').click()")
        self.assertIn("last written at step 63, line 33", browser.text("#inspector"))
        self.assertEqual([row.get_attribute("data-key") for row in browser.all(".row.writer")], ["33"])
        next(button for button in browser.all("#inspector .go") if "last write" in button.text).click()
        self.assertEqual(browser.step(), 63)
        self.assertIn("STR R0,[R6,#4]", browser.text("#what"))
        self.assertIn("lit", browser.one('.row[data-key="33"]').get_attribute("class"))

    def test_a_line_leads_to_its_next_time(self) -> None:
        browser = self.open(BUG)
        row = browser.one('.row[data-key="14"]')
        seen = []
        for _ in range(4):
            row.click()
            seen.append(browser.step())
        self.assertEqual(seen[0], seen[3])
        self.assertEqual(len(set(seen)), 3)
        self.assertIn("lit", row.get_attribute("class"))

    def test_failures_are_one_click_away(self) -> None:
        browser = self.open(BUG)
        badge = browser.one("#results .bad")
        self.assertIn("2 failed", badge.text)
        badge.click()
        self.assertIn("fail: the output is", browser.text("#now"))
        self.assertIn("fail", browser.one(".line.current").get_attribute("class"))

    def test_registers_heap_and_output_are_those_of_the_moment(self) -> None:
        browser = self.open(BUG, "#step=63")
        self.assertIn("00009024", self.register(6))
        self.assertIn("was #2, now #4", self.register(6))
        numbers = [block.text.split()[0] for block in browser.all(".block[data-block]")]
        self.assertEqual(numbers, ["#1", "#4", "#3"])
        browser.keys(Keys.END)
        self.assertTrue(browser.text("#output").startswith("Hellc"))

    def test_a_block_shows_its_life(self) -> None:
        browser = self.open("churn", "#step=500")
        block = browser.one(".block[data-block]")
        browser.js("arguments[0].click()", block)
        self.assertRegex(browser.text("#inspector"), r"block #\d+[\s\S]*claimed at step \d+, line \d+")
        self.assertIn("claimed at step", block.get_attribute("aria-label"))

    def test_the_strip_leads_to_a_moment(self) -> None:
        browser = self.open("churn")
        ActionChains(browser.driver).move_to_element(browser.one(".strip canvas")).click().perform()
        self.assertGreater(browser.step(), 50)
        browser.open(self.page("self-test"))
        ActionChains(browser.driver).move_to_element(browser.one("#path")).click().perform()
        self.assertGreater(browser.step(), 20)

    def test_formats(self) -> None:
        browser = self.open(BUG, "#step=63")
        for name, shown in (("dec", "99"), ("chr", "c···"), ("hex", "00000063")):
            next(button for button in browser.all("#formats button") if button.text == name).click()
            self.assertIn(shown, self.register(0))

    def test_frames_of_module_code(self) -> None:
        browser = self.open("notes", "#step=60")
        self.assertIn("SWI &40001", browser.text("#frames"))
        self.assertIn("SVC", browser.text("#psr"))

    # ---- widths, print, and who reads it

    def test_no_width_scrolls_sideways(self) -> None:
        for size in SIZES:
            for name in (BUG, "churn", "notes", "flex", "debug-sum", "lesson-areas"):
                with self.subTest(size=size, page=name):
                    browser = self.open(name, size=size)
                    browser.keys(Keys.END)
                    self.assertLessEqual(browser.js("return document.documentElement.scrollWidth"), size[0])

    def test_panels_keep_their_places(self) -> None:
        browser = self.open("churn")
        places = lambda: browser.js(
            'return ["program","cpu","memory","heaps"].map(id => { const r = document.getElementById(id)'
            ".getBoundingClientRect(); return [r.left, r.top, r.width, r.height].map(Math.round) })")
        first = None
        for step in (100, 200, 300, 450, 600, 700):
            browser.go(step)
            time.sleep(0.1)
            first = first or places()
            self.assertEqual(places(), first, step)

    def test_all_that_can_be_used_has_a_name(self) -> None:
        browser = self.open("notes", "#step=60")
        nameless = browser.js("""
            const what = "button,input,select,canvas[role],[role=group],[role=img],section";
            const name = e => e.getAttribute("aria-label") || e.getAttribute("aria-labelledby") || e.textContent.trim() || e.title;
            return [...document.querySelectorAll(what)].filter(e => e.offsetParent !== null && !name(e) && !e.closest("label"))
                .map(e => e.outerHTML.slice(0, 90))""")
        self.assertEqual(nameless, [])
        self.assertIn("step 60 of 95", browser.one("#slider").get_attribute("aria-valuetext"))
        browser.keys(Keys.ARROW_RIGHT)
        said = lambda: browser.one("#say").get_attribute("textContent")
        self.assertTrue(browser.until(lambda: said().startswith("Step 61 of 95")))
        twice = browser.js("const n = {}; for (const e of document.querySelectorAll('[id]')) n[e.id] = (n[e.id] || 0) + 1;"
                           "return Object.keys(n).filter(id => n[id] > 1)")
        self.assertEqual(twice, [])

    def test_theme_and_embedding(self) -> None:
        browser = self.open(BUG, "#step=63", "?embed&theme=dark")
        self.assertFalse(browser.one("#app > header").is_displayed())
        self.assertEqual(browser.js("return document.documentElement.dataset.theme"), "dark")
        browser.prefer("prefers-color-scheme", "dark")
        browser.open(self.page(BUG))
        self.assertEqual(browser.js("return document.documentElement.dataset.theme"), "dark")
        before = browser.js("return getComputedStyle(document.body).backgroundColor")
        browser.one("[data-act=theme]").click()
        self.assertNotEqual(browser.js("return getComputedStyle(document.body).backgroundColor"), before)
        browser.js("localStorage.clear()")
        browser.prefer("prefers-color-scheme", "light")

    def test_contrast_as_it_is_drawn(self) -> None:
        """Each text that can be seen against what lies behind it, in both themes."""
        script = (HERE.parent / "support/contrast.js").read_text(encoding="utf-8")
        for theme in ("light", "dark"):
            for name, step in ((BUG, 63), (BUG, 105), ("notes", 60), ("churn", 400), ("flex", 7)):
                with self.subTest(theme=theme, page=name, step=step):
                    browser = self.open(name, f"#step={step}", f"?theme={theme}")
                    self.assertEqual(browser.js(script, "#player *"), [])

    def test_print(self) -> None:
        browser = self.open(BUG, "#step=63")
        pages = browser.print_pages().count(b"/Type /Page\n")
        self.assertTrue(1 <= pages <= 8, pages)
        browser.driver.execute_cdp_cmd("Emulation.setEmulatedMedia", {"media": "print"})
        hidden = browser.js("return [...document.querySelectorAll('.line .ans, .line .mark')].filter(e => e.textContent &&"
                            "(!e.offsetParent || getComputedStyle(e).visibility !== 'visible')).length")
        shown = browser.js("return document.querySelectorAll('.line .ans').length")
        # the program, the script and the output as tall as what is in them
        cut = browser.js("""return ["program", "script", "printed"].filter((id) => {
            const panel = document.getElementById(id), last = panel.querySelector(".body").lastElementChild || panel;
            return !panel.hidden && (panel.clientHeight < panel.scrollHeight - 1 || !last.getBoundingClientRect().height ||
              last.getBoundingClientRect().bottom > panel.getBoundingClientRect().bottom + 1);
          })""")
        browser.driver.execute_cdp_cmd("Emulation.setEmulatedMedia", {"media": ""})
        self.assertEqual((hidden, cut), (0, []))
        self.assertGreater(shown, 4)

    def test_bad_records_end_in_a_message(self) -> None:
        data = (HERE / "data/debug-sum.jsonl").read_bytes()
        for cut in (40, 700, len(data) // 2, len(data) - 30):
            with self.subTest(cut=cut):
                self.make("cut", data[:cut])
                self.browser.open(self.page("cut"), ready="return !document.querySelector('#loading').textContent.startsWith('Reading')")
                self.assertRegex(self.browser.text("#loading"), r"^This page can't be shown\. (Record \d+|The records) ")
                self.assertEqual(self.browser.log(), [])
                self.page("cut").unlink()


if __name__ == "__main__":
    unittest.main()
