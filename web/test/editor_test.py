#!/usr/bin/python3
"""The page rosm.html in a browser. The machine is web/rosm.wasm where tools/build_web has made it; beside that, a worker
that answers with recorded samples stands in its place, so that the page is tried without a machine too."""
import hashlib
import json
import os
import re
import subprocess
import sys
import tempfile
import time
import unittest
from concurrent.futures import ThreadPoolExecutor
from pathlib import Path
from typing import Any

HERE = Path(__file__).resolve().parent
ROOT = HERE.parent.parent
sys.path[:0] = [str(HERE), str(ROOT / "tools")]
from web_pages import EDITOR, editor_page, examples  # noqa: E402

try:
    from browser import READY, Browser  # noqa: E402
    from selenium.webdriver.common.action_chains import ActionChains
    from selenium.webdriver.common.keys import Keys
except ImportError as missing:
    WANTED = "there is no selenium here: apt-get install -y chromium chromium-driver python3-selenium"
    if __name__ == "__main__":
        sys.exit("editor_test: " + WANTED)
    raise unittest.SkipTest(WANTED) from missing

MODULE = HERE.parent / "rosm.wasm"
# A module that exports nothing: what a page has in place of a machine.
EMPTY_MODULE = b"\0asm\1\0\0\0"
BUG = "#example=play-use-after-free"
SIZES = [(320, 640), (400, 800), (768, 1024), (1000, 800), (1280, 720), (1400, 900), (1920, 1080)]


# rosm_tools as it stands built, proved or not: both make the same records.
PROGRAMS = [ROOT / "crates/rosm_tools/out/rosm_tools", ROOT / "out/unproved/rosm_tools"]
# The module that stands in the page, in `loaded`.
LOAD_MODULE = """
const packed = Uint8Array.from(atob(document.getElementById("wasm").textContent.trim()), (c) => c.charCodeAt(0));
const stream = new Blob([packed]).stream().pipeThrough(new DecompressionStream("gzip"));
const loaded = new Response(stream).arrayBuffer().then((bytes) => WebAssembly.compile(bytes));
"""


def digest_of_records(program: Path, transcript: dict[str, Any]) -> str:
    """The SHA-256 digest of what rosm_debug --json writes of a script."""
    sizes = [f"--{name}={value}" for name, value in transcript["setting"].items()]
    done = subprocess.run([program, "debug", "--json", *sizes], input=transcript["script"].encode("latin-1"),
                          capture_output=True, check=False)
    return hashlib.sha256(done.stdout).hexdigest()


def recorded_worker() -> str:
    """A worker that knows the records of some scripts; one that says LOOP never ends, and others fail."""
    known = {}
    for path in (HERE / "data").glob("*.jsonl"):
        script = HERE / "data" / f"{path.stem}.script"
        if not script.is_file():
            candidates = [ROOT / "examples" / folder / f"{path.stem.split('-', 1)[-1] if folder in ('debug', 'lessons') else path.stem}.script"
                          for folder in (("lessons",) if path.stem.startswith("lesson-") else ("debug",) if path.stem.startswith("debug-") else ("", "play"))]
            script = next(each for each in candidates if each.is_file())
        known[script.read_text(encoding="latin-1")] = path.read_text(encoding="ascii")
    data = json.dumps(known).replace("<", "\\u003c")
    return f"""const KNOWN = {data};
addEventListener("message", (event) => {{
  const script = new TextDecoder("latin1").decode(event.data.script);
  if (script.startsWith("LOOP")) for (;;);
  if (script.startsWith("CUT")) {{ postMessage({{ records: new TextEncoder().encode('{{"start":1,') }}); return; }}
  if (!(script in KNOWN)) {{ postMessage({{ failure: "no record of this script" }}); return; }}
  postMessage({{ records: new TextEncoder().encode(KNOWN[script]) }});
}});
"""


class RecordedTest(unittest.TestCase):
    browser: Browser
    folder: "tempfile.TemporaryDirectory[str]"
    page: Path

    @classmethod
    def setUpClass(cls) -> None:
        cls.folder = tempfile.TemporaryDirectory(prefix="rosm-editor-")
        worker = Path(cls.folder.name) / "worker.js"
        worker.write_text(recorded_worker(), encoding="utf-8")
        cls.page = Path(cls.folder.name) / "rosm.html"
        cls.page.write_text(editor_page(EMPTY_MODULE, "No machine is in this page.", worker), encoding="utf-8")
        cls.browser = Browser()

    @classmethod
    def tearDownClass(cls) -> None:
        cls.browser.quit()
        cls.folder.cleanup()

    def open(self, hash: str = BUG, query: str = "", size: tuple[int, int] = (1400, 900), ready: str = READY) -> Browser:
        self.browser.open(self.page, hash, query, size, ready)
        return self.browser

    def write(self, text: str) -> None:
        self.browser.js("const t = document.getElementById('text'); t.value = arguments[0];"
                        "t.dispatchEvent(new Event('input', { bubbles: true }))", text)

    def script(self) -> str:
        return self.browser.js("return document.getElementById('text').value")

    def state(self) -> str:
        return self.browser.text("#state")

    def test_it_opens_without_a_message_and_fetches_nothing(self) -> None:
        self.browser.log()
        browser = self.open("")
        self.assertEqual(browser.log(), [])
        fetched = browser.js('return performance.getEntriesByType("resource").map(e => e.name).filter(n => !n.startsWith("blob:"))')
        self.assertEqual(fetched, [])
        self.assertRegex(self.state(), r"^\d+ steps in \d+ ms$")

    def test_use_after_free_and_its_writer(self) -> None:
        browser = self.open()
        self.assertIn("use after free", browser.one("#examples option:checked").get_attribute("textContent"))
        self.assertEqual(browser.moment(), browser.js("return rosm.trace.last"))
        browser.one('#words [data-word="36904"]').click()
        self.assertIn("last written at step 63, line 33", browser.text("#inspector"))
        self.assertIn("writer", browser.one('.row[data-key="33"]').get_attribute("class"))
        self.assertEqual(browser.js("return rosm.editor.writing.line"), 33)
        next(button for button in browser.all("#inspector .go") if "last write" in button.text).click()
        self.assertEqual(browser.step(), 63)
        self.assertIn("lit", browser.one('.row[data-key="33"]').get_attribute("class"))
        self.assertEqual(browser.js("return rosm.editor.writing.line"), 33)

    def test_an_example_is_chosen_and_run(self) -> None:
        browser = self.open()
        name = "lessons-tidy"
        script = next(each["script"] for each in examples() if each["name"] == name)
        browser.js("const s = document.getElementById('examples'); s.value = arguments[0]; s.dispatchEvent(new Event('change'))", name)
        self.assertTrue(browser.until(lambda: self.script() == script))
        self.assertTrue(browser.until(lambda: "module area" in browser.text("#heaps")))
        self.assertTrue(browser.until(lambda: "example=lessons-tidy" in browser.driver.current_url))

    def test_a_script_is_shared_by_the_address(self) -> None:
        browser = self.open()
        script = (HERE / "data/hostile.script").read_text(encoding="latin-1")
        self.write(script)
        self.assertEqual(browser.one("#examples").get_attribute("value"), "")
        browser.one("#run").click()
        self.assertTrue(browser.until(lambda: "hostile" in browser.text("#file")))
        browser.one("#share").click()
        self.assertTrue(browser.until(lambda: "#script=" in browser.driver.current_url))
        browser.keys(Keys.ESCAPE)
        address = browser.driver.current_url
        self.open(address[address.index("#"):])
        self.assertEqual(self.script(), script)
        self.assertIsNone(browser.js("return window.hacked ?? null"))
        self.assertEqual(browser.js('return document.querySelectorAll("#player img, #player script, h1 *").length'), 0)
        self.open("#script=%%%", ready="return document.getElementById('state').textContent !== ''")
        self.assertIn("no script", self.state())

    def test_a_script_is_opened_and_saved_as_a_file(self) -> None:
        browser, script = self.open(), (HERE / "data/churn.script").read_text(encoding="latin-1")
        path = Path(self.folder.name) / "churn.script"
        path.write_bytes(script.replace("\n", "\r\n").encode("latin-1"))
        browser.one("#opened").send_keys(str(path))
        self.assertTrue(browser.until(lambda: self.script() == script))
        self.assertTrue(browser.until(lambda: "743" in self.state()))
        # the browser saves by a link to the text, which is clicked
        saved = browser.driver.execute_async_script("""
            const done = arguments[0];
            HTMLAnchorElement.prototype.click = function () {
              texts.at(-1).text().then((text) => done([this.download, this.href.startsWith("blob:"), text]));
            };
            const texts = [], { createObjectURL } = URL;
            URL.createObjectURL = (blob) => { texts.push(blob); return createObjectURL.call(URL, blob); };
            document.getElementById("save").click();""")
        self.assertEqual(saved, ["churn.script", True, script])
        for content, said in ((b"A\0B", "is no script"), (b"\n" * (1 << 20) + b"\n", "more than 1,048,576 bytes")):
            path.write_bytes(content)
            browser.one("#opened").send_keys(str(path))
            self.assertTrue(browser.until(lambda: said in self.state()), self.state())
            self.assertEqual(self.script(), script)

    def test_a_script_of_ones_own_is_not_lost(self) -> None:
        """An example doesn't take its place for good, and the page isn't left without a question."""
        leave = "const e = new Event('beforeunload', { cancelable: true }); dispatchEvent(e); return e.defaultPrevented"
        choose = ("const s = document.getElementById('examples'); s.value = arguments[0];"
                  "s.dispatchEvent(new Event('change'))")
        browser = self.open()
        self.assertFalse(browser.js(leave))
        self.write("MINE\n")
        self.assertTrue(browser.js(leave))
        browser.js(choose, "lessons-tidy")
        self.assertTrue(browser.until(lambda: "Keep" in self.script()))
        browser.js(choose, "")
        self.assertTrue(browser.until(lambda: self.script() == "MINE\n"))
        self.assertTrue(browser.js(leave))
        browser.one("#share").click()
        self.assertTrue(browser.until(lambda: "#script=" in browser.driver.current_url))
        self.assertFalse(browser.js(leave))

    def test_the_address_names_the_moment(self) -> None:
        browser = self.open(BUG + "&step=63")
        self.assertEqual(browser.step(), 63)
        browser.js("document.activeElement.blur()")
        browser.keys(Keys.ARROW_RIGHT)
        self.assertTrue(browser.until(lambda: browser.driver.current_url.endswith("#example=play-use-after-free&step=64")))

    def test_a_run_without_end_is_stopped(self) -> None:
        browser = self.open()
        self.write("LOOP\n")
        browser.one("#run").click()
        self.assertTrue(browser.until(lambda: browser.one("#stop").is_displayed()))
        browser.one("#stop").click()
        self.assertTrue(browser.until(lambda: self.state().startswith("stopped")))
        self.assertFalse(browser.one("#stop").is_displayed())
        script = (HERE / "data/churn.script").read_text(encoding="latin-1")
        self.write(script)
        browser.one("#run").click()
        self.assertTrue(browser.until(lambda: "743" in self.state()))

    def test_failures_are_said(self) -> None:
        browser = self.open()
        self.write("CUT\n")
        browser.one("#run").click()
        self.assertTrue(browser.until(lambda: "The records can't be shown. Record 1 isn't whole" in self.state()))
        self.write("OTHER\n")
        browser.one("#run").click()
        self.assertTrue(browser.until(lambda: self.state() == "no record of this script"))

    def test_keys_are_letters_in_the_editor(self) -> None:
        browser = self.open(BUG + "&step=63")
        browser.one("#text").click()
        browser.keys("h", Keys.ARROW_LEFT, " ")
        self.assertEqual(browser.step(), 63)
        ActionChains(browser.driver).key_down(Keys.CONTROL).send_keys(Keys.ENTER).key_up(Keys.CONTROL).perform()
        self.assertTrue(browser.until(lambda: self.state() == "no record of this script"))

    def test_widths_folding_embedding(self) -> None:
        for size in SIZES:
            with self.subTest(size=size):
                browser = self.open(BUG + "&step=63", size=size)
                self.assertLessEqual(browser.js("return document.documentElement.scrollWidth"), size[0])
        browser.one("#fold").click()
        self.assertFalse(browser.one("#write").is_displayed())
        self.assertEqual(browser.one("#fold").get_attribute("aria-expanded"), "false")
        browser = self.open(BUG + "&step=63", "?embed")
        self.assertFalse(browser.one("#bar").is_displayed())
        self.assertTrue(browser.one("#registers").is_displayed())

    def test_keyboard_alone_from_the_example_to_the_writer_of_a_word(self) -> None:
        browser = self.open("#example=lessons-tidy", ready="return document.getElementById('state').textContent !== ''")
        self.assertTrue(browser.tab_to("examples"))
        browser.keys("use after")
        self.assertTrue(browser.until(lambda: "use after free" in browser.one("#examples option:checked").get_attribute("textContent")))
        self.assertTrue(browser.tab_to("run"))
        browser.keys(Keys.ENTER)
        self.assertTrue(browser.until(lambda: self.state().startswith("108 steps")))
        self.assertTrue(browser.tab_to("words", 100))
        browser.keys(Keys.ARROW_DOWN)

        def chosen() -> int | None:
            return browser.js("return rosm.player.chosen && rosm.player.chosen.word")

        for _ in range(80):
            word = chosen()
            if word == 0x9028:
                break
            browser.keys(Keys.ARROW_RIGHT)
            self.assertTrue(browser.until(lambda word=word: chosen() != word))
        browser.keys(Keys.ENTER)
        self.assertTrue(browser.until(lambda: browser.step() == 63))
        self.assertIn("lit", browser.one('.row[data-key="33"]').get_attribute("class"))

    def test_each_control_is_one_tab_stop(self) -> None:
        browser = self.open(BUG + "&step=63")
        browser.js("document.activeElement.blur()")
        seen: list[str] = []
        for _ in range(60):
            browser.keys(Keys.TAB)
            seen.append(browser.js("const e = document.activeElement; return e.id || e.className.split(' ')[0] || e.tagName"))
        first = seen.index("examples")
        again = seen.index("examples", first + 1) if seen.count("examples") > 1 else len(seen)
        for part in ("examples", "run", "open", "save", "share", "fold", "text", "slider", "play", "row", "line", "reg", "words", "block"):
            self.assertEqual(seen[first:again].count(part), 1, f"{part} of {' '.join(seen[first:again])}")

    def test_contrast_in_both_themes(self) -> None:
        script = (HERE.parent / "support/contrast.js").read_text(encoding="utf-8")
        for theme in ("light", "dark"):
            with self.subTest(theme=theme):
                browser = self.open(BUG + "&step=63", f"?theme={theme}")
                self.assertEqual(browser.js(script, "#bar *, #write *"), [])

    def test_all_that_can_be_used_has_a_name(self) -> None:
        browser = self.open()
        nameless = browser.js("""
            const name = e => e.getAttribute("aria-label") || e.getAttribute("aria-labelledby") || e.textContent.trim() || e.title;
            return [...document.querySelectorAll("button,input,select,textarea,section")].filter(e => e.offsetParent !== null &&
                !name(e) && !e.closest("label")).map(e => e.outerHTML.slice(0, 90))""")
        self.assertEqual(nameless, [])
        twice = browser.js("const n = {}; for (const e of document.querySelectorAll('[id]')) n[e.id] = (n[e.id] || 0) + 1;"
                           "return Object.keys(n).filter(id => n[id] > 1)")
        self.assertEqual(twice, [])


@unittest.skipUnless(MODULE.is_file(), "there is no web/rosm.wasm: tools/build_web makes it")
class MachineTest(unittest.TestCase):
    """The page with the machine in it."""
    browser: Browser
    folder: "tempfile.TemporaryDirectory[str]"
    page: Path

    @classmethod
    def setUpClass(cls) -> None:
        cls.folder = tempfile.TemporaryDirectory(prefix="rosm-editor-")
        cls.page = Path(cls.folder.name) / "rosm.html"
        cls.page.write_text(editor_page(MODULE.read_bytes(), "made by a test", EDITOR / "worker.js"), encoding="utf-8")
        cls.browser = Browser()
        cls.browser.log()
        cls.browser.open(cls.page, BUG, ready="return document.getElementById('state').textContent.match(/steps in|no records/)")

    @classmethod
    def tearDownClass(cls) -> None:
        cls.browser.quit()
        cls.folder.cleanup()

    def test_the_machine_runs_and_says_nothing_on_the_console(self) -> None:
        self.assertEqual(self.browser.log(), [])

    def test_each_example_runs_in_the_page(self) -> None:
        self.browser.js("location.hash = 'example=lessons-tidy'")
        for example in examples():
            with self.subTest(example["name"]):
                self.browser.js("document.getElementById('state').textContent = '';"
                                "location.hash = 'example=' + arguments[0]", example["name"])
                done = "return document.getElementById('state').textContent.match(/steps? in|no records/)"
                self.assertTrue(self.browser.until(lambda: self.browser.js(done), 20), self.browser.text("#state"))
        self.assertEqual(self.browser.log(), [])

    def test_transcripts_are_answered_byte_for_byte(self) -> None:
        found = subprocess.run(["node", HERE.parent / "support/transcripts.js"], capture_output=True, text=True, check=True).stdout
        scripts = [each for each in json.loads(found) if not each["isDebug"]]
        self.assertGreater(len(scripts), 200)
        machine = re.sub(r"^export ", "", (EDITOR / "machine.js").read_text(encoding="utf-8"), flags=re.MULTILINE)
        self.browser.driver.set_script_timeout(900)
        wrong = self.browser.driver.execute_async_script(machine + LOAD_MODULE + """
            const [scripts, done] = arguments, wrong = [];
            loaded.then((module) => {
              for (const each of scripts) {
                const script = Uint8Array.from(each.script, (c) => c.charCodeAt(0));
                const { status, bytes } = new Machine(module).answers(script, each.setting);
                const text = Array.from(bytes, (b) => String.fromCharCode(b)).join("");
                if (status !== each.status || text !== each.answers) wrong.push(each.name);
              }
              done(wrong);
            }).catch((error) => done(String(error)));""", scripts)
        self.assertEqual(wrong, [])
        print(f"{len(scripts)} transcripts in the browser", file=sys.stderr)

    def test_records_are_those_of_the_program(self) -> None:
        """All scripts of transcripts that need no files, by rosm_debug --json and in the page."""
        program = next((path for path in PROGRAMS if os.access(path, os.X_OK)), None)
        if program is None:
            self.skipTest("rosm_tools isn't built; ./build --unproved makes it")
        found = subprocess.run(["node", HERE.parent / "support/transcripts.js"], capture_output=True, text=True, check=True).stdout
        scripts = json.loads(found)
        with ThreadPoolExecutor(4) as pool:
            digests = list(pool.map(lambda each: digest_of_records(program, each), scripts))
        machine = re.sub(r"^export ", "", (EDITOR / "machine.js").read_text(encoding="utf-8"), flags=re.MULTILINE)
        self.browser.driver.set_script_timeout(900)
        wrong = self.browser.driver.execute_async_script(machine + LOAD_MODULE + """
            const [scripts, digests, done] = arguments, wrong = [];
            loaded.then(async (module) => {
              for (const [i, each] of scripts.entries()) {
                const script = Uint8Array.from(each.script, (c) => c.charCodeAt(0));
                const { bytes } = new Machine(module).records(script, "", each.setting);
                const digest = new Uint8Array(await crypto.subtle.digest("SHA-256", bytes));
                if (Array.from(digest, (b) => b.toString(16).padStart(2, "0")).join("") !== digests[i]) wrong.push(each.name);
              }
              done(wrong);
            }).catch((error) => done(String(error)));""", scripts, digests)
        self.assertEqual(wrong, [])
        print(f"records of {len(scripts)} transcripts in the browser", file=sys.stderr)

    def test_a_program_with_errors_is_named_in_place_of_its_run(self) -> None:
        if not self.browser.js("return !!rosm.player"):
            self.skipTest("this build of the machine has no records")
        script = "ASM p &8000\n        MOVE    R0,R1\nEND\nBOOT p\nRUN\nREGS\n"
        self.browser.js("const t = document.getElementById('text'); t.value = arguments[0];"
                        "t.dispatchEvent(new Event('input', { bubbles: true })); document.getElementById('run').click()", script)
        wanted = "p has errors (line 1), so line 5 ran empty memory: correct p first."
        self.assertTrue(self.browser.until(lambda: self.browser.text("#state") == wanted, 20), self.browser.text("#state"))
        self.assertIn("bad", self.browser.one("#state").get_attribute("class"))
        self.assertEqual(self.browser.js("return rosm.player.trace.lineAt(rosm.player.moment).line"), 1)
        self.assertIn("! empty memory was run", self.browser.text("#results"))

    def test_a_long_run_is_stopped(self) -> None:
        records = self.browser.js("return typeof WebAssembly !== 'undefined' && !!rosm.player")
        if not records:
            self.skipTest("this build of the machine has no records")
        begin = time.monotonic()
        script = "ASM loop &8000\nagain B again\nEND\nBOOT loop\n" + "RUN\n" * 400
        self.browser.js("const t = document.getElementById('text'); t.value = arguments[0];"
                        "t.dispatchEvent(new Event('input', { bubbles: true })); document.getElementById('run').click()", script)
        self.assertTrue(self.browser.until(lambda: self.browser.one("#stop").is_displayed()))
        self.browser.one("#stop").click()
        self.assertTrue(self.browser.until(lambda: self.browser.text("#state").startswith("stopped")))
        self.assertLess(time.monotonic() - begin, 10)


if __name__ == "__main__":
    unittest.main()
