"""How pages and the machine's module are made: web/test/pages_test.py, by pytest or as it stands."""
import base64
import gzip
import hashlib
import json
import re
import shutil
import subprocess
import sys
import tempfile
import unittest
from pathlib import Path

ROOT = Path(__file__).resolve().parent.parent.parent
sys.path.insert(0, str(ROOT / "tools"))
import web_module  # noqa: E402
import web_pages  # noqa: E402

DATA = ROOT / "web/test/data"
SUM = (DATA / "debug-sum.jsonl").read_bytes()


def inline(page: str, tag: str) -> str:
    """The last element of its kind that has no attributes."""
    return page[page.rindex(f"<{tag}>") + len(tag) + 2 : page.rindex(f"</{tag}>")]


class PageTest(unittest.TestCase):
    def test_the_policy_names_style_and_script_and_nothing_else(self) -> None:
        page = web_pages.player_page(SUM)
        policy = re.search(r'Content-Security-Policy" content="([^"]*)"', page)
        assert policy is not None
        self.assertIn("default-src 'none'", policy[1])
        for tag, source in (("style", "style-src"), ("script", "script-src")):
            digest = base64.b64encode(hashlib.sha256(inline(page, tag).encode()).digest()).decode()
            self.assertIn(f"{source} 'sha256-{digest}'", policy[1])
        self.assertNotIn("unsafe-inline", policy[1])
        self.assertEqual(re.findall(r"https?://[^\s\"']+", page.replace("http://www.w3.org/2000/svg", "")), [])
        self.assertNotIn(" style=", page)

    def test_small_records_stand_as_they_are_and_large_ones_packed(self) -> None:
        self.assertIn(SUM.decode(), web_pages.player_page(SUM))
        large = SUM + b'{"line":1,"text":"' + b"x" * 300_000 + b'"}\n'
        page = web_pages.player_page(large)
        found = re.search(r'id="trace" data-encoding="gzip">\s*([A-Za-z0-9+/=]+)\s*</script>', page)
        assert found is not None
        self.assertEqual(gzip.decompress(base64.b64decode(found[1])), large)
        self.assertIn(large.decode(), web_pages.player_page(large, plain=True))
        self.assertEqual(page, web_pages.player_page(large))

    def test_pages_that_share_their_code_have_none_of_it(self) -> None:
        page, code = web_pages.linked_page(SUM), web_pages.player_code()
        self.assertEqual(re.findall(r'(?:src|href)="(?!#)([^"]*)"', page), list(reversed(code)))
        self.assertNotRegex(page, r"<(style|script)>")
        self.assertIn("default-src 'none'; style-src 'self' file:; script-src 'self' file:;", page)
        self.assertIn(SUM.decode(), page)
        self.assertLess(len(page) - len(SUM), 8000)
        whole = web_pages.player_page(SUM)
        self.assertEqual((inline(whole, "script"), inline(whole, "style")), (code["player.js"], code["player.css"]))

    def test_what_are_no_records_make_no_page(self) -> None:
        for data in (b"", b"hello\n", SUM.replace(b"sum", b"<b>"), SUM + b"\xff"):
            with self.subTest(data=data[:20]), self.assertRaises(web_pages.PageError):
                web_pages.player_page(data)

    def test_names_in_data_are_not_filled_in(self) -> None:
        data = SUM.replace(b"sum.script", b"@SCRIPT@ @DATA@")
        self.assertIn("@SCRIPT@ @DATA@", web_pages.player_page(data))

    def test_the_tool_writes_a_page_and_says_what_is_wrong(self) -> None:
        tool = [sys.executable, str(ROOT / "tools/make_page")]
        with tempfile.TemporaryDirectory() as folder:
            page = Path(folder) / "page.html"
            made = subprocess.run([*tool, str(DATA / "debug-sum.jsonl"), str(page)], check=False)
            self.assertEqual((made.returncode, page.read_text(encoding="utf-8")), (0, web_pages.player_page(SUM)))
        piped = subprocess.run(tool, input=SUM, capture_output=True, check=False)
        self.assertEqual((piped.returncode, piped.stdout.decode()), (0, web_pages.player_page(SUM)))
        for words, status, said in ((["a", "b", "c"], 2, "usage"), (["--what"], 2, "usage"), (["/nowhere"], 1, "/nowhere")):
            ran = subprocess.run([*tool, *words], capture_output=True, text=True, check=False)
            self.assertEqual(ran.returncode, status)
            self.assertIn(said, ran.stderr)


    def test_build_web_says_what_is_wrong(self) -> None:
        tool = [sys.executable, str(ROOT / "tools/build_web")]
        for words, status, said in ((["--what"], 2, "usage"), (["--module"], 2, "usage"), (["--unproved", "x"], 2, "usage"),
                                    (["--module", "/nowhere"], 1, "/nowhere")):
            with self.subTest(words=words):
                ran = subprocess.run([*tool, *words], capture_output=True, text=True, check=False)
                self.assertEqual(ran.returncode, status)
                self.assertIn(said, ran.stderr)

    def test_the_editor_has_the_examples_and_the_module(self) -> None:
        page = web_pages.editor_page(b"\0asm\1\0\0\0", "made")
        found = re.search(r'id="scripts">(.*?)</script>', page)
        assert found is not None
        names = [each["name"] for each in json.loads(found[1])]
        self.assertEqual(names[0], "play-use-after-free")
        self.assertIn("lessons-tidy", names)
        self.assertEqual(len(names), len(set(names)))
        self.assertEqual(len(names), len(list((ROOT / "examples").rglob("*.script"))))
        titles = [each["title"] for each in json.loads(found[1])]
        lessons = ["1 carved", "2 first fit", "3 module heap", "4 tidy", "5 flex", "6 areas", "7 module swi", "8 largest wrong",
                   "9 sum", "10 best fit"]
        self.assertEqual(titles[:11], ["use after free (lesson 11)", *lessons])
        scripts = {each["name"]: each["script"] for each in json.loads(found[1])}
        riscos = ROOT / "examples/riscos"
        parts = [riscos / name for name in ("convert.script", "environment.script", "programs/hexdump.script")]
        self.assertEqual(scripts["riscos-programs-hexdump"], "".join(path.read_text(encoding="utf-8") for path in parts))
        self.assertEqual(scripts["riscos-convert"], parts[0].read_text(encoding="utf-8"))
        packed = re.search(r'id="wasm">(.*?)</script>', page)
        assert packed is not None
        self.assertEqual(gzip.decompress(base64.b64decode(packed[1])), b"\0asm\1\0\0\0")
        digest = base64.b64encode(hashlib.sha256(inline(page, "script").encode()).digest()).decode()
        self.assertIn(f"script-src 'sha256-{digest}' 'wasm-unsafe-eval'; worker-src blob:", page)


class BundleTest(unittest.TestCase):
    def bundle(self, files: dict[str, str]) -> str:
        with tempfile.TemporaryDirectory() as folder:
            for name, text in files.items():
                (Path(folder) / name).write_text(text, encoding="utf-8")
            return web_pages.bundle(Path(folder) / "main.js")

    def test_modules_keep_their_names_to_themselves(self) -> None:
        script = self.bundle({
            "main.js": 'import { one } from "./one.js";\nimport { two } from "./two.js";\nconst own = 3;\nconsole.log(one() + two() + own);\n',
            "one.js": "const own = 10;\nexport function one() { return own; }\n",
            "two.js": 'import { one } from "./one.js";\nconst own = 100;\nexport const two = () => own + one();\n',
        })
        ran = subprocess.run(["node", "-e", script], capture_output=True, text=True, check=True)
        self.assertEqual(ran.stdout, "123\n")
        self.assertEqual(script.count("own = 10;"), 1)

    def test_other_forms_are_errors(self) -> None:
        for text in ('import one from "./one.js";\n', 'import "./one.js";\n', "export default 3;\n",
                     'import { one } from "./one.js";\n'):
            with self.subTest(text=text), self.assertRaises(web_pages.PageError):
                self.bundle({"main.js": text, "one.js": 'import { x } from "./main.js";\nexport const one = 1;\n'})

    def test_all_modules_are_small(self) -> None:
        for path in [*(ROOT / "web").glob("src/*.js"), *(ROOT / "web").glob("editor/*.js"), *(ROOT / "tools").glob("web_*.py")]:
            self.assertLess(len(path.read_text(encoding="utf-8").splitlines()), 400, path.name)


MODULE = """target datalayout = "e-m:e"
target triple = "x86_64-unknown-linux-gnu"
define i64 @keeps(ptr %a0, i64 %a1) #0 {
  %r0 = alloca [16 x i8], align 8
  %r1 = alloca ptr, align 8
  store ptr %a0, ptr %r1, align 8
  %r2 = load ptr, ptr %r1, align 8, !noundef !1
  %r3 = load { i8, ptr }, ptr %r0, align 8
  %r4 = ptrtoaddr ptr %r2 to i64
  ret i64 %r4
}
attributes #0 = { nounwind "probe-stack"="inline-asm" "target-cpu"="x86-64-v2" }
"""


class WideningTest(unittest.TestCase):
    def test_pointers_in_memory_have_64_bits(self) -> None:
        text = web_module.Widening().text(MODULE)
        self.assertNotRegex(text, r"load ptr|store ptr|alloca ptr|ptrtoaddr|x86")
        self.assertIn("alloca i64, align 8", text)
        self.assertRegex(text, r"(%wide\d+) = ptrtoint ptr %a0 to i64\n  store i64 \1, ptr %r1")
        self.assertRegex(text, r"(%wide\d+) = load i64, ptr %r1, align 8\n  %r2 = inttoptr i64 \1 to ptr")
        self.assertRegex(text, r"(%wide\d+) = getelementptr i8, ptr %r0, i64 8\n  (%wide\d+) = load i64, ptr \1")

    def test_pointers_in_constants_have_64_bits(self) -> None:
        line = '@a.1 = private constant <{ ptr, [8 x i8] }> <{ ptr getelementptr (i8, ptr @a.1, i64 8), [8 x i8] c",}> \\22 ptr" }>, align 8\n'
        wide = '@a.1 = private constant <{ ptr, i32, [8 x i8] }> <{ ptr getelementptr (i8, ptr @a.1, i64 8), i32 0, [8 x i8] c",}> \\22 ptr" }>, align 8\n'
        self.assertIn(wide, web_module.Widening().text(MODULE + line))

    def test_forms_that_are_not_known_are_errors(self) -> None:
        for line in ("  %r9 = load [2 x ptr], ptr %r0", "  %r9 = getelementptr i64, ptr %r0, i64 1", "  store volatile ptr %a0, ptr %r1",
                     "  %r9 = load { i8, i8, ptr }, ptr %r0, align 8", "  %r9 = alloca [3 x ptr], align 8", "@table = constant ptr @keeps",
                     "@table = constant [2 x ptr] [ptr @keeps, ptr @keeps]"):
            with self.subTest(line=line), self.assertRaises(web_module.ModuleError):
                web_module.Widening().text(MODULE + line + "\n")


@unittest.skipUnless(shutil.which("rt") and shutil.which("node"), "there is no toolchain here, or no node")
class GlueTest(unittest.TestCase):
    def test_wide_numbers_and_memory(self) -> None:
        kit = web_module.kit_folder()
        with tempfile.TemporaryDirectory() as folder:
            parts = []
            for source in (web_module.GLUE, ROOT / "web/test/glue_test.c"):
                parts.append(Path(folder) / f"{source.stem}.o")
                words = [*web_module.clang(kit), f"--target={web_module.TARGET}", "-mbulk-memory", "-ffreestanding", "-fno-builtin"]
                subprocess.run([*words, "-O2", "-Wall", "-Werror", "-c", source, "-o", parts[-1]], check=True)
            made = Path(folder) / "glue.wasm"
            linker = [kit / "toolchain/bin/ld.lld", "-flavor", "wasm", "--no-entry", "--max-memory=67108864", *parts, "-o", made]
            subprocess.run(linker, check=True)
            ran = subprocess.run(["node", ROOT / "web/support/wide_numbers.mjs", made], capture_output=True, text=True, check=False)
            self.assertEqual((ran.stderr, ran.stdout), ("", "45369\n"))


if __name__ == "__main__":
    unittest.main()
