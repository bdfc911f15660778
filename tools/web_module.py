"""Makes the machine's module for a page, rosm.wasm, of the library crates/rosm_c.

The toolchain hands a module in LLVM's form to its compiler. That module is caught there, and compiled anew for
WebAssembly. It has pointers of 64 bits in its memory; a page's have 32. So each load and store of a pointer becomes one
of 64 bits of which the upper half is 0, at the same offset; sizes stay numbers of 64 bits.
"""
import contextlib
import importlib.machinery
import importlib.util
import re
import shlex
import shutil
import subprocess
import sys
import tempfile
from collections.abc import Callable
from pathlib import Path
from types import ModuleType
from typing import Any

ROOT = Path(__file__).resolve().parent.parent
CRATE = ROOT / "crates/rosm_c"
GLUE = ROOT / "web/wasm/glue.c"
TARGET = "wasm32-unknown-unknown"
LAYOUT = "e-m:e-p:32:32-p10:8:8-p20:8:8-i64:64-i128:128-n32:64-S128-ni:1:10:20"
STACK_BYTES = 4 << 20
MOST_MEMORY = 2 << 30
# What all builds of the library export, and what newer ones do.
NEEDED, WHERE_THERE = ["rosm_run"], ["rosm_run_image", "rosm_records"]
# The trial's module for host processors is larger than any other that passes by.
LEAST_MODULE = 1_000_000


class ModuleError(Exception):
    """There is no module; the text says why."""


def kit_folder() -> Path:
    rt = shutil.which("rt")
    if not rt:
        raise ModuleError("the Rattle toolchain (rt) is not on the path")
    return Path(rt).resolve().parent.parent


def run(words: list[str | Path], about: str, folder: Path | None = None) -> None:
    ran = subprocess.run(words, cwd=folder, stdin=subprocess.DEVNULL, capture_output=True, check=False)
    if ran.returncode:
        raise ModuleError(f"{about}: status {ran.returncode}\n{(ran.stdout + ran.stderr).decode(errors='replace')}")


def clang(kit: Path) -> list[str | Path]:
    return [kit / "toolchain/bin/clang", "--no-default-config"]


def as_text(kit: Path, module: Path, text: Path) -> None:
    """A module in LLVM's packed form, as text, with nothing changed."""
    words = ["--target=x86_64-unknown-linux-gnu", "-x", "ir", module, "-S", "-emit-llvm", "-O0"]
    run([*clang(kit), *words, "-Xclang", "-disable-llvm-passes", "-o", text], "the module can't be read")


def load_script(path: Path, name: str) -> ModuleType:
    loader = importlib.machinery.SourceFileLoader(name, str(path))
    spec = importlib.util.spec_from_loader(name, loader)
    if spec is None:
        raise ModuleError(f"{path} can't be read")
    made = importlib.util.module_from_spec(spec)
    loader.exec_module(made)
    return made


def crate_of(kit: Path) -> tuple[ModuleType, Any]:
    """The toolchain's library of crates, and the library's crate in it."""
    sys.dont_write_bytecode = True
    rtlib = load_script(kit / "bin/rtlib.py", "rtlib")
    return rtlib, next(it for it in rtlib.crates_below(str(ROOT / "crates")) if it.name == CRATE.name)


def unproved_text(kit: Path, room: Path) -> Path:
    """The text of the module that is made of the sources without proof, as bench/unproved makes it."""
    unproved = load_script(ROOT / "bench/unproved", "unproved")
    rtlib, crate = crate_of(kit)
    kit_crates = [name for it in [crate, *crate.below()] for name in it.of_kit]
    libraries = crate.sources_below() + rtlib.kit_sources(kit_crates)
    with contextlib.chdir(CRATE):
        module = unproved.trial_module(str(kit), crate, libraries, str(room))
        as_text(kit, Path(module), room / "tried.ll")
        names, hints = unproved.exports_of(crate), unproved.hints(crate, libraries)
        export: Callable[[str], str] = lambda line: unproved.exported(line, crate, names)
        unproved.rewrite(str(room / "tried.ll"), str(room / "plain.ll"), hints, export)
    return room / "plain.ll"


def proved_text(kit: Path, room: Path) -> Path:
    """The text of the module of the proved library. What isn't proved yet is proved first, which may take long; then
    the library is built once more, by a compiler that keeps the module."""
    run(["rt", "lib"], "crates/rosm_c isn't proved", CRATE)
    tools, kept = room / "toolchain", room / "kept.bc"
    (tools / "bin").mkdir(parents=True)
    (tools / "lib").symlink_to(kit / "toolchain/lib")
    for tool in (kit / "toolchain/bin").iterdir():
        if tool.name != "clang":
            (tools / "bin" / tool.name).symlink_to(tool)
    (tools / "bin/clang").write_text(KEEPING.format(
        least=LEAST_MODULE, kept=shlex.quote(str(kept)), clang=shlex.quote(str(kit / "toolchain/bin/clang"))))
    (tools / "bin/clang").chmod(0o755)
    _, crate = crate_of(kit)
    with contextlib.chdir(CRATE):
        words = crate.words([])
    built = ["--backend", "llvm", "--toolchain", str(tools), "-o", str(room / "rosm.a")]
    run([kit / "bin/rattle", "build", *words, *built], "crates/rosm_c can't be built", CRATE)
    if not kept.is_file():
        raise ModuleError("crates/rosm_c was built, and no module of it passed by")
    as_text(kit, kept, room / "plain.ll")
    return room / "plain.ll"


# A compiler that keeps the module that it is handed.
KEEPING = """#!/bin/sh
for word; do
    case $word in *.bc)
        [ "$(/usr/bin/stat -c %s "$word")" -gt {least} ] && /bin/cp "$word" {kept} ;;
    esac
done
exec {clang} "$@"
"""


# A constant of several parts that follow on each other without gaps.
PACKED = re.compile(r"^(@[^=\n]+ = [^<\n]*)<\{ ([^\n]*?) \}> <\{ ([^\n]*) \}>(, align \d+)$", re.MULTILINE)


class Widening:
    """Pointers in memory of 64 bits, for a target that has pointers of 32."""

    def __init__(self) -> None:
        self.count = 0

    def fresh(self) -> str:
        self.count += 1
        return f"%wide{self.count}"

    def store(self, found: re.Match[str]) -> str:
        bits = self.fresh()
        return f"  {bits} = ptrtoint ptr {found[1]} to i64\n  store i64 {bits}, ptr {found[2]}"

    def load(self, found: re.Match[str]) -> str:
        bits = self.fresh()
        return f"  {bits} = load i64, ptr {found[2]}, align 8\n  {found[1]} = inttoptr i64 {bits} to ptr"

    def load_pair(self, found: re.Match[str]) -> str:
        """A pair that is loaded at once: its second part stands 8 bytes behind the first."""
        result, first, second, at = found.groups()
        lines: list[str] = []
        values = [self.load_part(lines, first, at, 0), self.load_part(lines, second, at, 8)]
        half, kind = self.fresh(), f"{{ {first}, {second} }}"
        lines.append(f"  {half} = insertvalue {kind} poison, {first} {values[0]}, 0")
        lines.append(f"  {result} = insertvalue {kind} {half}, {second} {values[1]}, 1")
        return "\n".join(lines)

    def load_part(self, lines: list[str], kind: str, at: str, offset: int) -> str:
        if offset:
            place = self.fresh()
            lines.append(f"  {place} = getelementptr i8, ptr {at}, i64 {offset}")
            at = place
        value, bits = self.fresh(), self.fresh()
        if kind == "ptr":
            lines.append(f"  {bits} = load i64, ptr {at}, align 8")
            lines.append(f"  {value} = inttoptr i64 {bits} to ptr")
        else:
            lines.append(f"  {value} = load {kind}, ptr {at}")
        return value

    def constant(self, found: re.Match[str]) -> str:
        """A packed constant with pointers in it: behind each stands its upper half, 0."""
        head, kinds, values, rest = found.groups()
        pairs = zip(parts_of(kinds), parts_of(values), strict=True)
        wide = [(kind + ", i32", value + ", i32 0") if kind == "ptr" else (kind, value) for kind, value in pairs]
        kinds, values = (", ".join(each) for each in zip(*wide, strict=True))
        return f"{head}<{{ {kinds} }}> <{{ {values} }}>{rest}"

    def text(self, text: str) -> str:
        text = re.sub(r"^target datalayout = .*$", f'target datalayout = "{LAYOUT}"', text, flags=re.MULTILINE)
        text = re.sub(r"^target triple = .*$", f'target triple = "{TARGET}"', text, flags=re.MULTILINE)
        text = re.sub(r' "(?:probe-stack|stack-probe-size|target-cpu)"="[^"]*"', "", text)
        text = re.sub(r"\bptrtoaddr (ptr \S+) to i64", r"ptrtoint \1 to i64", text)
        text = text.replace("alloca ptr, align 8", "alloca i64, align 8")
        text = re.sub(r"^  store ptr (\S+), ptr (\S+)", self.store, text, flags=re.MULTILINE)
        text = re.sub(r"^  (%\S+) = load ptr, ptr (\S+), align 8.*$", self.load, text, flags=re.MULTILINE)
        pair = r"^  (%\S+) = load \{ (ptr|i8|i64), (ptr|i64) \}, ptr (\S+), align 8.*$"
        text = re.sub(pair, self.load_pair, text, flags=re.MULTILINE)
        text = PACKED.sub(self.constant, text)
        check_widened(text)
        return text


def parts_of(text: str) -> list[str]:
    """The parts of a list that commas divide, but for those in brackets and quotes."""
    parts, depth, quoted, begin = [], 0, False, 0
    for at, sign in enumerate(text):
        if sign == '"':
            quoted = not quoted
        elif quoted:
            continue
        elif sign in "([{<":
            depth += 1
        elif sign in ")]}>":
            depth -= 1
        elif sign == "," and depth == 0:
            parts.append(text[begin:at].strip())
            begin = at + 1
    return [*parts, text[begin:].strip()]


# What is left of pointers in memory once they are widened: none of these.
NARROW = [r"\b(?:load|store) (?:atomic |volatile )*(?:ptr\b|[\[{<][^\]}>]*\bptr\b)",
          r"\balloca (?:ptr\b|[\[{<][^\]}>]*\bptr\b)",
          r"getelementptr (?!(?:inbounds |nuw |nusw )*i8,|\(i8,)", r"\bptrtoaddr\b"]


def check_widened(text: str) -> None:
    for form in NARROW:
        found = re.search(form, text)
        if found:
            unknown(text[text.rfind("\n", 0, found.start()) + 1 : text.find("\n", found.end())])
    for line in re.findall(r"^@.*$", text, re.MULTILINE):
        bare = re.sub(r'"[^"]*"', '""', line)
        packed = PACKED.match(line)
        if re.search(r"\bptr\b", bare) and not (packed and is_wide(parts_of(packed[2]))):
            unknown(line)


def is_wide(kinds: list[str]) -> bool:
    """Whether behind each pointer stands a number of 32 bits, and there are no others."""
    behind = [*kinds[1:], ""]
    return all(after == "i32" if kind == "ptr" else "ptr" not in kind for kind, after in zip(kinds, behind, strict=True))


def unknown(line: str) -> None:
    raise ModuleError(f"the module has a form that isn't known here: {line.strip()}")


def compile_module(kit: Path, text: Path, room: Path) -> bytes:
    widened = Widening().text(text.read_text(encoding="utf-8"))
    (room / "wide.ll").write_text(widened, encoding="utf-8")
    common = [*clang(kit), f"--target={TARGET}", "-mbulk-memory"]
    run([*common, "-O3", "-c", "-x", "ir", room / "wide.ll", "-o", room / "wide.o"], "the module can't be compiled")
    words = ["-ffreestanding", "-fno-builtin", "-O2", "-Wall", "-c", GLUE, "-o", room / "glue.o"]
    run([*common, *words], f"{GLUE} can't be compiled")
    exports = [f"--export={name}" for name in NEEDED] + [f"--export-if-defined={name}" for name in WHERE_THERE]
    linker = [kit / "toolchain/bin/ld.lld", "-flavor", "wasm", "--no-entry", "--gc-sections", "--strip-all", *exports]
    limits = ["-z", f"stack-size={STACK_BYTES}", f"--max-memory={MOST_MEMORY}"]
    run([*linker, *limits, room / "wide.o", room / "glue.o", "-o", room / "rosm.wasm"], "the module can't be linked")
    return (room / "rosm.wasm").read_bytes()


def make_module(is_proved: bool) -> bytes:
    kit = kit_folder()
    with tempfile.TemporaryDirectory(prefix="rosm-web-") as made:
        room = Path(made)
        text = (proved_text if is_proved else unproved_text)(kit, room)
        return compile_module(kit, text, room)
