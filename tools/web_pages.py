"""Makes self-contained pages: modules become one script, styles one sheet, and a page's template is filled in.

A module of the pages imports by lines `import { a, b } from "./other.js";` alone, and exports by the word `export`
before a declaration. Each becomes a function of its own that answers its exports, so that names in modules don't meet.
"""
import base64
import gzip
import hashlib
import json
import os
import re
from pathlib import Path

WEB = Path(__file__).resolve().parent.parent / "web"
SOURCES = WEB / "src"
STYLES = ["page.css", "panels.css", "heaps.css", "sizes.css"]
# Where a Content-Security-Policy lets a page take files from that stand beside it, on a server or on a disk.
BESIDE = "'self' file:"
# Data of more bytes than this are packed.
PACKED_FROM = 200_000

IMPORT = re.compile(r'^import \{([^}]*)\} from "(\./|\.\./)([\w./]+)";\n', re.MULTILINE)
EXPORT = re.compile(r"^export (?:async )?(?:const|let|function\*?|class) (\w+)", re.MULTILINE)


class PageError(Exception):
    """A page can't be made; the text says why."""


def module_name(path: Path) -> str:
    return "module_" + re.sub(r"\W", "_", os.path.relpath(path, WEB)[: -len(".js")])


def bundle(main: Path) -> str:
    """One script with a module and all that it imports, each once and before what needs it."""
    done: dict[Path, str] = {}
    _add(main.resolve(), done, [])
    return '"use strict";\n(() => {\n' + "\n".join(done.values()) + "})();\n"


def _add(path: Path, done: dict[Path, str], above: list[Path]) -> None:
    if path in above:
        raise PageError(f"{path.name} imports itself, by way of {above[-1].name}")
    if path in done:
        return
    text = path.read_text(encoding="utf-8")
    heads = []
    for names, way, file in IMPORT.findall(text):
        other = (path.parent / (way + file)).resolve()
        _add(other, done, [*above, path])
        names = ", ".join(name.strip() for name in names.split(",") if name.strip())
        heads.append(f"const {{ {names} }} = {module_name(other)};\n")
    body = IMPORT.sub("", text)
    exports = EXPORT.findall(body)
    body = EXPORT.sub(lambda found: found[0][len("export "):], body)
    if re.search(r"^(import|export)\b", body, re.MULTILINE):
        raise PageError(f"{path}: an import or export in a form that isn't known here")
    done[path] = (
        f"const {module_name(path)} = (() => {{\n{''.join(heads)}{body}"
        f"return {{ {', '.join(exports)} }};\n}})();\n"
    )


def style(names: list[str], folder: Path = SOURCES) -> str:
    return "\n" + "\n".join((folder / name).read_text(encoding="utf-8") for name in names)


def digest(text: str) -> str:
    """How a Content-Security-Policy names an inline style or script."""
    return base64.b64encode(hashlib.sha256(text.encode("utf-8")).digest()).decode("ascii")


def fill(template: str, values: dict[str, str]) -> str:
    """A template with its @NAMES@ filled in, each in one go: what is filled in isn't looked through again."""
    def value(found: re.Match[str]) -> str:
        if found[1] not in values:
            raise PageError(f"the template has @{found[1]}@, which nothing fills")
        return values[found[1]]

    return re.sub(r"@([A-Z_]+)@", value, template)


def packed(data: bytes) -> str:
    """Bytes by gzip, in base64; the same bytes each time."""
    return base64.b64encode(gzip.compress(data, 9, mtime=0)).decode("ascii")


def checked(data: bytes) -> str:
    """Records as text, where nothing in them could end the element that they stand in."""
    text = data.decode("ascii", errors="replace")
    if "\ufffd" in text:
        raise PageError("the records aren't ASCII")
    if "<" in text:
        raise PageError("the records have a character '<', which the format writes as \\u003c")
    if not text.startswith('{"start":'):
        raise PageError("these are no records: the first line is not of kind start")
    return text


def player_code() -> dict[str, str]:
    """Script and style of the page of a trace, as files that may stand beside pages."""
    return {"player.js": bundle(SOURCES / "page.js"), "player.css": style(STYLES)}


def filled_player(data: bytes, plain: bool, code: dict[str, str]) -> str:
    """The page of one trace, with its script and style as they are given."""
    text, encoding = checked(data), ""
    if not plain and len(data) > PACKED_FROM:
        text, encoding = packed(data) + "\n", ' data-encoding="gzip"'
    return fill((WEB / "player.html").read_text(encoding="utf-8"), code | {
        "PARTS": (SOURCES / "parts.html").read_text(encoding="utf-8"), "ENCODING": encoding, "DATA": text,
    })


def player_page(data: bytes, plain: bool = False) -> str:
    """The page of one trace, with all in it."""
    script, styles = player_code().values()
    return filled_player(data, plain, {
        "STYLE": f"<style>{styles}</style>", "STYLE_SOURCE": f"'sha256-{digest(styles)}'",
        "SCRIPT": f"<script>{script}</script>", "SCRIPT_SOURCE": f"'sha256-{digest(script)}'",
    })


def linked_page(data: bytes) -> str:
    """The page of one trace, beside which `player.js` and `player.css` stand."""
    return filled_player(data, True, {
        "STYLE": '<link rel="stylesheet" href="player.css">', "STYLE_SOURCE": BESIDE,
        "SCRIPT": '<script src="player.js"></script>', "SCRIPT_SOURCE": BESIDE,
    })


EDITOR = WEB / "editor"
EXAMPLES = WEB.parent / "examples"
LESSONS = WEB.parent / "docs/lessons"
LESSON_SCRIPT = re.compile(r"\bexamples/[\w/-]+\.script\b")
# Where the editor's examples lie, and what each of these folders is called. Scripts of lessons come by their lessons.
OF_LESSONS = "Lessons"
GROUPS = [("play", "To play with"), ("lessons", OF_LESSONS), ("", "Examples"), ("debug", "Debugging"), ("riscos", "More SWIs"),
          ("riscos/programs", "With more SWIs")]
# the line of a script that says which others of the folder above come in front of it
BEHIND = re.compile(r"^#     cat ((?:\w+\.script )+)programs/", re.MULTILINE)
ABOUT = re.compile(r"^\| `([\w./-]+\.script)` \| (.*?) \|$", re.MULTILINE)


def lesson_pages() -> list[Path]:
    """The pages of the lessons, by their numbers."""
    return sorted(LESSONS.glob("[0-9]*.md"), key=lambda page: int(page.stem.partition("_")[0]))


def script_of_lesson(page: Path) -> str:
    """The script that a lesson names first, by its path."""
    named = LESSON_SCRIPT.search(page.read_text(encoding="utf-8"))
    if named is None:
        raise PageError(f"{page.name} names no script of examples/")
    return named[0]


def example(path: Path, group: str, number: str, about: dict[str, str]) -> dict[str, str]:
    """A script for the editor. The number is that of its lesson, if it has one."""
    key = path.relative_to(EXAMPLES).as_posix()
    if key not in about:
        raise PageError(f"examples/README.md says nothing of {key}")
    title = path.stem.replace("-", " ")
    if number:
        title = f"{number} {title}" if group == OF_LESSONS else f"{title} (lesson {number})"
    return {"name": key[: -len(".script")].replace("/", "-"), "group": group, "title": title, "about": about[key],
            "file": path.name, "script": whole_script(path)}


def whole_script(path: Path) -> str:
    """A script, and in front of it the others that it needs."""
    script = path.read_text(encoding="utf-8")
    needed = BEHIND.search(script)
    others = [path.parent.parent / name for name in needed[1].split()] if needed else []
    return "".join([*(other.read_text(encoding="utf-8") for other in others), script])


def examples() -> list[dict[str, str]]:
    """The scripts of examples/, with what its README says of each: one to play with, the lessons, and all others."""
    about = dict(ABOUT.findall((EXAMPLES / "README.md").read_text(encoding="utf-8")))
    numbers = {WEB.parent / script_of_lesson(page): page.stem.partition("_")[0] for page in lesson_pages()}
    found = []
    for folder, group in GROUPS:
        paths = sorted((EXAMPLES / folder).glob("*.script"))
        if group == OF_LESSONS:
            paths = [path for path in numbers if path.parent.name != "play"]
        elif folder != "play":
            paths = [path for path in paths if path not in numbers]
        found += [example(path, group, numbers.get(path, ""), about) for path in paths]
    return found


def as_data(value: object) -> str:
    """A value as JSON that can't end the element that it stands in."""
    return json.dumps(value, separators=(",", ":")).replace("<", "\\u003c")


def editor_page(module: bytes, made: str, worker: Path = EDITOR / "worker.js") -> str:
    """The page in which the machine runs: rosm.html."""
    script, styles = bundle(EDITOR / "editor.js"), style(STYLES) + style(["editor.css"], EDITOR)
    code = bundle(worker)
    if "</" in code:
        raise PageError("the worker's script has characters that would end its element")
    return fill((EDITOR / "editor.html").read_text(encoding="utf-8"), {
        "STYLE_HASH": digest(styles), "SCRIPT_HASH": digest(script), "STYLE": styles, "SCRIPT": script,
        "PARTS": (SOURCES / "parts.html").read_text(encoding="utf-8"), "EXAMPLES": as_data(examples()),
        "WASM": packed(module), "WORKER": code, "MADE": made,
    })
