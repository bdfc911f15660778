"""docs/PYTHON.md: its first program does what the remarks behind its lines say, and its calls are there."""

from __future__ import annotations

import ast
import re

from library import needs_library
from machine import ROOT

import rosm

PAGE = (ROOT / "docs/PYTHON.md").read_text()


def first_block() -> str:
    """The indented lines from the first import on."""
    lines = PAGE.split("\n")
    start = lines.index("    import rosm")
    end = next(place for place in range(start, len(lines)) if lines[place] and not lines[place].startswith("    "))
    return "\n".join(line[4:] for line in lines[start:end]) + "\n"


@needs_library
def test_the_first_program_does_what_it_says() -> None:
    source = first_block()
    rows, names = source.split("\n"), {"print": lambda *_: None}
    checked = 0
    for statement in ast.parse(source).body:
        text = ast.unparse(statement)
        remark = re.search(r"# (\d+|stop Exit)$", rows[(statement.end_lineno or 1) - 1])
        if remark and isinstance(statement, ast.Expr):
            assert str(eval(text, names)) == remark[1]
            checked += 1
        else:
            exec(text, names)
    assert checked == 4


def test_each_call_on_the_page_is_there() -> None:
    # r and mem are made with each machine
    names = set(re.findall(r"`m\.(\w+)", PAGE)) - {"r", "mem"}
    assert len(names) > 25 and [name for name in sorted(names) if not hasattr(rosm.Machine, name)] == []


def test_each_call_is_on_the_page() -> None:
    public = {name for name in vars(rosm.Machine) if not name.startswith("_")}
    assert sorted(name for name in public if not re.search(rf"\bm\.{name}\b", PAGE)) == ["history"]
