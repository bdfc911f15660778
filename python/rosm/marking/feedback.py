"""The page for whoever has handed something in: one file of HTML, with no script, that fetches nothing."""

from __future__ import annotations

import base64
import hashlib
import html
import re
from pathlib import Path

from .cases import Exercise
from .grading import CaseMark, Mark

STYLE = """
:root { color-scheme: light dark; --line: #888; --good: #1a7f37; --bad: #b3261e; --soft: #8882; }
body { font: 1rem/1.5 system-ui, sans-serif; margin: 2rem auto; max-width: 60rem; padding: 0 1rem; }
code, pre { font: 0.9rem/1.4 ui-monospace, monospace; }
pre { background: var(--soft); padding: 0.75rem; overflow-x: auto; }
section { border: 1px solid var(--line); border-left-width: 0.4rem; border-radius: 0.3rem; margin: 1rem 0;
  padding: 0.1rem 1rem; }
.passed { border-left-color: var(--good); } .failed { border-left-color: var(--bad); }
h2 { font-size: 1.1rem; } .points { float: right; font-weight: normal; }
ol.source { background: var(--soft); padding: 0.75rem 0.75rem 0.75rem 4rem; overflow-x: auto; }
ol.source li { white-space: pre; font: 0.9rem/1.4 ui-monospace, monospace; }
ol.source li.named { background: #b3261e33; font-weight: bold; }
@media print { section { break-inside: avoid; } }
"""
PAGE = """<!doctype html>
<html lang="en">
<meta charset="utf-8">
<meta name="viewport" content="width=device-width">
<meta http-equiv="Content-Security-Policy" content="default-src 'none'; style-src 'sha256-{digest}'">
<title>{title}: {name}</title>
<style>{style}</style>
<h1>{title}</h1>
<p><strong>{earned:g} of {points:g} points</strong>, {passed} of {count} cases; <code>{name}</code></p>
{body}
</html>
"""
TRACE_COLUMNS = ("Each with its number, its address, your line and label, the instruction, and what it"
                 " changed.")
LINE = re.compile(r"(?:^|: )line (\d+)\b", re.MULTILINE)


def escaped(text: str) -> str:
    """A text for HTML, with signs that a browser would drop shown by their numbers."""
    clean = "".join(sign if sign in "\n\t" or sign.isprintable() else f"\\x{ord(sign):02X}" for sign in text)
    return html.escape(clean, quote=True)


def feedback_page(exercise: Exercise, mark: Mark, source: bytes | None) -> str:
    """The page. Of hidden cases it has the points alone."""
    parts = [refused_part(mark.refused)] if mark.refused else case_parts(mark.cases)
    if source is not None:
        parts.append(f"<h2>What was handed in</h2>\n{source_part(source, mark.refused)}")
    digest = base64.b64encode(hashlib.sha256(STYLE.encode()).digest()).decode()
    return PAGE.format(digest=digest, style=STYLE, title=escaped(exercise.title), name=escaped(Path(mark.path).name),
                       earned=mark.earned, points=mark.points, passed=mark.passed, count=len(mark.cases),
                       body="\n".join(parts))


def refused_part(reasons: str) -> str:
    """Why nothing was run, a paragraph for each reason."""
    lines = "".join(f"<p>{escaped(reason)}</p>" for reason in reasons.split("\n"))
    return f"<section class=failed><h2>Nothing was run</h2>{lines}</section>"


def case_parts(cases: list[CaseMark]) -> list[str]:
    """The cases, and of the hidden ones together how many passed."""
    parts = [case_part(case) for case in cases if not case.hidden]
    hidden = [case for case in cases if case.hidden]
    if hidden:
        passed = sum(not case.problems for case in hidden)
        text = f"Hidden cases: {passed} of {len(hidden)} passed"
        parts.append(head_part(text, sum(case.earned for case in hidden), sum(case.points for case in hidden),
                               passed == len(hidden)) + "</section>")
    return parts


def head_part(name: str, earned: float, points: float, is_passed: bool) -> str:
    """The begin of a section: its name, and the points."""
    kind, word = ("passed", "✓") if is_passed else ("failed", "✗")
    return (f"<section class={kind}><h2><span class=points>{earned:g} of {points:g}</span>"
            f"{word} {escaped(name)}</h2>")


def case_part(case: CaseMark) -> str:
    """A case: what was given, what isn't as it should be, and the last steps."""
    parts = [head_part(case.name, case.earned, case.points, not case.problems)]
    if case.given:
        parts.append(f"<p>Given: <code>{escaped(case.given)}</code></p>")
    if case.problems:
        parts.append("<ul>" + "".join(f"<li>{escaped(problem)}" for problem in case.problems) + "</ul>")
    if case.problems and case.hint:
        parts.append(f"<p>{escaped(case.hint)}</p>")
    if case.trace:
        parts.append(f"<details><summary>The last steps</summary><p>{TRACE_COLUMNS}</p>"
                     f"<pre>{escaped(case.trace)}</pre></details>")
    elif not case.problems:
        parts.append(f"<p>{case.steps} steps</p>")
    return "\n".join([*parts, "</section>"])


def source_part(source: bytes, reason: str) -> str:
    """The lines that were handed in, by numbers; those that reasons name are marked."""
    named = {int(number) for number in LINE.findall(reason)}
    rows = []
    for number, line in enumerate(source.decode("utf-8", "replace").splitlines(), 1):
        mark = " class=named" if number in named else ""
        rows.append(f"<li{mark}>{escaped(line)}</li>")
    return f"<ol class=source>{''.join(rows)}</ol>"
