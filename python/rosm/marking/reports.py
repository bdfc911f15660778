"""Marks as data for others: Gradescope, GitHub Classroom, and a table."""

from __future__ import annotations

import csv
import io
import re
from collections import Counter
from typing import Any

from .cases import Exercise
from .grading import CaseMark, Mark

# how many cases that failed are named for the whole class
MOST_CASES = 3
NUMBERED = re.compile(r" \d+$")


def case_text(case: CaseMark) -> str:
    """What came of a case, in lines."""
    lines = [f"given: {case.given}"] if case.given else []
    lines += case.problems or ["passed"]
    if case.problems and case.hint:
        lines.append(f"hint: {case.hint}")
    if case.trace:
        lines += ["the last steps:", case.trace]
    return "\n".join(lines)


def gradescope(mark: Mark) -> dict[str, Any]:
    """The results.json of a Gradescope autograder ("Autograder Specifications"): hidden cases are for staff."""
    tests = [{"name": case.name, "number": str(number), "score": case.earned, "max_score": case.points,
              "status": "failed" if case.problems else "passed", "output": case_text(case),
              "output_format": "text", "visibility": "hidden" if case.hidden else "visible"}
             for number, case in enumerate(mark.cases, 1)]
    about = f"Nothing was run: {mark.refused}" if mark.refused else f"{mark.passed} of {len(mark.cases)} cases passed"
    return {"output": about, "output_format": "text", "visibility": "visible", "stdout_visibility": "hidden",
            "tests": tests}


def classroom(mark: Mark) -> dict[str, Any]:
    """The result of a GitHub Classroom autograder, as its reporter reads it. Hidden cases have no details."""
    tests = []
    for number, case in enumerate(mark.cases, 1):
        message = f"hidden case {number}" if case.hidden else case_text(case)
        tests.append({"name": f"hidden {number}" if case.hidden else case.name,
                      "status": "fail" if case.problems else "pass", "score": case.earned,
                      "max_score": case.points, "message": message, "line_no": 0, "execution_time": "0s"})
    status = "error" if mark.refused else "pass" if mark.passed == len(mark.cases) else "fail"
    return {"version": 1, "status": status, "max_score": mark.points, "tests": tests}


def table(exercise: Exercise, marks: list[Mark]) -> str:
    """A row for each submission, a column for each case."""
    out = io.StringIO()
    writer = csv.writer(out, lineterminator="\n")
    writer.writerow(["file", "points", "of", *(cell(case.name) for case in exercise.cases), "remark"])
    for mark in marks:
        writer.writerow([cell(mark.path), f"{mark.earned:g}", f"{mark.points:g}",
                         *(f"{case.earned:g}" for case in mark.cases), cell(mark.refused.replace("\n", " / "))])
    return out.getvalue()


def cell(text: str) -> str:
    """A text for a table: a spreadsheet takes one that begins so for a formula."""
    return f"'{text}" if text[:1] in ("=", "+", "-", "@") else text


def summary(mark: Mark) -> str:
    """A line for a terminal."""
    text = f"{mark.path}: {mark.earned:g} of {mark.points:g} points, {mark.passed} of {len(mark.cases)} cases"
    failed = next((case for case in mark.cases if case.problems), None)
    if mark.refused:
        first, *more = mark.refused.split("\n")
        text += f"; nothing was run: {first}" + (f" (and {len(more)} more)" if more else "")
    elif failed:
        text += f"; {failed.name}: {failed.problems[0]}"
    return printable(text)


def class_summary(marks: list[Mark]) -> list[str]:
    """Lines on all files together: how many have all points, and which cases failed most often."""
    whole = sum(mark.passed == len(mark.cases) for mark in marks)
    refused = sum(bool(mark.refused) for mark in marks)
    average = sum(mark.earned for mark in marks) / len(marks)
    lines = [f"{len(marks)} files: {whole} with all points, {refused} that weren't run;"
             f" {average:.3g} of {marks[0].points:g} points on average"]
    failed = Counter(name for mark in marks if not mark.refused for name in failed_names(mark))
    if failed:
        names = [f"{printable(name)} ({count})" for name, count in failed.most_common(MOST_CASES)]
        lines.append(f"failed in most files: {'; '.join(names)}")
    return lines


def failed_names(mark: Mark) -> list[str]:
    """The names of the cases that failed, each once. Random ones, `by chance 1` and so on, are one."""
    stems = [NUMBERED.sub("", case.name) for case in mark.cases]
    names = [stem if stems.count(stem) > 1 else case.name for stem, case in zip(stems, mark.cases)]
    return list(dict.fromkeys(name for name, case in zip(names, mark.cases) if case.problems))


def printable(text: str) -> str:
    """A text for a terminal: signs that would steer it are shown by their numbers."""
    return "".join(sign if sign.isprintable() else f"\\x{ord(sign):02X}" for sign in text)
