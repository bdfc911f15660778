"""`rosm mark`: marks what a class has handed in, and writes what others read."""

from __future__ import annotations

import argparse
import json
import os
import sys
from pathlib import Path
from typing import Any, Callable, NoReturn

from ..native import LibraryMissing, library_path
from .cases import CasesError, Exercise, read_exercise
from .feedback import feedback_page
from .grading import Mark
from .reports import class_summary, classroom, gradescope, summary, table
from .submission import Refused, read_submission
from .whole_class import mark_all

OK, SOLUTION_FAILS, WRONG_WORDS, FILE_TROUBLE, NOT_ALL_POINTS, INTERRUPTED = 0, 1, 2, 4, 5, 130


class WordsError(Exception):
    """What is wrong with the words of a command line."""


class Parser(argparse.ArgumentParser):
    """A parser whose complaint is one line."""

    def error(self, message: str) -> NoReturn:
        raise WordsError(message)


def parser_of(program: str) -> Parser:
    """The words of the command line."""
    parser = Parser(prog=program, add_help=False, allow_abbrev=False,
                    usage="%(prog)s [OPTION..] CASES.toml FILE..",
                    description="marks what a class has handed in (docs/MARKING.md)")
    parser.add_argument("-h", "--help", action="store_true", help="these lines")
    parser.add_argument("--html", metavar="FOLDER", help="a feedback page for each FILE")
    parser.add_argument("--gradescope", metavar="PATH", help="a results.json: a file for one FILE, else a folder")
    parser.add_argument("--classroom", metavar="PATH", help="the same for GitHub Classroom")
    parser.add_argument("--csv", metavar="TABLE", help="a row for each FILE, a column for each case")
    parser.add_argument("--seed", type=int, default=1, metavar="N", help="another number: other random cases")
    parser.add_argument("--jobs", type=int, metavar="N", help="so many at a time, not one for each processor")
    parser.add_argument("--strict", action="store_true", help="status 5 where a FILE hasn't all points")
    parser.add_argument("cases", nargs="?", metavar="CASES.toml")
    parser.add_argument("files", nargs="*", metavar="FILE")
    return parser


def output_names(paths: list[str]) -> list[str]:
    """A name for the files about each submission: its own, with its folders where others have that name."""
    stems = [Path(path).stem for path in paths]
    if len(set(stems)) < len(stems):
        whole_paths = [os.path.abspath(path) for path in paths]
        shared = os.path.commonpath([os.path.dirname(path) for path in whole_paths])
        stems = [str(Path(os.path.relpath(path, shared)).with_suffix("")) for path in whole_paths]
    names: list[str] = []
    for stem in stems:
        name = "".join(sign if sign.isalnum() or sign in "._-" else "_" for sign in stem).lstrip(".") or "_"
        count, whole = 1, name
        while whole in names:
            count += 1
            whole = f"{name}_{count}"
        names.append(whole)
    return names


def write_json(target: str, form: Callable[[Mark], dict[str, Any]], marks: list[Mark], names: list[str]) -> None:
    """Writes a form of each mark: to a file where there is one mark and it isn't a folder, else into a folder."""
    path = Path(target)
    if len(marks) == 1 and not path.is_dir():
        path.write_text(json.dumps(form(marks[0]), indent=1) + "\n", encoding="ascii")
        return
    path.mkdir(parents=True, exist_ok=True)
    for mark, name in zip(marks, names):
        (path / f"{name}.json").write_text(json.dumps(form(mark), indent=1) + "\n", encoding="ascii")


def write_pages(folder: str, exercise: Exercise, marks: list[Mark], names: list[str]) -> None:
    """Writes the feedback pages."""
    Path(folder).mkdir(parents=True, exist_ok=True)
    for mark, name in zip(marks, names):
        try:
            source: bytes | None = read_submission(Path(mark.path), exercise.bytes)
        except Refused:
            source = None
        (Path(folder) / f"{name}.html").write_text(feedback_page(exercise, mark, source), encoding="utf-8")


def check_solution(exercise: Exercise, cases: Path) -> str:
    """Why the teacher's own solution doesn't pass; nothing where it does, or where there is none."""
    if not exercise.solution:
        return ""
    path = str(cases.parent / exercise.solution)
    mark = next(mark_all(exercise, [path], 1))
    return "" if mark.passed == len(mark.cases) else summary(mark)


def write_reports(words: argparse.Namespace, exercise: Exercise, marks: list[Mark]) -> None:
    """Writes what is asked for."""
    names = output_names([mark.path for mark in marks])
    if words.html:
        write_pages(words.html, exercise, marks, names)
    if words.gradescope:
        write_json(words.gradescope, gradescope, marks, names)
    if words.classroom:
        write_json(words.classroom, classroom, marks, names)
    if words.csv:
        Path(words.csv).write_text(table(exercise, marks), encoding="utf-8", errors="surrogateescape")


def mark_files(program: str, words: argparse.Namespace) -> int:
    """Marks the files, and prints a line for each as it is done."""
    cases = Path(words.cases)
    exercise = read_exercise(cases, words.seed)
    library_path()
    if reason := check_solution(exercise, cases):
        print(f"{program}: the solution doesn't pass all cases, so nothing is marked: {reason}", file=sys.stderr)
        return SOLUTION_FAILS
    marks = []
    for mark in mark_all(exercise, words.files, words.jobs):
        print(summary(mark), flush=True)
        marks.append(mark)
    if len(marks) > 1:
        print("\n".join(class_summary(marks)))
    write_reports(words, exercise, marks)
    is_short = any(mark.passed < len(mark.cases) for mark in marks)
    return NOT_ALL_POINTS if words.strict and is_short else OK


def run(program: str, arguments: list[str]) -> int:
    """The command; the result is the exit status."""
    parser = parser_of(program)
    try:
        words = parser.parse_intermixed_args(arguments)
        if words.help:
            print(parser.format_help().strip())
            return OK
        if not words.cases or not words.files:
            raise WordsError("CASES.toml and at least one FILE are wanted")
        if words.jobs is not None and words.jobs < 1:
            raise WordsError("--jobs takes a number from 1 on")
        return mark_files(program, words)
    except WordsError as error:
        print(f"{program}: {error}\n{parser.format_usage().strip()}", file=sys.stderr)
        return WRONG_WORDS
    except KeyboardInterrupt:
        print(f"{program}: interrupted; nothing is written", file=sys.stderr)
        return INTERRUPTED
    except (CasesError, LibraryMissing) as error:
        print(f"{program}: {error}", file=sys.stderr)
        return FILE_TROUBLE
    except OSError as error:
        print(f"{program}: {error.filename or 'the output'}: {error.strerror}", file=sys.stderr)
        return FILE_TROUBLE
