"""`rosm show`: a script and its answers as a page: text with pictures, HTML, records, a transcript."""

from __future__ import annotations

import argparse
import subprocess
import sys
from itertools import chain
from typing import NoReturn

from .debugger import Debugger
from .messages import SourceError
from .pictures.page import LINE_WIDTH, TextPage
from .pictures.state import RecordError
from .player import PlayerMissing, tools_folder

WRONG_WORDS, FILE_TROUBLE = 2, 4
LEAST_WIDTH, MOST_WIDTH = 40, 400
WIDTH_REASON = f"--width takes a number N from {LEAST_WIDTH} to {MOST_WIDTH}, once, for a page of text"
SIZES = ("pages", "app", "rma", "budget")
USAGE = ("%(prog)s [--text | --html | --play | --json | --transcript] [--width N] [--pages N] [--app N]"
         " [--rma N] [--budget N] [--script SCRIPT] [FILE...] <SCRIPT")


class WordsError(Exception):
    """What is wrong with the words of a command line."""


class Parser(argparse.ArgumentParser):
    """A parser whose complaint is one line."""

    def error(self, message: str) -> NoReturn:
        unknown = message.removeprefix("unrecognized arguments: ")
        raise WordsError(message if unknown == message else f"{unknown.split(' ')[0]!r} is no option")


def parser_of(program: str) -> Parser:
    """The words of the command line."""
    parser = Parser(prog=program, allow_abbrev=False, add_help=False, usage=USAGE)
    parser.add_argument("-h", "--help", action="store_true")
    forms = parser.add_mutually_exclusive_group()
    forms.add_argument("--text", dest="form", action="store_const", const="text", default="text")
    forms.add_argument("--html", "--play", dest="form", action="store_const", const="html")
    forms.add_argument("--json", dest="form", action="store_const", const="json")
    forms.add_argument("--transcript", dest="form", action="store_const", const="transcript")
    parser.add_argument("--width", action="append")
    parser.add_argument("--script")
    for size in SIZES:
        parser.add_argument(f"--{size}")
    parser.add_argument("files", nargs="*")
    return parser


def width_of(words: argparse.Namespace) -> int:
    """How wide lines of pictures are."""
    if words.width is None:
        return LINE_WIDTH
    text = words.width[0]
    if words.form != "text" or len(words.width) > 1 or not (text.isascii() and text.isdigit()) \
            or not LEAST_WIDTH <= int(text) <= MOST_WIDTH:
        raise WordsError(WIDTH_REASON)
    return int(text)


def script_among(files: list[str]) -> str:
    """Takes the script out of the files that rosm_debug is given: one may be named so, or standard input is it."""
    named = [file for file in files if file.endswith(".script")]
    if len(named) > 1:
        raise WordsError("one script at most")
    if named:
        files.remove(named[0])
    return named[0] if named else "-"


def debugger_of(words: argparse.Namespace) -> Debugger:
    """The program that answers the script."""
    files, script = list(words.files), words.script
    if script is None:
        if not files:
            raise WordsError("the script is missing; `-` is standard input")
        script = files.pop(0)
    elif script == "-":
        script = script_among(files)
    options = []
    for size in SIZES:
        if getattr(words, size) is not None:
            options += [f"--{size}", getattr(words, size)]
    return Debugger(script, options, files)


def print_text(debugger: Debugger, width: int) -> int:
    """Prints a page as the records come. The status is that of the program that answers."""
    transcript = None
    # a trace stands in the transcript alone, and an included file may have one
    text = debugger.script_text().upper()
    if b"TRACE" in text or b"INCLUDE" in text:
        transcript = debugger.output("transcript").stdout.decode("ascii").splitlines()
    with debugger.start("json") as answering:
        assert answering.stdout
        first = answering.stdout.readline()
        if first:
            for line in TextPage(width).lines(chain([first], answering.stdout), transcript):
                print(line)
    # where it has written no record, it has said why
    return answering.returncode


def print_page(debugger: Debugger) -> int:
    """Writes the player. The status is that of the program that answers."""
    done = debugger.output("json")
    if done.stdout:
        made = subprocess.run([sys.executable, str(tools_folder() / "make_page")], input=done.stdout, check=False)
        if made.returncode:
            return FILE_TROUBLE
    return done.returncode


def say_where_script_is(program: str, debugger: Debugger) -> None:
    """Says how a script that is typed ends, and what the files are where one names files and no script."""
    if debugger.script != "-":
        return
    if sys.stdin.isatty():
        print(f"{program}: the script is what is typed here; Ctrl-D on a line of its own ends it, and"
              " then it is run", file=sys.stderr)
    elif debugger.images and not debugger.script_text():
        print(f"{program}: the script is standard input, which is empty; each FILE is an image for it",
              file=sys.stderr)


def run(program: str, arguments: list[str]) -> int:
    """The command; the status is that of rosm_debug, 2 for wrong words, 4 for trouble with a file."""
    parser = parser_of(program)
    try:
        words = parser.parse_intermixed_args(arguments)
        if words.help:
            print(f"{program}: a script and its answers as a page; without --script the first FILE is the"
                  f" script, `-` standard input; {parser.format_usage().strip()}", file=sys.stderr)
            return WRONG_WORDS
        width = width_of(words)
        debugger = debugger_of(words)
        say_where_script_is(program, debugger)
        if words.form == "text":
            return print_text(debugger, width)
        return print_page(debugger) if words.form == "html" else debugger.run(words.form)
    except WordsError as error:
        print(f"{program}: {error}; {parser.format_usage().strip()}", file=sys.stderr)
        return WRONG_WORDS
    except (SourceError, RecordError, PlayerMissing) as error:
        print(f"{program}: {error}", file=sys.stderr)
    except OSError as error:
        print(f"{program}: {error.strerror}: {error.filename or 'standard output'}", file=sys.stderr)
    return FILE_TROUBLE
