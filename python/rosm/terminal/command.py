"""`python -m rosm`: the prompt. Where standard input is no terminal, rosm_debug answers it as it stands."""

from __future__ import annotations

import argparse
import subprocess
import sys
from pathlib import Path
from typing import NoReturn

from ..machine.session import Line, MachineError, Session
from ..messages import SourceError
from ..native import ScriptError, Settings
from ..pictures.state import RecordError
from ..programs import ProgramEngine
from ..running import launcher
from .colours import coloured, has_colours
from .prompt import Prompt, full_prompt, plain_prompt
from .talk import OWN_HELP, Ended, Shown, Talk
from .words import Known, known_words

OK, WRONG_WORDS, FILE_TROUBLE, FAILED, INTERRUPTED = 0, 2, 4, 5, 130
SIZES = ("pages", "app", "rma", "budget")
MISSING = ("prompt_toolkit isn't there, so lines have no history and no completion: `apt-get install"
           " python3-prompt-toolkit`, or `rlwrap python3 -m rosm`")
HELLO = "rosm: HELP lists the lines, Tab completes, Ctrl-C ends a run, Ctrl-D the session"


class WordsError(Exception):
    """What is wrong with the words of a command line."""


class Parser(argparse.ArgumentParser):
    """A parser whose complaint is one line."""

    def error(self, message: str) -> NoReturn:
        raise WordsError(message)


def parser_of(program: str) -> Parser:
    """The words of the command line."""
    parser = Parser(prog=program, add_help=False, allow_abbrev=False,
                    usage="%(prog)s [--script FILE] [--plain] [--pages N] [--app N] [--rma N] [--budget N] [IMAGE..]")
    parser.add_argument("--script", help="lines that are answered before the first prompt")
    parser.add_argument("--plain", action="store_true", help="plain input, as without prompt_toolkit")
    for name in SIZES:
        parser.add_argument(f"--{name}", type=int, default=getattr(Settings(), name))
    parser.add_argument("images", nargs="*")
    return parser


def print_shown(lines: list[Shown]) -> None:
    """Prints what is shown."""
    is_coloured = has_colours()
    for line in lines:
        print(coloured(line, is_coloured))
    sys.stdout.flush()


def talk_of(words: argparse.Namespace, program: str) -> tuple[Talk, Known]:
    """A session with a program, and the words that complete its lines."""
    settings = Settings(*(getattr(words, name) for name in SIZES))
    engine = ProgramEngine(program, tuple(words.images))
    helper = Session(engine, settings)
    text = helper.do(Line("HELP"))[0].text
    images = [Path(image).name for image in words.images]
    talk = Talk(engine, Session(engine, settings), images=images)
    return talk, known_words(f"{text}\n{OWN_HELP}")


def prompt_of(words: argparse.Namespace, talk: Talk, known: Known) -> Prompt:
    """Where lines come from; a line says so where that is plain input."""
    if words.plain:
        return plain_prompt(talk)
    try:
        return full_prompt(talk, known)
    except ImportError:
        print(MISSING, file=sys.stderr)
        return plain_prompt(talk)


def converse(talk: Talk, read: Prompt) -> None:
    """Reads lines and shows what they are answered, to the end of the session."""
    while True:
        try:
            text = read()
        except KeyboardInterrupt:
            talk.leave_block()
            continue
        except EOFError:
            print()
            return
        try:
            # what is pasted may be many lines
            for line in text.split("\n"):
                print_shown(talk.type(line))
        except KeyboardInterrupt:
            print_shown([Shown("refused", f"{text.strip()} is interrupted: the machine is as it was before it")])
        except Ended:
            return


def talk_at_terminal(words: argparse.Namespace) -> int:
    """A whole session; the status says whether all that was expected is so."""
    talk, known = talk_of(words, launcher())
    for remark in talk.engine.remarks:
        print(remark, file=sys.stderr)
    read = prompt_of(words, talk, known)
    print(HELLO)
    if words.script:
        print_shown(talk.read(Path(words.script).read_bytes().decode("latin-1")))
    converse(talk, read)
    if tally := talk.tally():
        print(tally)
    return FAILED if any(entry.answered.passed is False for entry in talk.session.entries) else OK


def run(program: str, arguments: list[str]) -> int:
    """The command; the result is the exit status."""
    parser = parser_of(program)
    try:
        words = parser.parse_intermixed_args(arguments)
        if not sys.stdin.isatty():
            return subprocess.run([launcher(), *arguments], check=False).returncode
        return talk_at_terminal(words)
    except WordsError as error:
        print(f"{program}: {error}\n{parser.format_usage().strip()}", file=sys.stderr)
        return WRONG_WORDS
    except KeyboardInterrupt:
        return INTERRUPTED
    except (MachineError, ScriptError, RecordError, SourceError) as error:
        print(f"{program}: {error}", file=sys.stderr)
        return FILE_TROUBLE
    except OSError as error:
        print(f"{program}: {error.filename or 'the terminal'}: {error.strerror}", file=sys.stderr)
        return FILE_TROUBLE
