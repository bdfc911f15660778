"""`rosm run`: assembles an old source and runs a script with its block in rosm_debug."""

from __future__ import annotations

import os
import shutil
import subprocess
import sys
from pathlib import Path

from . import source
from .block import block_of
from .messages import SourceError
from .program import Program

LAUNCHER = "rosm_debug"


def launcher() -> str:
    """The program that runs scripts: ROSM_DEBUG, that of this checkout, or one on the path."""
    named = os.environ.get("ROSM_DEBUG")
    if named:
        return named
    near = Path(__file__).resolve().parents[2] / LAUNCHER
    if near.is_file():
        return str(near)
    found = shutil.which(LAUNCHER)
    if found is None:
        raise SourceError("it is neither beside this package nor on the path", LAUNCHER)
    return found


def usual_lines(programs: list[Program]) -> list[str]:
    """What is done where the command line has no lines: a module is loaded, a program run."""
    lines = []
    for program in programs:
        lines += [f"LOAD {program.name}"] if program.origin == 0 else [f"BOOT {program.name}", "RUN"]
    return lines


def split_arguments(arguments: list[str]) -> tuple[list[str], list[str]]:
    """The words for the assembler, up to the last file, and the script's lines behind them.

    Lines of a script begin with a capital word; files are what stands before, and `--` parts them
    where a file's name looks like a line.
    """
    if "--" in arguments:
        place = arguments.index("--")
        return arguments[:place], arguments[place + 1:]
    for place, word in enumerate(arguments):
        first = word.split(" ")[0]
        if place and first.isalpha() and first.isupper() and not Path(word).exists() \
                and not arguments[place - 1].startswith("-"):
            return arguments[:place], arguments[place:]
    return arguments, []


def run(program: str, arguments: list[str]) -> int:
    """The command; the status is the launcher's where the source is right."""
    words, lines = split_arguments(arguments)
    parser = source.parser_of(program)
    parser.usage = "%(prog)s [OPTION..] FILE.. [--] [LINE..]"
    try:
        parsed = source.parsed(parser, words)
        programs, messages = source.assemble(parsed)
        source.print_messages(messages, parsed.quiet)
        if not programs:
            return source.WRONG_SOURCE
        for found in programs:
            source.check_block("block", found)
        script = "".join(block_of(found) for found in programs)
        script += "\n".join(lines or usual_lines(programs)) + "\n"
        done = subprocess.run([launcher()], input=script.encode(), check=False)
        return done.returncode
    except source.CommandError as error:
        return source.command_error(parser, error)
    except SourceError as error:
        print(f"{program}: {error}", file=sys.stderr)
        return source.FILE_TROUBLE
    except OSError as error:
        return source.file_trouble(program, error)
