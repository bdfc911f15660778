"""`rosm source`: a source for ObjAsm or a listing in BASIC as a block, bytes, a listing or an ELF file."""

from __future__ import annotations

import argparse
import os
import re
import sys
from pathlib import Path
from typing import NoReturn

from .block import block_of
from .elf import elf_of
from .files import lines_of, read_bytes
from .listing import compare, listing_of
from .messages import MessageList, Position, SourceError
from .objasm import Options, assemble_files
from .program import Program

OK, WRONG_SOURCE, WRONG_COMMAND, FILE_TROUBLE = 0, 1, 2, 4
LONGEST_BLOCK = 1 << 20  # bytes of an image that rosm takes


class CommandError(Exception):
    """A command line that can't be."""


class Parser(argparse.ArgumentParser):
    """A parser of command lines whose errors are ours to report."""

    def error(self, message: str) -> NoReturn:
        front, sign, words = message.partition("unrecognized arguments: ")
        unknown = ", ".join(repr(word) for word in words.split())
        raise CommandError(f"{unknown} isn't known" if sign else front)


def number_of(text: str) -> int:
    """A number: decimal, or hexadecimal after `&` or `0x`."""
    digits, base = (text[1:], 16) if text[:1] == "&" else (text[2:], 16) if text[:2].lower() == "0x" \
        else (text, 10)
    try:
        value = int(digits.lstrip("-"), base)
    except ValueError:
        raise CommandError(f"{text} is no number: decimal, or hexadecimal after &") from None
    value = -value if digits.startswith("-") else value
    if not -(1 << 31) <= value < 1 << 32:
        raise CommandError(f"{text} has more than 32 bits")
    return value & 0xFFFFFFFF


def parser_of(program: str) -> Parser:
    """The options, which docs/man/rosm_source.1 describes."""
    parser = Parser(prog=program, add_help=False, usage="%(prog)s [OPTION..] FILE.. >BLOCK",
                    description="assembles an old source, for ObjAsm or in BBC BASIC; it writes a block")
    parser.add_argument("-h", "--help", action="store_true", help=argparse.SUPPRESS)
    parser.add_argument("--name", help="the image's name: program")
    parser.add_argument("--origin", help="the program's address: &8000; a module has 0")
    parser.add_argument("--bind", action="append", default=[], metavar="NAME=VALUE",
                        help="a name's value, or %%N for N bytes after the program")
    parser.add_argument("--basic", action="store_true", help="the first FILE is a listing in BASIC")
    parser.add_argument("--output", choices=["block", "binary", "listing", "elf"], default="block")
    parser.add_argument("-o", dest="to", metavar="FILE", help="where the output goes")
    parser.add_argument("--compare", metavar="ORIGINAL", help="shows each word that differs")
    parser.add_argument("--source-order", action="store_true", help="areas in the source's order")
    parser.add_argument("--bars", action="store_true", help="$name is replaced between bars, too")
    parser.add_argument("--heap", help="where DIM begins in a listing")
    parser.add_argument("--time", help="what TIME$ is in a listing")
    parser.add_argument("--quiet", action="store_true", help="notes aren't printed")
    parser.add_argument("files", nargs="*", metavar="FILE", help="the source, and files that it may GET")
    return parser


def parsed(parser: Parser, arguments: list[str]) -> argparse.Namespace:
    """The command line; CommandError where it asks for help or has no file."""
    words = parser.parse_args(arguments)
    if words.help:
        raise CommandError(parser.format_help().replace(f"{parser.description}\n\n", "").strip())
    if not words.files:
        raise CommandError("a FILE is wanted")
    return words


def parse_bindings(words: list[str]) -> tuple[dict[str, int], dict[str, int]]:
    """The values and the rooms of `--bind`."""
    values: dict[str, int] = {}
    rooms: dict[str, int] = {}
    for word in words:
        name, sign, text = word.partition("=")
        name = name.strip("|")
        if not name or not sign:
            raise CommandError(f"--bind {word}: it is NAME=VALUE")
        if name in values or name in rooms:
            raise CommandError(f"--bind {word}: the name has a value already")
        if text.startswith("%"):
            rooms[name] = number_of(text[1:])
            if rooms[name] > LONGEST_BLOCK:
                raise CommandError(f"--bind {word}: the room is larger than a program")
        else:
            values[name] = number_of(text)
    return values, rooms


def is_basic(path: str, data: bytes) -> bool:
    """Whether a file is a listing in BASIC: by its ending, its type, or the tokens it begins with."""
    lower = path.lower()
    if lower.endswith((".bas", ",ffb", ".bbc")):
        return True
    return data[:1] == b"\r" and len(data) > 3 and data[3] >= 4


def looks_like_basic(data: bytes) -> bool:
    """Whether a text that isn't said to be a listing is one: most of its lines have numbers, or several
    have words that no source for ObjAsm has."""
    lines = [line for line in lines_of(data)[:200] if line.strip()]
    numbered = sum(bool(re.match(r" *[0-9]{1,5} ?[A-Z*.\[(]", line)) for line in lines)
    own = re.compile(r"\[ *OPT|\bP%=|\bDIM [a-z]+%")
    words = sum(bool(own.search(line.partition(";")[0])) for line in lines)
    return bool(lines) and (numbered > len(lines) // 2 or words > 1)


def is_no_text(data: bytes) -> bool:
    """Whether a file has bytes that no source has, as those of a program or a module."""
    return sum(byte < 32 and byte not in b"\t\n\r\f\x1A" for byte in data[:1000]) > 20


def image_name(name: str | None, origin: str | None) -> tuple[str, int | None]:
    """The name and the origin of the image."""
    name = "program" if name is None else name
    if not name or not all("!" <= sign <= "~" for sign in name):
        raise CommandError("--name is one word")
    return name, None if origin is None else number_of(origin)


def assemble(words: argparse.Namespace) -> tuple[list[Program], MessageList]:
    """The programs that the first file makes, and what is said of it."""
    name, origin = image_name(words.name, words.origin)
    if origin is not None and (origin % 4 or origin >= 1 << 26):
        raise CommandError("--origin is a multiple of 4 below &4000000")
    values, rooms = parse_bindings(words.bind)
    data = read_bytes(words.files[0])
    if words.basic or is_basic(words.files[0], data):
        return run_listing(words, name, origin, values)
    if words.heap or words.time:
        raise CommandError("--heap and --time are for listings in BASIC")
    if is_no_text(data):
        messages = MessageList()
        messages.error(Position(words.files[0], 1), "this is no text; a module or a program without "
                       "its source is an image, which rosm_debug FILE takes as it is")
        return [], messages
    options = Options(words.files, name, origin, values, rooms, linked=not words.source_order,
                      bars=words.bars)
    program = assemble_files(options)
    if program.messages.errors() and looks_like_basic(data):
        # errors of each of its lines would only hide this one
        program.messages = MessageList()
        program.messages.error(Position(words.files[0], 1), "this is a listing in BASIC: --basic runs it")
        return [], program.messages
    return ([program] if program.data else []), program.messages


def run_listing(words: argparse.Namespace, name: str, origin: int | None,
                values: dict[str, int]) -> tuple[list[Program], MessageList]:
    """Runs a listing in BASIC."""
    if values or words.bind or words.source_order or words.bars:
        raise CommandError("--bind, --source-order and --bars are for sources for ObjAsm")
    if origin is not None:
        raise CommandError("--origin isn't for listings in BASIC: P% sets the address")
    from .basic import Options as BasicOptions
    from .basic import assemble as run
    messages = MessageList()
    options = BasicOptions()
    if words.heap:
        options.heap = number_of(words.heap)
    if words.time:
        options.time = words.time
    programs = run(list(words.files), options, messages)
    if words.name is not None and len(programs) == 1:
        programs[0].name = name
    return ([] if messages.errors() else programs), messages


def print_messages(messages: MessageList, quiet: bool) -> None:
    """Prints errors, warnings and notes on standard error."""
    for message in messages.items:
        if not (quiet and message.severity == "note"):
            print(message.text(), file=sys.stderr)


def output_of(kind: str, program: Program) -> bytes:
    """The program in the form that is asked for."""
    if kind == "binary":
        return program.data
    if kind == "elf":
        return elf_of(program)
    if kind == "listing":
        return listing_of(program).encode()
    return block_of(program).encode()


def check_block(kind: str, program: Program) -> None:
    """A block is for rosm, which takes images of a megabyte at origins that are multiples of 4."""
    if kind == "block" and (len(program.data) > LONGEST_BLOCK or program.origin % 4):
        raise SourceError(f"rosm takes a block of {LONGEST_BLOCK} bytes at most, at a multiple of 4; "
                          "--output binary has the bytes")


def write(words: argparse.Namespace, programs: list[Program]) -> int:
    """Writes what the programs come to; several have one file each, by their names."""
    status = OK
    for program in programs:
        if words.compare:
            differ, text = compare(program, read_bytes(words.compare), words.compare)
            sys.stdout.buffer.write(os.fsencode(text))
            status = max(status, OK if differ == 0 else WRONG_SOURCE)
            if not words.to:
                continue
        check_block(words.output, program)
        data = output_of(words.output, program)
        if words.to:
            path = words.to if len(programs) == 1 else f"{words.to}.{program.name}"
            Path(path).write_bytes(data)
        else:
            sys.stdout.buffer.write(data)
    sys.stdout.flush()
    return status


def command_error(parser: Parser, error: CommandError) -> int:
    """Prints what is wrong with the command line, or its help."""
    text = str(error)
    if text.startswith("usage: "):
        print(f"{parser.prog}: {parser.description}\n{text}", file=sys.stderr)
    else:
        print(f"{parser.prog}: {text}", file=sys.stderr)
        print(parser.format_usage().strip(), file=sys.stderr)
    return WRONG_COMMAND


def file_trouble(program: str, error: OSError) -> int:
    """Prints what is wrong with a file; a pipe that is closed is written to no more."""
    print(f"{program}: {error.filename or 'the output'}: {error.strerror}", file=sys.stderr)
    if isinstance(error, BrokenPipeError):
        os.dup2(os.open(os.devnull, os.O_WRONLY), sys.stdout.fileno())
    return FILE_TROUBLE


def run(program: str, arguments: list[str]) -> int:
    """The command; the result is the exit status."""
    parser = parser_of(program)
    try:
        words = parsed(parser, arguments)
        programs, messages = assemble(words)
        print_messages(messages, words.quiet)
        if not programs:
            return WRONG_SOURCE
        if len(programs) > 1 and not words.to and words.output != "block":
            raise CommandError("the listing makes several programs; -o FILE gives each a file")
        return write(words, programs)
    except CommandError as error:
        return command_error(parser, error)
    except SourceError as error:
        print(f"{program}: {error}", file=sys.stderr)
        return FILE_TROUBLE
    except OSError as error:
        return file_trouble(program, error)


