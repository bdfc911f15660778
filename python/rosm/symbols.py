"""`rosm symbols`: labels and lines of an ASM block of a script as an ELF file, for GDB.

The block is found in the script's text. What its labels and lines are `rosm_debug` says in its records,
and what its bytes are in what it answers to BOOT and MEM.
"""

from __future__ import annotations

import json
import os
import re
import subprocess
import sys
import unicodedata
from typing import Any

from .elf import elf_of
from .messages import Position, SourceError
from .program import Label, Program, Row
from .running import launcher
from .script_blocks import LARGEST, Block, find_block

USAGE = "usage: rosm_symbols SCRIPT NAME >NAME.elf"
WRONG, TROUBLE = 2, 4
PRODUCER = "rosm_symbols"
DIRECTIVES = (b"DCD", b"DCB", b"SPACE", b"ALIGN")
PAGE, BOOTED_AT = 4096, 0x8000
_NAME = re.compile(r"[!-~]{1,63}")
_WORD = re.compile(rb"[A-Za-z0-9_]*")
_SHOWN = re.compile(r"^[0-9A-F]{8}: ([0-9A-F]{2}(?: [0-9A-F]{2})*)$", re.MULTILINE)
_SPELT = {"\t": r"\t", "\r": r"\r", "\n": r"\n", "\0": r"\0", '"': r"\"", "\\": r"\\"}


class Refused(Exception):
    """Why there is no file, and the exit status for that."""

    def __init__(self, reason: str, status: int) -> None:
        super().__init__(reason)
        self.status = status


def wrong_words(reason: str) -> Refused:
    return Refused(f"{reason}; {USAGE}", WRONG)


def asked(arguments: list[str]) -> tuple[str, str]:
    """The path of the script and the name of the block that the words of a command line ask for."""
    for word in arguments:
        try:
            os.fsencode(word).decode("utf-8")
        except UnicodeDecodeError:
            raise wrong_words("a word is not text in UTF-8") from None
    given: list[str] = []
    takes_options = True
    for word in arguments:
        if takes_options and word == "--":
            takes_options = False
        elif takes_options and word in ("-h", "--help"):
            raise wrong_words("SCRIPT is the file of a script, NAME an ASM block of it")
        elif takes_options and word.startswith("--help="):
            value = word.removeprefix("--help=")
            raise wrong_words(f"unexpected value '{value}' for '--help' found; no more were expected")
        elif takes_options and word.startswith("-") and word != "-":
            shown = word.partition("=")[0] if word.startswith("--") else word[:2]
            raise wrong_words(f"unexpected argument '{shown}' found")
        elif len(given) == 2:
            raise wrong_words(f"unexpected argument '{word}' found")
        else:
            given.append(word)
    if len(given) < 2:
        raise wrong_words("a SCRIPT and a NAME are needed")
    if not _NAME.fullmatch(given[1]):
        raise Refused("NAME is the name of an image: 1 to 63 bytes from ! to ~, and no space", WRONG)
    return given[0], given[1]


def quoted(path: str) -> str:
    """A path between quotes, on one line."""
    return '"' + "".join(_SPELT.get(letter) or spelt(letter) for letter in path) + '"'


def spelt(letter: str) -> str:
    """A letter as it is, or by its number where it has no shape of its own."""
    is_shown = letter.isprintable() and unicodedata.category(letter) not in ("Mn", "Me")
    return letter if is_shown else f"\\u{{{ord(letter):x}}}"


def script_of(path: str) -> bytes:
    """The bytes of the script."""
    try:
        with open(path, "rb") as file:
            script = file.read(LARGEST + 1)
    except FileNotFoundError:
        raise Refused(f"{quoted(path)}: no such file", TROUBLE) from None
    except PermissionError:
        raise Refused(f"{quoted(path)}: no permission to read it", TROUBLE) from None
    except OSError:
        raise Refused(f"{quoted(path)}: can't be read", TROUBLE) from None
    if len(script) > LARGEST:
        raise Refused(f"{quoted(path)}: a script has at most {LARGEST} bytes", TROUBLE)
    return script


def answered(words: list[str], script: bytes) -> tuple[str, str]:
    """What rosm_debug writes of a script, and what it says beside that."""
    done = subprocess.run([launcher(), *words], input=script, capture_output=True, check=False)
    said = done.stderr.decode(errors="replace")
    if done.returncode in (WRONG, TROUBLE) or done.returncode < 0 or not done.stdout:
        raise Refused((said.splitlines() or [f"rosm_debug ended with status {done.returncode}"])[-1], TROUBLE)
    return done.stdout.decode("ascii"), said


def image_of(block: Block, name: str) -> dict[str, Any]:
    """What the records say of the image that the block makes."""
    records, said = answered(["--json"], block.text)
    # that the program isn't proved, where it isn't; a block that goes on to the script's end is none to speak of
    sys.stderr.write("".join(line for line in said.splitlines(True) if ": no END: " not in line))
    for line in records.splitlines():
        record = json.loads(line)
        if "image" in record:
            image: dict[str, Any] = record["image"]
            return image
        if record.get("refused"):
            reason = record["text"].partition("\n")[0]
            if reason.endswith(": Memory"):
                raise Refused("out of memory", TROUBLE)
            raise Refused(reason, WRONG)
    raise Refused(f"rosm_debug has made no image of {name}", TROUBLE)


def bytes_of(block: Block, name: str, length: int) -> bytes:
    """The bytes of that image, as they stand in memory once it is booted."""
    if not length:
        return b""
    pages = -(-length // PAGE)
    views = "".join(f"MEM &{BOOTED_AT + start:X} {min(PAGE, length - start)}\n" for start in range(0, length, PAGE))
    words = [f"--app={pages}", "--rma=1", f"--pages={pages + 4}"]
    end = b"\n" if block.has_end else b"\nEND\n"
    text, _ = answered(words, block.text + end + f"BOOT {name}\n{views}".encode())
    data = b"".join(bytes.fromhex(shown) for shown in _SHOWN.findall(text))
    if f"\nboot {name}\n" not in text or len(data) != length:
        raise Refused(f"rosm_debug shows {len(data)} bytes of {name}, which has {length}", TROUBLE)
    return data


def is_code(line: bytes) -> bool:
    """Whether the statement of a line is an instruction, and no directive."""
    statement = line[_matched(line):].lstrip(b" ")
    return statement[:_matched(statement)].upper() not in DIRECTIVES


def _matched(text: bytes) -> int:
    found = _WORD.match(text)
    assert found
    return found.end()


def program_of(path: str, block: Block, name: str) -> Program:
    """The block as a program, its labels in order and its lines by their numbers in the script."""
    image = image_of(block, name)
    origin = image["origin"]
    # the block's line stands first in the script that was answered
    rows = [Row(origin + offset, length, Position(path, number - 2 + block.first), is_code(block.lines[number - 2]))
            for number, offset, length in image["lines"]]
    labels = [Label(label, origin + offset, Position(path, 0)) for label, offset in image["labels"].items()]
    return Program(origin, bytes_of(block, name, image["length"]), name=name, path=path, labels=labels, rows=rows)


def file_asked(arguments: list[str]) -> bytes:
    """The ELF file that the words of a command line ask for."""
    path, name = asked(arguments)
    block = find_block(script_of(path), name.encode())
    if block is None:
        raise Refused(f"no ASM block is named {name}", WRONG)
    return elf_of(program_of(path, block, name), PRODUCER)


def write(data: bytes) -> None:
    """Writes bytes to standard output."""
    try:
        with open(1, "wb", closefd=False) as out:
            out.write(data)
    except OSError:
        raise Refused("the output can't be written", TROUBLE) from None


def run(program: str, arguments: list[str]) -> int:
    """The command; the status is 2 for what is asked wrongly and a block that can't be, else 4."""
    try:
        write(file_asked(arguments))
        return 0
    except Refused as refused:
        print(f"{program}: {refused}", file=sys.stderr)
        return refused.status
    except (SourceError, OSError, MemoryError) as error:
        print(f"{program}: {error or 'out of memory'}", file=sys.stderr)
        return TROUBLE
