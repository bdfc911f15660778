"""Star commands: *SAVE and *SETTYPE are done, *LOAD of a file that was given too; those that only
set up a machine are passed over with a note; those that would change the bytes are errors."""

from __future__ import annotations

import re

from .interpreter import Basic
from .values import BasicError

_WORDS = re.compile(r'"[^"]*"|[^ ]+')
_COMMAND = re.compile(r"[A-Za-z]+\.?|/")
FILE_TYPES = {
    "MODULE": 0xFFA,
    "ABSOLUTE": 0xFF8,
    "UTILITY": 0xFFC,
    "BASIC": 0xFFB,
    "TEXT": 0xFFF,
    "DATA": 0xFFD,
    "OBEY": 0xFEB,
    "COMMAND": 0xFFE,
    "SPRITE": 0xFF9,
    "TEMPLATE": 0xFEC,
    "FONT": 0xFF6,
}
# Commands after which the program's bytes would be others, or which end it.
_ERRORS = {
    "RUN": "another program would run from here on",
    "EXEC": "its lines would come from a file",
    "OBEY": "its commands would come from a file",
    "BASIC": "BASIC would start anew",
    "GO": "a machine would run code",
    "/": "another program would run from here on",
    "SPOOL": "what is printed would go to a file",
    "SPOOLON": "what is printed would go to a file",
    "QUIT": "BASIC would be left",
}


def command(basic: Basic, text: str) -> None:
    """A command behind `*` or OSCLI."""
    text = text.strip().lstrip("* ")
    found = _COMMAND.match(text)
    if not text or text.startswith("|"):
        return  # a remark
    word = found.group() if found else text.split(" ")[0]
    rest = text[len(word) :] if found else ""
    name = word.upper()
    if name in ("SAVE", "S."):
        save(basic, _WORDS.findall(rest), word)
    elif name == "SETTYPE":
        set_type(basic, _WORDS.findall(rest), word)
    elif name in ("LOAD", "L."):
        load(basic, _WORDS.findall(rest), word)
    elif name in _ERRORS:
        raise BasicError(_ERRORS[name], "*" + word)
    else:
        basic.pass_over("nothing is done: there is no machine that this would set up", "*" + word)


def hexadecimal(text: str, word: str) -> int:
    """A number of a command, which is hexadecimal, as `8F00` or `&8F00`."""
    digits = text.lstrip("&")
    if not re.fullmatch("[0-9A-Fa-f]{1,8}", digits):
        raise BasicError(f"`{text}` is no hexadecimal number", "*" + word)
    return int(digits, 16)


def save(basic: Basic, words: list[str], word: str) -> None:
    """*SAVE name start end or +length, and perhaps where it is entered and loaded."""
    if len(words) == 2 and "+" in words[1][1:]:
        place, length = words[1].split("+", 1)
        words = [words[0], place, "+" + length]
    if len(words) >= 4 and words[2] == "+":
        words = [*words[:2], "+" + words[3], *words[4:]]
    if not 3 <= len(words) <= 5:
        raise BasicError("a name, the start, and the end or +length are wanted", "*" + word)
    name, start = words[0].strip('"'), hexadecimal(words[1], word)
    if words[2].startswith("+"):
        end = start + hexadecimal(words[2][1:], word)
    else:
        end = hexadecimal(words[2], word)
    basic.filing.save(name, start, end, "*" + word)


def set_type(basic: Basic, words: list[str], word: str) -> None:
    """*SETTYPE name type."""
    if len(words) != 2:
        raise BasicError("a name and a file type are wanted", "*" + word)
    name = words[1].strip('"').upper()
    number = FILE_TYPES[name] if name in FILE_TYPES else hexadecimal(words[1], word)
    basic.filing.set_type(words[0].strip('"'), number & 0xFFF)


def load(basic: Basic, words: list[str], word: str) -> None:
    """*LOAD name address of a file that was given."""
    if len(words) != 2:
        raise BasicError("a name and an address are wanted", "*" + word)
    basic.filing.load(words[0].strip('"'), hexadecimal(words[1], word), "*" + word)
