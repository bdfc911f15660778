"""A case of tools/run_riscos: a call of a routine of examples/riscos, and what must come of it."""
from __future__ import annotations

from dataclasses import dataclass, field
from typing import Iterator

BUFFER, TEXT, VALUE = 0x9000, 0x9100, 0x9200
# what stands in the buffer before, and how much of it is looked at
FILL, ROOM = 0x55, 48
WORD = 2**32
OVERFLOW = "Buffer overflow"
BAD_STRING = "Bad string"
NOT_FOUND = "System variable not found"
BAD_RELEASE = "Bad vector release"
CROWDED = "No room for a claim"
BAD_COMMAND = "Bad command"
SYNTAX = "Syntax: none"
ERRORS = {
    OVERFLOW: 0x1E4,
    "Bad base": 0x16A,
    "Bad number": 0x16B,
    "Number too big": 0x16C,
    BAD_STRING: 253,
    NOT_FOUND: 0x124,
    BAD_RELEASE: 0x1A1,
    CROWDED: 1006,
    BAD_COMMAND: 254,
    SYNTAX: 220,
}


@dataclass
class Case:
    """A call of a routine, and what must come of it: its registers, what stands in the buffer, and its error."""

    routine: str
    # a number, or the word that names a place
    given: dict[str, int | str]
    wanted: dict[str, int] = field(default_factory=dict)
    written: bytes = b""
    text: bytes = b""
    error: str = ""
    library: str = "convert"
    carry: str = ""
    value: bytes = b""
    before: bytes = b""
    # words of memory, by their addresses
    words: dict[int, int] = field(default_factory=dict)

    def lines(self) -> Iterator[str]:
        """The case as lines of a debugging script."""
        yield f"FILL &{BUFFER:X} {ROOM} BYTES {FILL}"
        if self.words:
            yield f"FILL &{min(self.words):X} {4 * len(self.words)} 0"
        if self.before:
            yield f'POKE &{BUFFER:X} "{spelt(self.before)}"'
        if self.text:
            yield f'POKE &{TEXT:X} "{spelt(self.text)}"'
        if self.value:
            yield f'POKE &{VALUE:X} "{spelt(self.value)}"'
        for name, value in self.given.items():
            yield f"SET {name} {value if isinstance(value, str) else f'&{value:X}'}"
        yield "SET PSR vc SVC"
        yield f"GOSUB {self.library}:{self.routine}"
        yield f"EXPECT FLAGS {self.carry}{'V' if self.error else 'v'} SVC"
        for name, value in self.wanted.items():
            yield f"EXPECT {name} &{value:X}"
        for place, word in self.words.items():
            yield f"EXPECT WORD &{place:X} &{word:X}"
        if self.error:
            yield "WHY"
            number = ERRORS[self.error]
            yield f"EXPECT ANSWER error {number} &{number:X} {self.error}"
        if self.error != BAD_STRING:
            left = self.written.ljust(ROOM, bytes([FILL]))
            yield f'FIND &{BUFFER:X} 1 "{spelt(left)}"'
            yield f"EXPECT ANSWER found &{BUFFER:X}"


def spelt(text: bytes) -> str:
    """Bytes as the quotes of a script spell them."""
    return "".join(chr(it) if 32 <= it <= 126 and it not in b'"\\' else f"\\x{it:02X}" for it in text)
