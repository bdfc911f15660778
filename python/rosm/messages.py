"""What is said of a source: where, how serious, which word, why, and by which calls it came.

A message shows the source's own words and never a line that was rewritten. Errors mean that there
are no bytes; a warning means that bytes were made and a reader should look; a note is for
knowledge.
"""

from __future__ import annotations

from dataclasses import dataclass, field

ERROR, WARNING, NOTE = "error", "warning", "note"


@dataclass(frozen=True)
class Call:
    """One step of the way to a line: a macro, a file that GET reads, a PROC or an FN."""

    kind: str  # "macro", "GET", "PROC", "FN"
    name: str
    file: str  # where the call stands
    line: int
    defined_file: str = ""  # where the macro, PROC or FN is defined
    defined_line: int = 0

    def text(self) -> str:
        """The call as a message's line shows it."""
        defined = f" ({self.defined_file}:{self.defined_line})" if self.defined_file else ""
        verb = "read by" if self.kind == "GET" else "called at"
        noun = "file" if self.kind == "GET" else self.kind
        return f"in {noun} {self.name}{defined}, {verb} {self.file}:{self.line}"


@dataclass(frozen=True)
class Position:
    """A line of a source: its file, its number, its text, and the calls by which it is read.

    The innermost call stands first.
    """

    file: str
    line: int
    text: str = ""
    calls: tuple[Call, ...] = ()

    def short(self) -> str:
        """The place in a few words: `hdr/Macros:33 in EXITS, pots.s:116`."""
        words = [f"{self.file}:{self.line}"]
        words += [f"in {call.name}, {call.file}:{call.line}" for call in self.calls
                  if call.kind != "GET"]
        return " ".join(words)


@dataclass(frozen=True)
class Message:
    """An error, a warning or a note with its place, the source's own word and the reason."""

    severity: str
    position: Position
    reason: str
    word: str = ""

    def text(self) -> str:
        """The message as it is printed: the place, the line as it stands, and the calls."""
        place = self.position
        word = f"{self.word}: " if self.word else ""
        lines = [f"{place.file}:{place.line}: {self.severity}: {word}{self.reason}"]
        if place.text.strip():
            lines.append("    " + place.text.strip("\r\n").expandtabs(8).strip())
        lines += ["    " + call.text() for call in place.calls]
        return "\n".join(map(printable, lines))


def printable(text: str) -> str:
    """A line for a terminal: signs that would steer it are shown by their numbers."""
    return "".join(f"\\x{ord(sign):02X}" if sign < " " or "\x7F" <= sign < "\xA0" else sign
                   for sign in text)


class SourceError(Exception):
    """What is wrong with a line: the reason, and the word of the source that it is about."""

    def __init__(self, reason: str, word: str = "") -> None:
        super().__init__(f"{word}: {reason}" if word else reason)
        self.reason = reason
        self.word = word


@dataclass
class MessageList:
    """The messages of a source in their order, each once."""

    items: list[Message] = field(default_factory=list)
    _seen: set[Message] = field(default_factory=set)

    def add(self, severity: str, position: Position, reason: str, word: str = "") -> None:
        """Adds a message, unless the same was added before."""
        message = Message(severity, position, reason, word)
        if message not in self._seen:
            self._seen.add(message)
            self.items.append(message)

    def error(self, position: Position, reason: str, word: str = "") -> None:
        self.add(ERROR, position, reason, word)

    def warn(self, position: Position, reason: str, word: str = "") -> None:
        self.add(WARNING, position, reason, word)

    def note(self, position: Position, reason: str, word: str = "") -> None:
        self.add(NOTE, position, reason, word)

    def errors(self) -> list[Message]:
        """The errors alone."""
        return [message for message in self.items if message.severity == ERROR]
