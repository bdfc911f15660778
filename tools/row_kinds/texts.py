"""The kinds `text`, `words` and `sources`: what is printed of a word, and what is assembled."""
import re

from row_kinds.script import RowError, Script, Verdict, fields_of, words_of

ESCAPES = {"n": "\n", "r": "\r", "t": "\t", "\\": "\\"}


def difference(about: str, found: str, wanted: str) -> str | None:
    """What is found in place of what is wanted, if they differ."""
    return None if found == wanted else f"{about}: found {found!r}, wanted {wanted!r}"


def printed(row: str, script: Script) -> Verdict:
    """A row of the kind text."""
    fields = fields_of(row, "WORD | TEXT" if row.count(" | ") < 2 else "WORD | ADDRESS | TEXT")
    word, text = fields[0], fields[-1]
    address = int(fields[1], 16) if len(fields) > 2 else 0x8000
    code = script.ask(f"POKE &{address:X} &{word}", f"CODE &{address:X} 1")
    read = assembled(script, address, " " + text)

    def judge(answers: list[str]) -> str | None:
        line = f"{address:08X} {word} {text}\n"
        read_as = " ".join(words_of(answers[read]))
        return difference("CODE", answers[code], line) or difference(text, read_as, word)

    return judge


def assembled(script: Script, origin: int, source: str, show: str = "WORDS &9000 1") -> int:
    """Assembles a source, and shows its bytes."""
    lines = [source.removesuffix("\n")] if source else []
    return script.ask(f"ASM t &{origin:X}", *lines, "END", "PUT t &9000", show, "FORGET t")


def read(row: str, script: Script) -> Verdict:
    """A row of the kind words."""
    text, wanted = fields_of(row, "TEXT | WORD or REASON")
    piece = assembled(script, 0x8000, f"loop\n {text}\n SPACE 252\ntab\n")

    def judge(answers: list[str]) -> str | None:
        first = answers[piece].partition("\n")[0]
        if re.fullmatch(r"[0-9A-F]{8}", wanted):
            found = " ".join([first, *words_of(answers[piece])])
            return difference(text, found, f"asm t: 256 bytes {wanted}")
        return difference(text, first, f"asm t: line 2: {wanted}")

    return judge


def bytes_of(text: str) -> str:
    """What a text with escapes means."""

    def byte(escape: re.Match[str]) -> str:
        word = escape[1]
        if len(word) == 1 and word not in ESCAPES:
            raise RowError(f"`{escape[0]}` is no escape")
        return chr(int(word[1:], 16)) if len(word) == 3 else ESCAPES[word]

    return re.sub(r"\\(x[0-9A-Fa-f]{2}|.)", byte, text)


def source(row: str, script: Script) -> Verdict:
    """A row of the kind sources."""
    origin, text, wanted = fields_of(row, "ORIGIN | SOURCE | BYTES")
    times, star, rest = text.partition(" * ")
    text = rest * int(times) if star and times.isdigit() else text
    text = bytes_of(text)
    is_bytes = re.fullmatch(r"([0-9A-F]{2} ?)+", wanted)
    count = len(wanted.split()) if is_bytes else 4
    piece = assembled(script, int(origin, 16), text, f"MEM &9000 {count}")

    def judge(answers: list[str]) -> str | None:
        first = answers[piece].partition("\n")[0]
        if not is_bytes:
            return difference(row, first, f"asm t: {wanted}")
        found = " ".join([first, *words_of(answers[piece])])
        return difference(row, found, f"asm t: {count} bytes {wanted}")

    return judge
