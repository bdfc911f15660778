"""What is handed in: a file that may be anything, made into bytes and labels, or a reason why not."""

from __future__ import annotations

import re
import tempfile
from dataclasses import dataclass
from pathlib import Path

from ..files import lines_of
from ..machine.session import Line, MachineError, Session, with_texts
from ..machine.sources import Source, source_of
from ..native import Engine
from .cases import Exercise

WHERE_BYTES_ARE_READ = 0x8000
MOST_AT_ONCE = 4096
SCRIPT_LINE = re.compile(r"\s*(ASM|HEX|OBJASM|BASIC)\s+\S+", re.IGNORECASE)
OBJASM_LINE = re.compile(r"\s+(AREA|END|ENTRY|EXPORT|IMPORT|GET)\b|[A-Za-z_]\w*\s+(EQU|RN)\b", re.IGNORECASE)
LISTED = re.compile(r"^line (\d+): .* \((\w+)\)$", re.MULTILINE)
# how many errors of a source are given as reasons
MOST_ERRORS = 5
# what a text may have beside printing characters: a tab, line ends, a form feed
CONTROLS = {9, 10, 12, 13}


class Refused(Exception):
    """Why nothing of a submission is run: a line for each reason."""


@dataclass(frozen=True)
class Image:
    """The bytes of a submission, its labels by their addresses, and its lines."""

    data: bytes
    labels: dict[str, int]
    source: Source = Source(0)


def read_submission(path: Path, most: int) -> bytes:
    """The bytes of a file that is handed in. Refused: it can't be read, is no file or is too large."""
    try:
        if not path.is_file():
            raise Refused("it is no file" if path.exists() else "there is no such file")
        with path.open("rb") as file:
            data = file.read(most + 1)
    except (OSError, ValueError) as error:
        raise Refused(f"it can't be read: {getattr(error, 'strerror', None) or error}") from error
    if len(data) > most:
        raise Refused(f"it has more than {most} bytes")
    return data


def text_lines(data: bytes) -> list[str]:
    """The lines of a text, with spaces for tabs. Refused: these are no text."""
    data = data.removeprefix(b"\xef\xbb\xbf")
    if data[:2] in (b"\xff\xfe", b"\xfe\xff"):
        raise Refused("it is a text in UTF-16; save it as UTF-8 or ASCII")
    for place, byte in enumerate(data):
        if byte < 32 and byte not in CONTROLS or byte == 127:
            line = data.count(b"\n", 0, place) + 1
            raise Refused(f"it is no text: line {line} has a byte {byte}")
    lines = [line.expandtabs(8).replace("\f", " ") for line in lines_of(data)]
    if not any(line.strip() for line in lines):
        raise Refused("it is empty")
    return lines


def image_of(exercise: Exercise, data: bytes, engine: Engine) -> Image:
    """Assembles a submission, alone. Refused: why it can't be."""
    lines = text_lines(data)
    if exercise.language == "objasm":
        return objasm_image(exercise, lines)
    return asm_image(exercise, lines, engine)


def asm_image(exercise: Exercise, lines: list[str], engine: Engine) -> Image:
    """Assembles by the machine's own assembler. The session has no other lines than these."""
    for number, line in enumerate(lines, 1):
        if line.strip().upper() == "END":
            raise Refused(end_reason(lines, number))
    session = Session(engine, exercise.settings, limit=0)
    try:
        image = session.do(Line(f"ASM {exercise.name} &{exercise.origin:X}", (*lines, "END")))[0].image
        if image is None:
            raise Refused("no image was made of it")
        check_size(exercise, image["length"])
        labels = {label: exercise.origin + offset for label, offset in image.get("labels", {}).items()}
        return Image(bytes_of_image(session, exercise.name, image["length"]), labels, source_of(image, lines))
    except MachineError as error:
        raise Refused(assembly_reason(exercise.name, str(error.answer or error), lines)) from error


def check_size(exercise: Exercise, size: int) -> None:
    """Refused: an image has no byte, or more than there is room for."""
    room = 4096 * exercise.settings.app
    if not 0 < size <= room:
        raise Refused(f"it comes to {size} bytes, and there is room for 1 to {room}")


def bytes_of_image(session: Session, name: str, size: int) -> bytes:
    """The bytes of an image: they are put into memory, and MEM shows them."""
    lines = [Line(f"PUT {name} &{WHERE_BYTES_ARE_READ:X}")]
    lines += [Line(f"MEM &{WHERE_BYTES_ARE_READ + at:X} {min(MOST_AT_ONCE, size - at)}")
              for at in range(0, size, MOST_AT_ONCE)]
    return b"".join(shown_bytes(answer.text) for answer in session.do(*lines)[1:])


def shown_bytes(text: str) -> bytes:
    """The bytes that MEM shows; those that aren't mapped are left out."""
    pairs = [pair for line in text.splitlines() for pair in line.partition(": ")[2].split() if pair != "--"]
    return bytes.fromhex("".join(pairs))


def objasm_image(exercise: Exercise, lines: list[str]) -> Image:
    """Assembles as ObjAsm does. The source can ask for no other file."""
    from ..objasm import Options, assemble_files
    with tempfile.TemporaryDirectory(prefix="rosm-mark-") as room:
        path = Path(room) / exercise.name
        path.write_bytes("".join(f"{line}\n" for line in lines).encode("latin-1"))
        program = assemble_files(Options([str(path)], exercise.name, exercise.origin, {}, {}, linked=True, bars=False))
        wrong = [" ".join(message.text().replace(f"{path}:", "line ").replace(": error: ", ": ", 1).split())
                 for message in program.messages.items if message.severity == "error"]
    if wrong:
        raise Refused("\n".join(wrong[:MOST_ERRORS]))
    check_size(exercise, len(program.data))
    labels = {label.name: label.address for label in program.labels}
    offsets = {label: address - exercise.origin for label, address in labels.items()}
    rows = [[row.position.line, row.address - exercise.origin, row.length] for row in program.rows
            if row.position.file == str(path)]
    record = {"length": len(program.data), "labels": offsets, "lines": rows}
    return Image(program.data, labels, source_of(record, lines))


def end_reason(lines: list[str], number: int) -> str:
    """Why a line END is refused: it would end the block of a script."""
    if any(SCRIPT_LINE.match(line) for line in lines):
        return f"line {number}: END: it is a whole script; only the lines between ASM and END are wanted"
    if any(OBJASM_LINE.match(line) for line in lines):
        return f'line {number}: END: it looks like a source for ObjAsm, which language = "objasm" takes'
    return f"line {number}: END alone on a line isn't allowed"


def assembly_reason(name: str, text: str, lines: list[str]) -> str:
    """What the assembler says, a line for each error, with the text of the line that it names."""
    first, _, listed = text.partition("\n")
    found = [f"line {number}: {error}" for number, error in LISTED.findall(listed)[:MOST_ERRORS]]
    text = with_texts("\n".join(found or [first.removeprefix(f"asm {name}: ")]), lines)
    if any(OBJASM_LINE.match(line) for line in lines):
        text += ' (it looks like a source for ObjAsm, which language = "objasm" takes)'
    return text
