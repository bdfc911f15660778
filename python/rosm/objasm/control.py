"""What steers the reading: conditions, WHILE, macros, and other files."""

from __future__ import annotations

from typing import TYPE_CHECKING

from ..files import lines_of, read_bytes
from ..messages import Call, SourceError
from .expressions import Expressions
from .frames import Condition, Frame, read_prototype
from .tokens import Line, Stop, no_label, split_line

if TYPE_CHECKING:
    from .assembler import Assembler

LONGEST_LOOP = 500_000  # lines of one WHILE, all rounds together

_BLANKS = {0x0B: " ", 0x0C: " ", 0x1A: " "}  # tabulators of paper, and the end of a file of old

_OPENING = frozenset({"[", "IF", "if"})
_OTHERWISE = frozenset({"|", "ELSE", "else"})
_ELSE_IF = frozenset({"ELIF", "elif"})
_CLOSING = frozenset({"]", "ENDIF", "endif", "FI", "fi"})


def operation_of(text: str) -> str:
    """The operation of a line that isn't read otherwise, so `$` may stand in it."""
    rest = text
    if text and text[0] not in " \t;":
        if text[0] == "|":
            end = text.find("|", 1)
            rest = text[end + 1:] if end > 0 else ""
        else:
            parts = text.split(None, 1)
            rest = " " + parts[1] if len(parts) > 1 else ""
    rest = rest.lstrip(" \t")
    if not rest or rest[0] == ";":
        return ""
    if rest[0] in "[|]":
        return rest[0]
    return rest.replace(";", " ").split(None, 1)[0]


def if_(assembler: "Assembler", line: Line) -> None:
    """`[ condition`."""
    no_label(line)
    frame = assembler.frames[-1]
    place = frame.position()
    try:
        reader = Expressions(assembler, line.operands, strict=True)
        holds = reader.truth()
        reader.end()
    except SourceError as error:
        assembler.error(error)
        holds = False
    frame.conditions.append(Condition(holds, holds, place))
    if not holds:
        skip_to_choice(assembler, frame)


def skip_to_choice(assembler: "Assembler", frame: Frame) -> None:
    """Passes over lines up to the part of the condition that is taken, or its end."""
    depth, begin = 0, frame.index
    condition = frame.conditions[-1]
    while frame.index < len(frame.lines):
        text = frame.lines[frame.index][1]
        frame.index += 1
        assembler.lines_read += 1
        operation = operation_of(text)
        if operation in _OPENING:
            depth += 1
        elif operation in _CLOSING:
            if depth == 0:
                frame.conditions.pop()
                return
            depth -= 1
        elif depth == 0 and operation in _OTHERWISE:
            check_otherwise(assembler, condition)
            if not condition.done:
                condition.done = True
                return
        elif depth == 0 and operation in _ELSE_IF and not condition.done:
            if else_if_holds(assembler, frame, text):
                condition.done = True
                return
    assembler.error(SourceError("its ] or ENDIF is missing", "["), condition.position)
    frame.conditions.pop()
    frame.index = begin


def check_otherwise(assembler: "Assembler", condition: Condition) -> None:
    """A condition has one part for all other cases."""
    if condition.otherwise:
        assembler.error(SourceError("the condition has this part already", "|"))
    condition.otherwise = True


def else_if_holds(assembler: "Assembler", frame: Frame, text: str) -> bool:
    """Whether the condition of a line ELIF holds."""
    try:
        line = split_line(assembler.substituted(frame, text))
        reader = Expressions(assembler, line.operands, strict=True)
        holds = reader.truth()
        reader.end()
        return holds
    except SourceError as error:
        assembler.error(error)
        return False


def otherwise(assembler: "Assembler", line: Line) -> None:
    """`|`, ELSE and ELIF behind a part that was taken."""
    no_label(line)
    frame = assembler.frames[-1]
    if not frame.conditions:
        raise SourceError("no condition is open here", line.operation)
    if line.operation in _OTHERWISE:
        nothing_behind(line)
        check_otherwise(assembler, frame.conditions[-1])
    skip_to_choice(assembler, frame)


def end_if(assembler: "Assembler", line: Line) -> None:
    """`]`."""
    no_label(line)
    nothing_behind(line)
    frame = assembler.frames[-1]
    if not frame.conditions:
        raise SourceError("no condition is open here", line.operation)
    frame.conditions.pop()


def nothing_behind(line: Line) -> None:
    """Refuses operands where a directive has none."""
    if line.operands:
        raise SourceError(f"nothing may follow {line.operation}", line.operands)


def while_(assembler: "Assembler", line: Line) -> None:
    """`WHILE condition`: goes round, or on behind its WEND."""
    no_label(line)
    frame = assembler.frames[-1]
    here = frame.index - 1
    going = bool(frame.loops) and frame.loops[-1][0] == here
    try:
        reader = Expressions(assembler, line.operands, strict=True)
        holds = reader.truth()
        reader.end()
    except SourceError as error:
        assembler.error(error)
        holds = False
    if going and assembler.lines_read - frame.loops[-1][1] > LONGEST_LOOP:
        assembler.error(SourceError(f"the loop comes to more than {LONGEST_LOOP:,} lines; nothing behind "
                                    "it is read", line.operation))
        raise Stop
    if holds:
        if not going:
            frame.loops.append((here, assembler.lines_read, frame.position()))
        return
    if going:
        frame.loops.pop()
    skip_loop(assembler, frame)


def skip_loop(assembler: "Assembler", frame: Frame) -> None:
    """Passes over lines up to the WEND that belongs to the line WHILE read last."""
    depth, place, begin = 0, frame.position(), frame.index
    while frame.index < len(frame.lines):
        operation = operation_of(frame.lines[frame.index][1]).upper()
        frame.index += 1
        if operation == "WHILE":
            depth += 1
        elif operation == "WEND":
            if depth == 0:
                return
            depth -= 1
    assembler.error(SourceError("its WEND is missing", "WHILE"), place)
    frame.index = begin


def wend(assembler: "Assembler", line: Line) -> None:
    """WEND: back to the condition."""
    no_label(line)
    nothing_behind(line)
    frame = assembler.frames[-1]
    if not frame.loops:
        raise SourceError("no WHILE is open here", line.operation)
    frame.index = frame.loops[-1][0]


def macro(assembler: "Assembler", line: Line) -> None:
    """MACRO .. MEND: keeps the lines for later calls."""
    no_label(line)
    nothing_behind(line)
    frame = assembler.frames[-1]
    begin = frame.position()
    while frame.index < len(frame.lines) and not frame.lines[frame.index][1].split(";")[0].strip():
        frame.index += 1
    if frame.index >= len(frame.lines):
        raise SourceError("its MEND is missing", line.operation)
    text = frame.lines[frame.index][1].split(";")[0]
    frame.index += 1
    place = frame.position()
    wrong: SourceError | None = None
    try:
        found = read_prototype(text, place)
    except SourceError as error:
        wrong = error
    start, depth = frame.index, 1
    while frame.index < len(frame.lines) and depth:
        operation = operation_of(frame.lines[frame.index][1]).upper()
        depth += (operation == "MACRO") - (operation == "MEND")
        frame.index += 1
    if depth:
        assembler.error(SourceError("its MEND is missing", line.operation), begin)
        frame.index = start
    if wrong:
        assembler.error(wrong, place)
    if wrong or depth:
        return
    found.lines = frame.lines[start:frame.index - 1]
    if found.name in assembler.directives:
        assembler.messages.warn(place, "this is a directive's name, so the macro is never called", found.name)
    if found.name in assembler.macros:
        first = assembler.macros[found.name].position
        assembler.error(SourceError(f"the macro is there twice, first at {first.file}:{first.line}",
                                    found.name), place)
        return
    assembler.macros[found.name] = found


def mend(assembler: "Assembler", line: Line) -> None:
    raise SourceError("no MACRO is open here", line.operation)


def mexit(assembler: "Assembler", line: Line) -> None:
    """MEXIT: leaves the macro."""
    no_label(line)
    nothing_behind(line)
    frame = assembler.frames[-1]
    if frame.macro is None:
        raise SourceError("it leaves a macro, and none is being read", line.operation)
    assembler.frames.pop()


def end_of_frame(assembler: "Assembler", frame: Frame) -> None:
    """Leaves a file or a macro, and reports what is open in it."""
    for condition in frame.conditions:
        assembler.error(SourceError("its ] or ENDIF is missing", "["), condition.position)
    for _, _, place in frame.loops:
        assembler.error(SourceError("its WEND is missing", "WHILE"), place)
    assembler.frames.pop()


def end(assembler: "Assembler", line: Line) -> None:
    """END: the end of the file that it stands in."""
    assembler.define_label(line.label)
    nothing_behind(line)
    while assembler.frames:
        frame = assembler.frames[-1]
        end_of_frame(assembler, frame)
        if frame.macro is None:
            return


def file_lines(assembler: "Assembler", path: str) -> list[tuple[int, str]]:
    """A file's lines with their numbers; a trailing backslash joins a line to the next."""
    if path not in assembler.texts:
        lines: list[tuple[int, str]] = []
        joined, first = "", 0
        for number, text in enumerate(lines_of(read_bytes(path)), 1):
            text = text.translate(_BLANKS)
            if joined:
                text = joined + text.lstrip()
                number, joined = first, ""
            if text.endswith("\\"):
                joined, first = text[:-1], number
                continue
            lines.append((number, text))
        if joined:
            lines.append((first, joined))
        assembler.texts[path] = lines
    return assembler.texts[path]


def get(assembler: "Assembler", line: Line) -> None:
    """GET and INCLUDE: the lines of another file stand here."""
    no_label(line)
    open_file(assembler, line, assembler.frames[-1].calls, ())


def lnk(assembler: "Assembler", line: Line) -> None:
    """LNK: the rest is in another file, and nothing behind this line is read."""
    no_label(line)
    left = list(assembler.frames)
    open_file(assembler, line, (), left)


def open_file(assembler: "Assembler", line: Line, calls: tuple[Call, ...],
              left: list[Frame] | tuple[()]) -> None:
    """Begins to read a file; the frames in `left` are left for good."""
    from .assembler import DEEPEST_CALLS
    name = line.operands.strip('"')
    if not name:
        raise SourceError("a file's name is wanted", line.operation)
    if len(assembler.frames) > DEEPEST_CALLS:
        raise SourceError(f"files are more than {DEEPEST_CALLS} deep", name)
    path = assembler.library.find(name)
    lines = file_lines(assembler, path)
    place = assembler.frames[-1].position()
    step = Call("GET", path, place.file, place.line)
    level = assembler.frames[-1].level
    for frame in reversed(left):
        end_of_frame(assembler, frame)
    assembler.frames.append(Frame(path, lines, (step,) + (calls if not left else ()), level=level))


CONTROL = {"[": if_, "IF": if_, "|": otherwise, "ELSE": otherwise, "ELIF": otherwise, "]": end_if,
           "ENDIF": end_if, "FI": end_if, "WHILE": while_, "WEND": wend, "MACRO": macro, "MEND": mend,
           "MEXIT": mexit, "END": end, "GET": get, "INCLUDE": get, "LNK": lnk}
