"""DATA, READ and RESTORE, and DIM and SWAP."""

from __future__ import annotations

import re

from .calls import DataPlace, array_name
from .expressions import NAME, Scan
from .interpreter import Basic
from .lines import Line
from .tokens import T
from .values import BasicError, integer_of
from .variables import make_array, takes_text
from .flow import line_of

_DATA = re.compile(f" *{T['DATA']}")
_ITEM = re.compile(r' *(?:"((?:[^"]|"")*)" *|([^,]*))')


def do_read(basic: Basic) -> None:
    while True:
        target = basic.place()
        text, quoted = next_item(basic)
        if takes_text(target):
            target.set(basic, text)
        else:
            if quoted or not text.strip():
                raise BasicError("a number is wanted for READ, and DATA has a string", text or '""')
            target.set(basic, basic.evaluate_text(text.strip()))
        if not basic.take(","):
            return


def next_item(basic: Basic) -> tuple[str, bool]:
    """The next item of DATA, and whether it stood in quotes."""
    if basic.data is None:
        basic.data = first_data(basic, basic.listing.main[0] if basic.listing.main else None)
    line, at = basic.data
    if line is _NOTHING:
        raise BasicError("there is no more DATA", "READ")
    text = line.text[:-1]
    found = _ITEM.match(text, at)
    end = found.end()
    if found.group(1) is not None and end < len(text) and text[end] != ",":
        end = text.find(",", end) if "," in text[end:] else len(text)
    if end < len(text) and text[end] == ",":
        basic.data = line, end + 1
    else:
        basic.data = after(line)
    if found.group(1) is not None:
        return found.group(1).replace('""', '"'), True
    return found.group(2), False


def after(line: Line) -> tuple[Line, int]:
    """The next DATA behind a line; the end is kept as a line that has none."""
    return find_data(line.next) or (_NOTHING, 0)


def find_data(line: Line | None) -> tuple[Line, int] | None:
    while line is not None:
        found = _DATA.match(line.text)
        if found:
            return line, found.end()
        line = line.next
    return None


_NOTHING = Line("", 0, 0, "", "")


def first_data(basic: Basic, line: Line | None) -> tuple[Line, int]:
    return find_data(line) or (_NOTHING, 0)


def do_restore(basic: Basic) -> None:
    """RESTORE, RESTORE line, RESTORE +lines; RESTORE ERROR and DATA go with LOCAL."""
    if basic.take(T["ERROR"]):
        basic.pass_over("no error is trapped here: an error ends the program", "RESTORE ERROR")
        return
    if basic.take(T["DATA"]):
        restore_data(basic)
        return
    if basic.at_end():
        basic.data = None
    elif basic.take("+"):
        line: Line | None = basic.line.next
        for _ in range(basic.integer() - 1):
            line = line.next if line else None
        basic.data = first_data(basic, line)
    else:
        basic.data = first_data(basic, line_of(basic, basic.integer()))


def restore_data(basic: Basic) -> None:
    """RESTORE DATA: READ goes on where it was at the last LOCAL DATA of this PROC or FN."""
    hidden = basic.frames[-1].hidden
    for place in range(len(hidden) - 1, -1, -1):
        if isinstance(hidden[place][1], DataPlace):
            basic.data = hidden.pop(place)[2]
            return
    raise BasicError("no LOCAL DATA comes before this in its PROC or FN", "RESTORE DATA")


def do_data(basic: Basic) -> bool:
    return basic.skip_line()


def do_dim(basic: Basic) -> None:
    """DIM array(n,..) and DIM block size."""
    while True:
        basic.blank()
        found = NAME.match(basic.text, basic.at)
        if found and found.group().endswith("("):
            dim_array(basic, found)
        else:
            dim_block(basic)
        if not basic.take(","):
            return


def dim_array(basic: Basic, found: re.Match[str]) -> None:
    name = found.group()
    basic.at = found.end()
    tops = [basic.integer()]
    while basic.take(","):
        tops.append(basic.integer())
    basic.need(")")
    if name in basic.arrays:
        raise BasicError("the array was made before, and DIM can't make it anew", name + ")")
    total = sum(len(array.values) for array in basic.arrays.values())
    basic.arrays[name] = make_array(name, tops)
    if total + len(basic.arrays[name].values) > 1 << 22:
        raise BasicError("the arrays have more than 4,194,304 elements together", name)


def dim_block(basic: Basic) -> None:
    target = basic.place()
    if takes_text(target):
        raise BasicError("a block's address goes to a variable for numbers", target.word())
    if Scan(basic.text, basic.at).blank() == T["LOCAL"]:
        raise BasicError("BASIC V has no blocks that are local to a PROC", "DIM .. LOCAL")
    size = integer_of(basic.evaluate())
    target.set(basic, basic.memory.dim(size, target.word()))


def array_kind(name: str) -> str:
    """What an array of this name keeps: `%` integers, `$` strings, else reals."""
    return name[-2] if name[-2] in "%$" else ""


def do_swap(basic: Basic) -> None:
    basic.blank()
    scan = Scan(basic.text, basic.at)
    first_array = array_name(scan)
    if first_array:
        basic.at = scan.at
        basic.need(",")
        basic.blank()
        scan = Scan(basic.text, basic.at)
        second_array = array_name(scan)
        if not second_array or array_kind(second_array) != array_kind(first_array):
            raise BasicError("an array of the same kind is wanted here", basic.word())
        basic.at = scan.at
        one, two = basic.array(first_array), basic.array(second_array)
        one.sizes, two.sizes, one.values, two.values = two.sizes, one.sizes, two.values, one.values
        return
    first = basic.place()
    basic.need(",")
    second = basic.place()
    if takes_text(first) != takes_text(second):
        raise BasicError("type mismatch: a string and a number can't be swapped", "SWAP")
    value, other = first.get(basic), second.get(basic)
    first.set(basic, other)
    second.set(basic, value)
