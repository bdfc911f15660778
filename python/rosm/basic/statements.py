"""The statements of BBC BASIC V, by their keywords, and assignments."""

from __future__ import annotations

from typing import Callable

from . import data, flow, screen
from . import operators as op
from .calls import do_def, do_endproc, do_local, do_proc, do_result
from .expressions import NAME, Scan
from .interpreter import JUMPED, STEPS_PER_TICK, Basic
from .tokens import NAMES, T
from .values import BasicError, Stop, Value, checked_string, integer_of, string_of
from .variables import Array

STATEMENTS: dict[str, Callable[[Basic], bool | None]] = {}


def assignment(basic: Basic) -> None:
    """variable=value, +=, -=, and whole arrays."""
    basic.blank()
    found = NAME.match(basic.text, basic.at)
    if found and found.group().endswith("(") and _closes(basic, found.end()):
        assign_array(basic, found.group(), found.end())
        return
    if found is None and basic.text[basic.at] not in "?!$|":
        raise BasicError("no statement begins with this", basic.word())
    start = basic.at
    try:
        target = basic.place()
    except BasicError as error:
        if not error.word:
            error.word = Scan(basic.text, start).word()
        raise
    if basic.take("="):
        target.set(basic, basic.evaluate())
    elif basic.take("+="):
        target.set(basic, op.add(target.get(basic), basic.evaluate()))
    elif basic.take("-="):
        target.set(basic, op.subtract(target.get(basic), basic.evaluate()))
    else:
        raise BasicError("no statement begins with this", Scan(basic.text, start).word())


def _closes(basic: Basic, at: int) -> bool:
    return Scan(basic.text, at).blank() == ")"


def assign_array(basic: Basic, name: str, at: int) -> None:
    """a()=values; one value goes to all elements."""
    scan = Scan(basic.text, at)
    scan.need(")")
    basic.at = scan.at
    array = basic.array(name)
    change = None
    if basic.take("+="):
        change = op.add
    elif basic.take("-="):
        change = op.subtract
    else:
        basic.need("=")
    values = [basic.evaluate()]
    while basic.take(","):
        values.append(basic.evaluate())
    fill_array(array, [change(array, values[0])] if change else values)


def fill_array(array: Array, values: list) -> None:
    from .variables import kept

    if isinstance(values[0], Array):
        if values[0].sizes != array.sizes:
            raise BasicError("the arrays don't have the same sizes", array.name + ")")
        array.values = [kept(array.name, value) for value in values[0].values]
    elif len(values) == 1:
        array.values = [kept(array.name, values[0])] * len(array.values)
    else:
        if len(values) > len(array.values):
            raise BasicError(
                f"the array has {len(array.values)} elements, and {len(values)} are given", array.name + ")"
            )
        for place, value in enumerate(values):
            array.values[place] = kept(array.name, value)


def do_let(basic: Basic) -> None:
    assignment(basic)


def do_rem(basic: Basic) -> bool:
    return basic.skip_line()


def do_end(basic: Basic) -> bool | None:
    if basic.take("="):
        basic.integer()
        raise BasicError("the program's memory can't be made larger here", "END=")
    raise Stop


def do_stop(basic: Basic) -> None:
    raise Stop


def do_error(basic: Basic) -> None:
    """ERROR number,text: the program itself finds something wrong."""
    local = basic.take(T["EXT"])
    number = basic.integer()
    basic.need(",")
    text = string_of(basic.evaluate())
    raise BasicError(
        f"the program stops with its own error {number}: {text}", "ERROR EXT" if local else "ERROR"
    )


def do_clear(basic: Basic) -> None:
    kept = {
        name: value
        for name, value in basic.variables.items()
        if len(name) == 2 and name.endswith("%") and (name[0].isupper() or name[0] == "@")
    }
    basic.variables.clear()
    basic.variables.update(kept)
    basic.arrays.clear()


def do_left(basic: Basic) -> None:
    """LEFT$(a$,n)=text: the text takes the place of the first n characters."""
    target, first, _ = _part(basic, 1)
    text, new = string_of(target.get(basic)), _new_text(basic)
    count = len(new) if first is None else max(first, 0)
    count = min(count, len(new), len(text))
    target.set(basic, new[:count] + text[count:])


def do_right(basic: Basic) -> None:
    target, first, _ = _part(basic, 1)
    text, new = string_of(target.get(basic)), _new_text(basic)
    count = len(new) if first is None else max(first, 0)
    count = min(count, len(new), len(text))
    target.set(basic, text[: len(text) - count] + new[:count])


def do_middle(basic: Basic) -> None:
    target, first, second = _part(basic, 2)
    text, new = string_of(target.get(basic)), _new_text(basic)
    start = max(first or 1, 1) - 1
    count = len(new) if second is None or second < 0 else second
    count = max(0, min(count, len(new), len(text) - start))
    target.set(basic, text[:start] + new[:count] + text[start + count :])


def _part(basic: Basic, wanted: int) -> tuple:
    target = basic.place()
    numbers: list[int | None] = []
    while basic.take(","):
        numbers.append(basic.integer())
    basic.need(")")
    if len(numbers) > wanted or (wanted == 2 and not numbers):
        raise BasicError(f"{len(numbers)} numbers follow the string", "string")
    return target, *(numbers + [None, None])[:2]


def _new_text(basic: Basic) -> str:
    basic.need("=")
    return checked_string(string_of(basic.evaluate()))


def do_pseudo(name: str) -> Callable[[Basic], None]:
    def work(basic: Basic) -> None:
        if name == "TIME" and basic.text[basic.at] == "$":
            basic.at += 1
        basic.need("=")
        value = basic.evaluate()
        if name == "HIMEM":
            if integer_of(value) < basic.memory.top:
                raise BasicError("HIMEM can't lie below what DIM gave", "HIMEM")
            if integer_of(value) > basic.memory.limit:
                raise BasicError(f"HIMEM can't lie above &{basic.memory.limit:X} here", "HIMEM")
            basic.memory.himem = integer_of(value)
        elif name == "TIME":
            if isinstance(value, str):
                basic.pass_over("nothing is done: the clock isn't set", "TIME$")
            else:
                basic.clock = integer_of(value) - basic.steps // STEPS_PER_TICK
        else:
            raise BasicError("the program's memory can't be moved here", name)

    return work


def do_ptr(basic: Basic) -> None:
    basic.need("#")
    handle = integer_of(_handle(basic))
    basic.need("=")
    basic.filing.set_pointer(handle, basic.integer())


def do_ext(basic: Basic) -> None:
    basic.need("#")
    handle = integer_of(_handle(basic))
    basic.need("=")
    basic.filing.set_extent(handle, basic.integer())


def _handle(basic: Basic) -> Value:
    """The factor behind `#`: what follows it may be `=`."""
    from .expressions import factor

    scan = Scan(basic.text, basic.at)
    value = factor(scan)
    basic.at = scan.at
    return value(basic)


def do_bput(basic: Basic) -> None:
    basic.need("#")
    handle = basic.integer()
    basic.need(",")
    value = basic.evaluate()
    if isinstance(value, str):
        line = not basic.take(";")
        basic.filing.put(handle, value.encode("latin-1", "replace") + (b"\n" if line else b""))
    else:
        basic.filing.put(handle, bytes((basic.cut(value) & 255,)))


def do_close(basic: Basic) -> None:
    basic.need("#")
    basic.filing.close(basic.integer())


def do_oscli(basic: Basic) -> None:
    from .commands import command

    command(basic, string_of(basic.evaluate()))


def do_star(basic: Basic) -> bool:
    from .commands import command

    command(basic, basic.text[basic.at : -1])
    return basic.skip_line()


def do_sys(basic: Basic) -> None:
    from .system import system_call

    system_call(basic)


def do_library(basic: Basic) -> None:
    """LIBRARY and INSTALL: the routines of a file that was given can be called from here on."""
    name = string_of(basic.evaluate())
    path = basic.filing.given(name, "LIBRARY")
    from ..files import read_bytes

    basic.listing.load_library(path, read_bytes(path))


def do_assembler(basic: Basic) -> bool:
    basic.assembly.run()
    return JUMPED


def needs_machine(reason: str) -> Callable[[str], Callable[[Basic], None]]:
    def named(name: str) -> Callable[[Basic], None]:
        def work(basic: Basic) -> None:
            basic.machine_wanted(reason, name)

        return work

    return named


_CALLS = needs_machine("code is called, and a machine would run it")
_ASKS = needs_machine("somebody at a machine would answer this")
_OTHER_PROGRAM = needs_machine("another program would run from here on")
_AGAIN = needs_machine("the program would begin anew")
_IMMEDIATE = "this is a command for the keyboard, and no statement of a program"

for _name, _work in {
    "LET": do_let,
    "REM": do_rem,
    "DATA": data.do_data,
    "DEF": do_def,
    "IF": flow.do_if,
    "ELSE": flow.do_else,
    "ENDIF": flow.do_endif,
    "CASE": flow.do_case,
    "WHEN": flow.do_when,
    "OTHERWISE": flow.do_when,
    "ENDCASE": flow.do_endif,
    "FOR": flow.do_for,
    "NEXT": flow.do_next,
    "REPEAT": flow.do_repeat,
    "UNTIL": flow.do_until,
    "WHILE": flow.do_while,
    "ENDWHILE": flow.do_endwhile,
    "GOTO": flow.do_goto,
    "GOSUB": flow.do_gosub,
    "RETURN": flow.do_return,
    "ON": flow.do_on,
    "PROC": do_proc,
    "ENDPROC": do_endproc,
    "LOCAL": do_local,
    "DIM": data.do_dim,
    "READ": data.do_read,
    "RESTORE": data.do_restore,
    "SWAP": data.do_swap,
    "END": do_end,
    "STOP": do_stop,
    "QUIT": do_stop,
    "ERROR": do_error,
    "CLEAR": do_clear,
    "LEFT$(": do_left,
    "RIGHT$(": do_right,
    "MID$(": do_middle,
    "PTR": do_ptr,
    "EXT": do_ext,
    "BPUT": do_bput,
    "CLOSE": do_close,
    "OSCLI": do_oscli,
    "SYS": do_sys,
    "LIBRARY": do_library,
    "INSTALL": do_library,
    "PRINT": screen.do_print,
    "INPUT": screen.do_input,
    "VDU": screen.do_vdu,
    "REPORT": screen.do_nothing,
    "CALL": _CALLS("CALL"),
    "MOUSE": screen.do_mouse,
    "CHAIN": _OTHER_PROGRAM("CHAIN"),
    "OVERLAY": _OTHER_PROGRAM("OVERLAY"),
    "RUN": _AGAIN("RUN"),
    "TRACE": screen.do_trace,
    "LINE": screen.do_line,
}.items():
    STATEMENTS[T[_name]] = _work
for _name in ("TIME", "HIMEM", "LOMEM", "PAGE"):
    STATEMENTS[T[_name]] = do_pseudo(_name)
for _name in screen.PASSED_OVER:
    STATEMENTS[T[_name]] = screen.passed(_name)
STATEMENTS["="] = do_result
STATEMENTS["*"] = do_star
STATEMENTS["["] = do_assembler


def _command(name: str) -> Callable[[Basic], None]:
    def work(basic: Basic) -> None:
        raise BasicError(_IMMEDIATE, name)

    return work


for _character, _name in NAMES.items():
    if 0xE200 <= ord(_character) < 0xE300:
        STATEMENTS.setdefault(_character, _command(_name))
