"""PROC and FN: their parameters, LOCAL, and the way back."""

from __future__ import annotations

from ..messages import Call, SourceError
from .expressions import NAME, Find, Given, Scan, place, routine_call
from .interpreter import DEEPEST, JUMPED, Basic, Frame
from .lines import Line
from .tokens import T
from .values import BasicError, Value
from .variables import Array, ElementPlace, MemoryPlace, Target, VariablePlace, empty_of


class Parameter:
    """A parameter of DEF: a place, or the name of an array; whether RETURN stands before it."""

    __slots__ = ("find", "array", "returns")

    def __init__(self, find: Find | None, array: str, returns: bool) -> None:
        self.find = find
        self.array = array
        self.returns = returns


def parameters_of(line: Line, at: int) -> tuple[list[Parameter], int]:
    """The parameters of a DEF whose name ends here, and where its statements begin."""
    known = line.places.get(-1)
    if known is None:
        scan = Scan(line.text, at)
        found: list[Parameter] = []
        if scan.blank() == "(":
            scan.at += 1
            while True:
                found.append(_parameter(scan))
                if not scan.take(","):
                    break
            scan.need(")")
        known = line.places[-1] = (found, scan.at)
    return known


def _parameter(scan: Scan) -> Parameter:
    returns = scan.take(T["RETURN"])
    scan.blank()
    array = array_name(scan)
    if array:
        return Parameter(None, array, returns)
    return Parameter(place(scan), "", returns)


def array_name(scan: Scan) -> str:
    """The name of a whole array, as `a(`, where one stands next."""
    found = NAME.match(scan.text, scan.at)
    if found and found.group().endswith("("):
        end = found.end()
        while scan.text[end] == " ":
            end += 1
        if scan.text[end] == ")":
            scan.at = end + 1
            return found.group()
    return ""


def hide(basic: Basic, table: dict, name: str) -> None:
    """Keeps what a name has until the frame ends."""
    basic.frames[-1].hidden.append((table, name, table.get(name)))


def _hide_place(basic: Basic, target: Target) -> None:
    if isinstance(target, VariablePlace):
        hide(basic, basic.variables, target.name)
    else:
        basic.frames[-1].hidden.append((None, target, target.get(basic)))


def uncover(basic: Basic, frame: Frame) -> None:
    """Gives back what LOCAL and the parameters hid, the last first."""
    while frame.hidden:
        table, name, had = frame.hidden.pop()
        if table is None:
            name.set(basic, had)
        elif had is None:
            table.pop(name, None)
        else:
            table[name] = had


def call(basic: Basic, kind: str, name: str, given: list[Given]) -> Value:
    """Calls a PROC or FN; the value of an FN."""
    word = ("FN" if kind == T["FN"] else "PROC") + name
    found = basic.listing.routines.get(kind + name)
    if found is None:
        raise BasicError("no DEF has this name", word)
    if len(basic.frames) > DEEPEST:
        raise BasicError(f"more than {DEEPEST} calls within one another", word)
    line, at = found
    wanted, start = parameters_of(line, at)
    if len(given) != len(wanted):
        raise BasicError(f"it has {len(wanted)} parameters, and {len(given)} are given", word)
    values = [value(basic) for value, _ in given]
    targets = [
        find(basic) if parameter.returns and find else None for parameter, (_, find) in zip(wanted, given)
    ]
    back = basic.line, basic.at
    above = basic.frames[-1].calls
    step = Call(word[: -len(name)], name, basic.line.file, basic.line.row, line.file, line.row)
    frame = Frame(word[: -len(name)], word, (step, *above), back=basic.line)
    basic.frames.append(frame)
    assembling = basic.assembly.enter_routine()
    try:
        bind(basic, wanted, values, word)
        basic.go(line, start)
        basic.run(frame)
    except SourceError as error:
        if not getattr(error, "position", None):
            error.position = basic.position()
        raise
    returned = [_returned(basic, parameter) for parameter in wanted]
    basic.frames.pop()
    uncover(basic, frame)
    basic.assembly.leave_routine(assembling)
    basic.go(*back)
    for parameter, target, value in zip(wanted, targets, returned):
        if parameter.returns and not parameter.array:
            if target is None:
                raise BasicError("RETURN wants a variable here, and this is a value", word)
            target.set(basic, value)
    return frame.result


def _returned(basic: Basic, parameter: Parameter) -> Value | None:
    return parameter.find(basic).get(basic) if parameter.returns and parameter.find else None


def bind(basic: Basic, wanted: list[Parameter], values: list[Value], word: str) -> None:
    """Gives the parameters their values."""
    for parameter, value in zip(wanted, values):
        if parameter.array:
            if not isinstance(value, Array):
                raise BasicError("an array is wanted for a parameter", word)
            hide(basic, basic.arrays, parameter.array)
            basic.arrays[parameter.array] = value
            continue
        if isinstance(value, Array):
            raise BasicError("a parameter is no array, and an array is given", word)
        target = parameter.find(basic)
        _hide_place(basic, target)
        target.set(basic, value)


def do_proc(basic: Basic) -> None:
    """PROCname(..)."""
    known = basic.line.values.get(~basic.at)
    if known is None:
        scan = Scan(basic.text, basic.at)
        known = (*routine_call(scan), scan.at)
        basic.line.values[~basic.at] = known
    name, given, basic.at = known
    call(basic, T["PROC"], name, given)


def do_endproc(basic: Basic) -> bool:
    frame = basic.frames[-1]
    if frame.kind != "PROC":
        raise BasicError("this is in no PROC that was called", "ENDPROC")
    frame.done = True
    return JUMPED


def do_result(basic: Basic) -> bool:
    """`=value` ends an FN."""
    frame = basic.frames[-1]
    if frame.kind != "FN":
        raise BasicError("this is in no FN that was called", "=")
    value = basic.evaluate()
    if isinstance(value, Array):
        raise BasicError("an FN has no array for its value", "=")
    basic.finish()
    frame.result = value
    frame.done = True
    return JUMPED


def do_local(basic: Basic) -> None:
    """LOCAL names; LOCAL ERROR and LOCAL DATA keep what belongs to the caller."""
    if basic.take(T["ERROR"]):
        basic.pass_over("no error is trapped here: an error ends the program", "LOCAL ERROR")
        return
    if basic.take(T["DATA"]):
        frame = basic.frames[-1]
        frame.hidden.append((None, DataPlace(), basic.data))
        return
    if basic.frames[-1].kind == "main":
        raise BasicError("this is in no PROC or FN", "LOCAL")
    while True:
        basic.blank()
        scan = Scan(basic.text, basic.at)
        array = array_name(scan)
        if array:
            basic.at = scan.at
            hide(basic, basic.arrays, array)
            basic.arrays.pop(array, None)
        else:
            target = basic.place()
            _hide_place(basic, target)
            target.set(basic, _empty(target))
        if not basic.take(","):
            return


def _empty(target: Target) -> Value:
    if isinstance(target, VariablePlace):
        return empty_of(target.name)
    if isinstance(target, ElementPlace):
        return empty_of(target.array.name)
    assert isinstance(target, MemoryPlace)
    return "" if target.sign == "$" else 0


class DataPlace:
    """Where READ goes on, as a place that LOCAL DATA keeps."""

    def set(self, basic: Basic, value: tuple[Line, int] | None) -> None:
        basic.data = value


def do_def(basic: Basic) -> bool:
    """A definition that the program runs into is passed: its line does nothing."""
    return basic.skip_line()
