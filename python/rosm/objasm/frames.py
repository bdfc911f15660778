"""What is read: files and macro calls as a stack of frames, and the substitution of `$name`."""

from __future__ import annotations

import re
from dataclasses import dataclass, field

from ..messages import Call, Position, SourceError
from .symbols import Variable

_DOLLAR = re.compile(r"\$(?:\$|([A-Za-z_][A-Za-z0-9_]*)\.?)")
_NAME = re.compile(r"[A-Za-z_][A-Za-z0-9_]*")
_FILE_LINE = re.compile(r"[ \t]+(GET|INCLUDE|LNK|INCBIN|BIN)[ \t]", re.IGNORECASE)
LONGEST_LINE = 65536


@dataclass(eq=False)
class Macro:
    """A macro: its name, the parameter of the label, the other parameters and their defaults."""

    name: str
    label: str
    condition: str  # the parameter behind the name, as in `Return$cond`
    parameters: list[str]
    defaults: dict[str, str]
    lines: list[tuple[int, str]]
    position: Position


@dataclass(eq=False)
class Condition:
    """An open `[`: whether its lines are taken, and whether a part was taken before."""

    taking: bool
    done: bool
    position: Position
    otherwise: bool = False  # `|` was met


@dataclass(eq=False)
class Frame:
    """A file or a macro call that is being read."""

    file: str
    lines: list[tuple[int, str]]
    calls: tuple[Call, ...]
    macro: Macro | None = None
    parameters: dict[str, str] = field(default_factory=dict)
    variables: dict[str, Variable] = field(default_factory=dict)
    level: tuple[int, ...] = ()
    label_level: tuple[int, ...] = ()  # where a numbered label belongs that `$label` brings
    index: int = 0
    conditions: list[Condition] = field(default_factory=list)
    loops: list[tuple[int, int, Position]] = field(default_factory=list)  # line, conditions, place
    first_sequence: int = 0

    def position(self) -> Position:
        """The line that was read last."""
        number, text = self.lines[self.index - 1] if self.index else (0, "")
        return Position(self.file, number, text, self.calls)


def shown_variable(variable: Variable) -> str:
    """A variable's value in place of its name: eight digits, T or F, or the text."""
    if variable.kind == "A":
        return f"{variable.value:08X}"
    if variable.kind == "L":
        return "T" if variable.value else "F"
    return str(variable.value)


class Substitution:
    """Puts values in place of `$name` in a line."""

    def __init__(self, frame: Frame | None, variables: dict[str, Variable], bars: bool) -> None:
        self.frame = frame
        self.variables = variables
        self.bars = bars  # whether names between bars are replaced, too
        self.warnings: list[tuple[str, str]] = []

    def lookup(self, name: str) -> str | None:
        """What a name stands for: a parameter, a local variable, a global one."""
        if self.frame is not None:
            if name in self.frame.parameters:
                return self.frame.parameters[name]
            if name in self.frame.variables:
                return shown_variable(self.frame.variables[name])
        if name in self.variables:
            return shown_variable(self.variables[name])
        return None

    def line(self, text: str) -> str:
        """The line with values in place of names, up to its comment."""
        parts: list[str] = []
        place, in_string, size = 0, False, 0
        while place < len(text):
            sign = text[place]
            if sign == ";" and not in_string:
                break
            if sign == '"':
                in_string = not in_string
            elif sign == "'" and not in_string and text[place + 2:place + 3] == "'":
                parts.append(text[place:place + 3])
                place += 3
                continue
            elif sign == "|" and not in_string:
                place = self.between_bars(text, place, parts)
                continue
            elif sign == "$":
                place = self.dollar(text, place, parts)
                size += len(parts[-1])
                if size > LONGEST_LINE:
                    raise SourceError(f"the line grows over {LONGEST_LINE} characters")
                continue
            parts.append(sign)
            place += 1
        return "".join(parts)

    def between_bars(self, text: str, place: int, parts: list[str]) -> int:
        """A name between bars stands as it is; a bar alone is one sign."""
        end = text.find("|", place + 1)
        if end < 0 or end == place + 1:
            parts.append("|")
            return place + 1
        name = text[place:end + 1]
        parts.append(_DOLLAR.sub(lambda found: self.within_bars(found, name), name))
        return end + 1

    def within_bars(self, found: re.Match[str], name: str) -> str:
        """What stands for `$name` between bars: itself, unless the command line asks otherwise."""
        value = self.lookup(found[1]) if found[1] else None
        if value is None:
            return found[0]
        if self.bars:
            return value
        self.warnings.append((name, f"${found[1]} isn't replaced between bars; with --bars it is"))
        return found[0]

    def dollar(self, text: str, place: int, parts: list[str]) -> int:
        """`$name`, `$name.` or `$$`; a `$` before anything else stands."""
        if text[place + 1:place + 2] == "$":
            parts.append("$")
            return place + 2
        found = _NAME.match(text, place + 1)
        if not found:
            parts.append("$")
            return place + 1
        value = self.lookup(found.group())
        if value is None and _FILE_LINE.match(text):
            value = "$" + found.group()  # as in GET <App$Dir>.h.Foo
        if value is None:
            raise SourceError("no parameter and no variable has this name; $$ is one $",
                              "$" + found.group())
        parts.append(value)
        return found.end() + (text[found.end():found.end() + 1] == ".")


def split_arguments(text: str) -> list[str]:
    """A call's arguments: commas outside strings part them."""
    arguments, start, in_string = [], 0, False
    for place, sign in enumerate(text):
        if sign == '"':
            in_string = not in_string
        elif sign == "," and not in_string:
            arguments.append(text[start:place].strip())
            start = place + 1
    arguments.append(text[start:].strip())
    return [] if arguments == [""] else arguments


def unquoted(argument: str) -> str:
    """An argument without the quotes round it; `""` within stays as it is."""
    if len(argument) >= 2 and argument[0] == argument[-1] == '"':
        return argument[1:-1]
    return argument


_PROTOTYPE = re.compile(r"""(?P<label>\$[A-Za-z_]\w*|)[ \t]+
    (?P<name>[A-Za-z_][\w.]*|\|[^|]+\|)(?P<condition>\$[A-Za-z_]\w*|)
    (?:[ \t]+(?P<rest>.*))?\Z""", re.VERBOSE | re.DOTALL)
_PARAMETER = re.compile(r"\$([A-Za-z_]\w*)\s*(?:=(.*))?\Z", re.DOTALL)


def read_prototype(text: str, position: Position) -> Macro:
    """The macro of a line `$label Name$cond $a,$b=default`, still without lines."""
    found = _PROTOTYPE.match(text.rstrip())
    if not found:
        raise SourceError("the line behind MACRO is no `$label Name $a,$b`", text.strip())
    parameters, defaults = [], {}
    for argument in split_arguments(found["rest"] or ""):
        parameter = _PARAMETER.match(argument)
        if not parameter:
            raise SourceError("a parameter is wanted, as $a or $a=default", argument)
        parameters.append(parameter[1])
        if parameter[2] is not None:
            defaults[parameter[1]] = unquoted(parameter[2].strip())
    label, condition = found["label"][1:], found["condition"][1:]
    names = parameters + [name for name in (label, condition) if name]
    if len(set(names)) != len(names):
        raise SourceError("two parameters have one name", text.strip())
    return Macro(found["name"].strip("|"), label, condition, parameters, defaults, [], position)


def bind_parameters(macro: Macro, label: str, condition: str, operands: str) -> dict[str, str]:
    """What the parameters stand for in one call."""
    arguments = split_arguments(operands)
    if len(arguments) > len(macro.parameters):
        raise SourceError(f"the macro has {len(macro.parameters)} parameters, and "
                          f"{len(arguments)} are given", macro.name)
    bound = {name: "" for name in macro.parameters}
    for name, argument in zip(macro.parameters, arguments):
        bound[name] = macro.defaults.get(name, "") if argument == "|" else unquoted(argument)
    if macro.label:
        bound[macro.label] = label
    if macro.condition:
        bound[macro.condition] = condition
    return bound
