"""PRINT and INPUT, and the statements for screen and sound, which lay no bytes.

What is printed is kept as notes; for the rest the values are worked out, since they may call FNs,
and one note of each keyword says that nothing is done.
"""

from __future__ import annotations

from typing import Callable

from .expressions import END
from .interpreter import Basic
from .tokens import T
from .values import Value, hexadecimal, integer_of, number_of, text_of

LARGEST_OUTPUT = 50  # lines that become notes
PASSED_OVER = (
    "MODE",
    "COLOUR",
    "GCOL",
    "MOVE",
    "DRAW",
    "PLOT",
    "CIRCLE",
    "ELLIPSE",
    "RECTANGLE",
    "FILL",
    "ORIGIN",
    "POINT",
    "POINT(",
    "TINT",
    "CLS",
    "CLG",
    "WIDTH",
    "OFF",
    "WAIT",
    "SOUND",
    "ENVELOPE",
    "BEATS",
    "TEMPO",
    "VOICES",
    "VOICE",
    "STEREO",
)
_NOTHING_DONE = "nothing is done: there is no screen and no sound"
_BETWEEN = frozenset((",", ";", "|", *(T[name] for name in ("TO", "FILL", "ON", "OFF", "TINT", "STEP"))))


def passed(name: str) -> Callable[[Basic], bool | None]:
    """A statement for screen or sound: its values are worked out."""

    def work(basic: Basic) -> None:
        basic.pass_over(_NOTHING_DONE, name)
        basic.take("BY")
        if name == "POINT(":
            _values(basic, ")")
            basic.need(")")
            return
        _values(basic)

    return work


def _values(basic: Basic, closing: str = END) -> None:
    """Works out values between commas, TO, FILL, ON, OFF and TINT up to the statement's end."""
    while not basic.at_end() and basic.text[basic.at] != closing:
        if basic.text[basic.at] in _BETWEEN:
            basic.at += 1
            basic.take("BY")
        else:
            basic.evaluate()


def do_vdu(basic: Basic) -> None:
    basic.pass_over(_NOTHING_DONE, "VDU")
    _values(basic)


def do_line(basic: Basic) -> None:
    """LINE x,y,x,y; LINE INPUT asks somebody."""
    if basic.take(T["INPUT"]):
        basic.machine_wanted("somebody at a machine would answer this", "LINE INPUT")
    basic.pass_over(_NOTHING_DONE, "LINE")
    _values(basic)


def do_mouse(basic: Basic) -> None:
    """MOUSE x,y,b asks a machine; MOUSE ON, OFF, COLOUR, STEP, RECTANGLE and TO don't."""
    words = (T["ON"], T["OFF"], T["COLOUR"], T["STEP"], T["RECTANGLE"], T["TO"])
    if basic.blank() not in words:
        basic.machine_wanted("a machine's mouse would answer this", "MOUSE")
    basic.at += 1
    basic.pass_over(_NOTHING_DONE, "MOUSE")
    _values(basic)


def do_trace(basic: Basic) -> bool:
    basic.pass_over("nothing is done: lines aren't traced", "TRACE")
    return basic.skip_line()


def do_nothing(basic: Basic) -> None:
    """REPORT prints the last error, and there is none."""
    basic.pass_over("nothing is printed: an error ends the program here", "REPORT")


def do_input(basic: Basic) -> None:
    if basic.take("#"):
        basic.filing.input_values()
        return
    basic.machine_wanted("somebody at a machine would answer this", "INPUT")


def do_print(basic: Basic) -> bool | None:
    if basic.take("#"):
        return _print_to_file(basic)
    shown: list[str] = []
    hexa = False
    while not basic.at_end():
        character = basic.text[basic.at]
        if character in ",;'":
            shown.append(" " if character == "," else "\n" if character == "'" else "")
            basic.at += 1
            hexa = False if character != "'" else hexa
        elif character == "~":
            hexa = True
            basic.at += 1
        elif character in (T["TAB("], T["SPC"]):
            _spaces(basic, shown)
        else:
            shown.append(_shown(basic.evaluate(), hexa))
    keep(basic, "".join(shown))
    return None


def _shown(value: Value, hexa: bool) -> str:
    if isinstance(value, str):
        return value
    return hexadecimal(value) if hexa else text_of(number_of(value), 9)


def _spaces(basic: Basic, shown: list[str]) -> None:
    tab = basic.text[basic.at] == T["TAB("]
    basic.at += 1
    if not tab:
        from .expressions import Scan, factor

        scan = Scan(basic.text, basic.at)
        value = factor(scan)
        basic.at = scan.at
        integer_of(value(basic))
    else:
        basic.integer()
        if basic.take(","):
            basic.integer()
        basic.need(")")
    shown.append(" ")


def keep(basic: Basic, text: str) -> None:
    """Keeps what is printed as a note of its line."""
    if len(basic.printed) > LARGEST_OUTPUT:
        return
    basic.printed.append(text)
    readable = "".join(sign if " " <= sign <= "~" else " " for sign in text).strip()
    if readable and len(basic.printed) <= LARGEST_OUTPUT:
        basic.note(f"prints: {readable}", "PRINT")
    elif len(basic.printed) == LARGEST_OUTPUT + 1:
        basic.note("what is printed from here on isn't shown", "PRINT")


def _print_to_file(basic: Basic) -> None:
    handle = basic.integer()
    while basic.take(","):
        basic.filing.print_value(handle, basic.evaluate())
