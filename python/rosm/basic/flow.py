"""Where the program goes on: IF, CASE, the loops, GOTO and GOSUB."""

from __future__ import annotations

from dataclasses import dataclass
from typing import Any

from . import operators as op
from .expressions import END
from .interpreter import JUMPED, Basic
from .lines import Line
from .tokens import T
from .values import BasicError, Value, integer_of, number_of
from .variables import MemoryPlace, Target, VariablePlace, takes_text

ELSE, THEN = T["ELSE"], T["THEN"]
DEEPEST_LOOPS = 10_000


@dataclass
class Loop:
    """A loop or GOSUB that was begun, and where it goes on."""

    kind: str  # FOR, REPEAT, WHILE, GOSUB
    line: Line
    at: int
    target: Target | None = None
    limit: int | float = 0
    step: int | float = 1
    laid: int = 0  # how much had been laid when the loop began


def begin(basic: Basic, kind: str, at: int, **more: Any) -> None:
    if len(basic.frames[-1].loops) > DEEPEST_LOOPS:
        raise BasicError(f"more than {DEEPEST_LOOPS} loops and GOSUBs within one another", kind)
    basic.frames[-1].loops.append(Loop(kind, basic.line, at, laid=basic.assembly.laid_count, **more))


def innermost(basic: Basic, kind: str, word: str) -> Loop:
    """The innermost loop of a kind; those within it are left."""
    loops = basic.frames[-1].loops
    for place in range(len(loops) - 1, -1, -1):
        if loops[place].kind == kind:
            del loops[place + 1 :]
            return loops[place]
    raise BasicError(f"no {kind} was begun here", word)


# IF.


def do_if(basic: Basic) -> bool:
    true = integer_of(basic.evaluate()) != 0
    if basic.take(THEN):
        if basic.blank() == END:
            if not true:
                skip_block(basic, (ELSE, T["ENDIF"]), THEN, T["ENDIF"], "IF")
            return JUMPED
    if not true:
        return to_else(basic)
    return branch(basic)


def branch(basic: Basic) -> bool:
    """What follows THEN or ELSE on its line: a line's number, or statements."""
    if basic.blank().isdigit():
        go_to_number(basic)
    return JUMPED


def to_else(basic: Basic) -> bool:
    """Goes behind the first ELSE of this line, or to the next line."""
    text, at = basic.text, basic.at
    while text[at] != END:
        character = text[at]
        if character == '"':
            closing = text.find('"', at + 1)
            if closing < 0:
                break
            at = closing
        elif character == T["REM"]:
            break
        elif character == ELSE:
            basic.at = at + 1
            return branch(basic)
        at += 1
    return basic.skip_line()


def do_else(basic: Basic) -> bool:
    """ELSE first on its line is passed to ENDIF; elsewhere it ends the line."""
    if basic.text[: basic.at - 1].strip(" ") == "":
        skip_block(basic, (T["ENDIF"],), THEN, T["ENDIF"], "ELSE")
        return JUMPED
    return basic.skip_line()


def skip_block(basic: Basic, ends: tuple[str, ...], opens: str, closes: str, word: str) -> str:
    """Passes lines up to one that begins with one of the keywords, and goes behind that keyword.

    `opens` at a line's end begins a block within, which `closes` ends.
    """
    depth, line = 0, basic.line.next
    while line is not None:
        first = line.first()
        if depth == 0 and first in ends:
            basic.go(line, line.text.index(first) + 1)
            return first
        if first == closes:
            depth -= 1
        if line.last == opens:
            depth += 1
        line = line.next
    missing = {T["ENDIF"]: "ENDIF", T["ENDCASE"]: "ENDCASE"}[closes]
    raise BasicError(f"its {missing} is missing", word)


def do_endif(basic: Basic) -> bool:
    return JUMPED


# CASE.


def do_case(basic: Basic) -> bool:
    value = basic.evaluate()
    basic.need(T["OF"])
    if basic.blank() != END:
        raise BasicError("OF comes last on its line", basic.word())
    while True:
        ends = (T["WHEN"], T["OTHERWISE"], T["ENDCASE"])
        found = skip_block(basic, ends, T["OF"], T["ENDCASE"], "CASE")
        if found != T["WHEN"]:
            return JUMPED
        if when_fits(basic, value):
            return JUMPED


def when_fits(basic: Basic, value: Value) -> bool:
    """Whether one of the values behind WHEN is the one of CASE."""
    while True:
        other = basic.evaluate()
        if op.equal(value, other):
            while basic.take(","):
                basic.at = end_of_value(basic)
            basic.finish()
            return True
        if not basic.take(","):
            return False


def end_of_value(basic: Basic) -> int:
    """Where the expression that stands next ends; it isn't worked out."""
    from .expressions import Scan, expression

    scan = Scan(basic.text, basic.at)
    expression(scan)
    return scan.at


def do_when(basic: Basic) -> bool:
    """The program runs into the next WHEN or OTHERWISE: the case is done."""
    if basic.text[: basic.at - 1].strip(" "):
        raise BasicError("this counts only first on its line", "WHEN or OTHERWISE")
    skip_block(basic, (T["ENDCASE"],), T["OF"], T["ENDCASE"], "WHEN")
    return JUMPED


# FOR.


def do_for(basic: Basic) -> None:
    target = basic.place()
    if isinstance(target, MemoryPlace) or takes_text(target):
        raise BasicError("a variable for numbers is wanted here", target.word())
    basic.need("=")
    first = number_of(basic.evaluate())
    target.set(basic, first)
    basic.need(T["TO"])
    limit = number_of(basic.evaluate())
    step = number_of(basic.evaluate()) if basic.take(T["STEP"]) else 1
    if isinstance(target, VariablePlace) and target.name.endswith("%"):
        limit, step = basic.cut(limit), basic.cut(step)
    if step == 0:
        raise BasicError("a loop with STEP 0 doesn't end", "STEP")
    begin(basic, "FOR", basic.at, target=target, limit=limit, step=step)


def do_next(basic: Basic) -> bool | None:
    while True:
        if basic.at_end():
            loop = innermost(basic, "FOR", "NEXT")
        else:
            named = basic.place().word()
            loop = named_loop(basic, named)
        value = op.add(loop.target.get(basic), loop.step)
        loop.target.set(basic, value)
        if value <= loop.limit if loop.step > 0 else value >= loop.limit:
            basic.go(loop.line, loop.at)
            basic.finish()
            return JUMPED
        basic.frames[-1].loops.pop()
        if not basic.take(","):
            return None


def named_loop(basic: Basic, named: str) -> Loop:
    """The FOR of a variable; loops within it are left."""
    loops = basic.frames[-1].loops
    for place in range(len(loops) - 1, -1, -1):
        loop = loops[place]
        if loop.kind == "FOR" and loop.target.word() == named:
            del loops[place + 1 :]
            return loop
    raise BasicError("no FOR of this variable was begun here", named)


# REPEAT and WHILE.


def do_repeat(basic: Basic) -> bool:
    begin(basic, "REPEAT", basic.at)
    return JUMPED


def do_until(basic: Basic) -> bool | None:
    loop = innermost(basic, "REPEAT", "UNTIL")
    if integer_of(basic.evaluate()):
        basic.frames[-1].loops.pop()
        return None
    basic.finish()
    basic.go(loop.line, loop.at)
    return JUMPED


def do_while(basic: Basic) -> bool | None:
    start = basic.at
    if integer_of(basic.evaluate()):
        begin(basic, "WHILE", start)
        return None
    return skip_loop(basic)


def do_endwhile(basic: Basic) -> bool | None:
    loop = innermost(basic, "WHILE", "ENDWHILE")
    back = basic.line, basic.at
    basic.go(loop.line, loop.at)
    if integer_of(basic.evaluate()):
        return None
    basic.frames[-1].loops.pop()
    basic.go(*back)
    return None


def skip_loop(basic: Basic) -> bool:
    """Goes behind the ENDWHILE of a WHILE that isn't gone round."""
    line: Line | None = basic.line
    at, depth = basic.at, 0
    while line is not None:
        text = line.text
        while text[at] != END:
            character = text[at]
            if character == '"':
                closing = text.find('"', at + 1)
                at = closing if closing > 0 else len(text) - 2
            elif character in (T["REM"], T["DATA"]):
                break
            elif character == T["WHILE"]:
                depth += 1
            elif character == T["ENDWHILE"]:
                if depth == 0:
                    basic.go(line, at + 1)
                    return JUMPED
                depth -= 1
            at += 1
        line, at = line.next, 0
    raise BasicError("its ENDWHILE is missing", "WHILE")


# GOTO, GOSUB, ON.


def line_of(basic: Basic, number: int) -> Line:
    found = basic.listing.by_number.get(number)
    if found is None:
        raise BasicError("no line has this number", str(number))
    return found


def go_to_number(basic: Basic) -> None:
    basic.go(line_of(basic, basic.integer()), 0)


def do_goto(basic: Basic) -> bool:
    go_to_number(basic)
    return JUMPED


def do_gosub(basic: Basic) -> bool:
    number = basic.integer()
    basic.finish()
    begin(basic, "GOSUB", basic.at)
    basic.go(line_of(basic, number), 0)
    return JUMPED


def do_return(basic: Basic) -> bool:
    loop = innermost(basic, "GOSUB", "RETURN")
    basic.frames[-1].loops.pop()
    basic.go(loop.line, loop.at)
    return JUMPED


def do_on(basic: Basic) -> bool | None:
    """ON ERROR, ON (the cursor), ON n GOTO, GOSUB or PROC."""
    if basic.take(T["ERROR"]):
        basic.pass_over("no error is trapped here: an error ends the program", "ON ERROR")
        return basic.skip_line()
    if basic.at_end():
        return None
    number = basic.integer()
    character = basic.blank()
    if character == T["PROC"]:
        return choose_routine(basic, number)
    if character not in (T["GOTO"], T["GOSUB"]):
        raise BasicError("GOTO, GOSUB or PROC is wanted here", basic.word())
    basic.at += 1
    targets = [basic.integer()]
    while basic.take(","):
        targets.append(basic.integer())
    if not 1 <= number <= len(targets):
        return on_else(basic, number)
    if character == T["GOSUB"]:
        basic.skip_line()
        begin(basic, "GOSUB", basic.at)
    basic.go(line_of(basic, targets[number - 1]), 0)
    return JUMPED


def on_else(basic: Basic, number: int) -> bool:
    if basic.take(ELSE):
        return branch(basic)
    raise BasicError(f"ON has no place for {number}, and no ELSE", "ON")


def choose_routine(basic: Basic, number: int) -> bool | None:
    from .calls import call
    from .expressions import Scan, routine_call

    found = []
    while basic.take(T["PROC"]):
        scan = Scan(basic.text, basic.at)
        found.append(routine_call(scan))
        basic.at = scan.at
        if not basic.take(","):
            break
    if not 1 <= number <= len(found):
        return on_else(basic, number)
    call(basic, T["PROC"], *found[number - 1])
    return None
