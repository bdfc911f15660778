"""Expressions and programs beside Brandy, where it is installed.

Brandy is a BASIC VI with integers of 64 bits and longer reals, so reals are compared to nine
figures, and an expression that is too big for 32 bits here isn't compared.
"""

from __future__ import annotations

import random
import re
from pathlib import Path

import pytest

from basic_brandy import AVAILABLE, output_of, saved_output_of
from basic_runs import value_of, variables
from basic_expressions import number, text
from basic_programs import ROUTINES, program
from rosm.basic.values import BasicError
from test_basic_statements import PROGRAMS

pytestmark = pytest.mark.skipif(not AVAILABLE, reason="brandy isn't installed")
_PER_PROGRAM = 500


def brandy_values(expressions: list[str], folder: Path) -> list[str]:
    """What Brandy makes of each, as STR$ writes it, or `error`."""
    lines = ['2 ON ERROR BPUT#X%,"error":GOTO (ERL+1)']
    for place, expression in enumerate(expressions):
        lines.append(f"{100 + 2 * place} V=0:V$={expression}:BPUT#X%,V$")
        lines.append(f"{101 + 2 * place} REM")
    return output_of(lines, folder)


def same(ours: str, theirs: str) -> bool:
    if ours == theirs:
        return True
    try:
        one, other = float(ours), float(theirs)
    except ValueError:
        return False
    return abs(one - other) <= 2e-9 * max(abs(one), abs(other))


def compare(count: int, seed: int, folder: Path) -> list[str]:
    dice = random.Random(seed)
    differing = []
    for start in range(0, count, _PER_PROGRAM):
        pairs = []
        for _ in range(min(_PER_PROGRAM, count - start)):
            shown = number(dice, 4) if dice.random() < 0.7 else text(dice, 4)
            wrapped = shown if _is_text(shown) else f"STR$({shown})"
            pairs.append((wrapped, _ours(wrapped)))
        theirs = brandy_values([wrapped for wrapped, _ in pairs], folder)
        assert len(theirs) == len(pairs)
        for (wrapped, ours), other in zip(pairs, theirs):
            if ours not in ("too big", None) and not same(ours, other):
                differing.append(f"{wrapped}: {ours} here, {other} there")
    return differing


def _is_text(expression: str) -> bool:
    try:
        return isinstance(value_of(expression), str)
    except BasicError:
        return False


def _ours(expression: str) -> str:
    try:
        return value_of(expression)
    except BasicError as error:
        return "too big" if "too big" in error.reason or "too long" in error.reason else "error"


def test_expressions(tmp_path: Path) -> None:
    assert compare(1000, 1, tmp_path) == []


@pytest.mark.slow
def test_many_expressions(tmp_path: Path) -> None:
    assert compare(8000, 2, tmp_path) == []


# Brandy has none of these as BASIC V has them: the byte that says that STR$ takes @%, CLEAR that keeps
# files, the heap's size, SUM in tokens, and UNTIL within a FOR that goes on.
_OTHERWISE = ("@%", "CLEAR", "HIMEM", "SUM", "REPEAT FOR")


def _numbered(program: str) -> list[tuple[int, str]]:
    """A program's lines with numbers, where END goes to the line that writes the variables."""
    lines, number = [], 0
    for line in program.split("\n"):
        found = re.match(r"(\d+) ", line)
        number = int(found.group(1)) if found else number + 10
        text = line[found.end() :] if found else line
        lines.append((number, re.sub(r"\b(END|STOP|QUIT)\b(?!=)", "GOTO 60000", text)))
    if not any("DEF" in text for _, text in lines):
        lines.append((number + 5, "GOTO 60000"))
    return lines


def _runs_in_brandy(program: str, wanted: dict[str, object]) -> bool:
    return bool(wanted) and not any(word in program for word in _OTHERWISE)


@pytest.mark.slow
@pytest.mark.parametrize("program, wanted", [pair for pair in PROGRAMS if _runs_in_brandy(*pair)])
def test_programs_in_tokens(program: str, wanted: dict[str, object], tmp_path: Path) -> None:
    """The examples of statements, as programs in tokens, have the same variables in Brandy."""
    shown = [name if name.endswith("$") else f"STR$({name})" for name in wanted]
    lines = _numbered(program)
    lines += [(60000 + place, f"BPUT#X%,{text}") for place, text in enumerate(shown)]
    found = saved_output_of(lines, tmp_path)
    assert len(found) == len(wanted), found
    for theirs, ours in zip(found, wanted.values()):
        assert same(str(ours), theirs)


def differing_programs(count: int, seed: int, folder: Path) -> list[str]:
    """Random programs after which t% and b% are others than in Brandy; each is one routine there."""
    dice = random.Random(seed)
    bodies = [program(dice) for _ in range(count)]
    ours = []
    for body in bodies:
        found = variables("\n".join([*body, "END", *ROUTINES]))
        ours.append(f"{found['t%']} {found['b%']}")
    lines = []
    for place, body in enumerate(bodies):
        lines += [f"PROCrun{place}", 'BPUT#X%,STR$(t%)+" "+STR$(b%)']
    lines += ["CLOSE#X%:QUIT"]
    for place, body in enumerate(bodies):
        lines += [f"DEF PROCrun{place}", *body, "ENDPROC"]
    lines += ROUTINES
    numbered = ["2 ON ERROR BPUT#X%,REPORT$+STR$ERL:CLOSE#X%:QUIT"]
    numbered += [f"{number} {line}" for number, line in enumerate(lines, 3)]
    theirs = output_of(numbered, folder)
    assert len(theirs) == count, theirs[-1:]
    return [
        "\n".join([f"{one} here, {other} there", *body])
        for one, other, body in zip(ours, theirs, bodies)
        if one != other
    ]


def test_random_programs(tmp_path: Path) -> None:
    assert differing_programs(60, 1, tmp_path) == []


@pytest.mark.slow
@pytest.mark.parametrize("seed", range(2, 12))
def test_many_random_programs(seed: int, tmp_path: Path) -> None:
    assert differing_programs(200, seed, tmp_path) == []
