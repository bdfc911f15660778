"""Changed listings: none crashes or runs for ever, and each makes bytes or has an error with a line."""

from __future__ import annotations

import random
import time
from pathlib import Path

import pytest

from basic_runs import images
from rosm.basic import Options
from rosm.basic.saved import program_bytes
from rosm.basic.tokens import KEYWORDS, tokenise

LISTINGS = sorted((Path(__file__).parent / "listings").glob("*.bas"))
_PIECES = [
    *KEYWORDS,
    "[",
    "]",
    ":",
    "(",
    ")",
    '"',
    "#",
    "!",
    "?",
    "$",
    "|",
    "P%",
    "O%",
    "=",
    "+",
    "-",
    "<<",
    ">>>",
    "&",
    "%",
    "1E30",
    "-1",
    "65536",
    "2147483647",
    "FNx",
    "PROCbody",
    ".",
    ";",
    "\\",
    "{",
    "}",
    "^",
    "EQUD ",
    "MOV ",
    "LDR ",
]


def changed(text: str, dice: random.Random) -> str:
    """A text with a few changes: signs, pieces and lines taken out, doubled, put in or exchanged."""
    for _ in range(dice.choice((1, 1, 2, 4, 12))):
        at = dice.randrange(len(text) + 1)
        choice = dice.randrange(6)
        if choice == 0:
            text = text[:at] + text[at + dice.randrange(1, 6) :]
        elif choice == 1:
            text = text[:at] + dice.choice(_PIECES) + text[at:]
        elif choice == 2:
            text = text[:at] + chr(dice.randrange(32, 256)) + text[at + 1 :]
        else:
            lines = text.split("\n")
            one, other = dice.randrange(len(lines)), dice.randrange(len(lines))
            if choice == 3:
                del lines[one]
            elif choice == 4:
                lines.insert(one, lines[other])
            else:
                lines[one], lines[other] = lines[other], lines[one]
            text = "\n".join(lines)
    return text


def check(data: str | bytes) -> bool:
    """Runs a listing; whether it makes bytes."""
    started = time.process_time()  # other programs may take the processor
    programs, messages = images(data, Options(steps=20000))
    assert time.process_time() - started < 10
    assert bool(programs) != bool(messages.errors())
    for message in messages.items:
        assert message.position.file == "test" and message.position.line >= 1 and message.reason
    return bool(programs)


def run_many(count: int, seed: int) -> None:
    dice = random.Random(seed)
    texts = [path.read_text(encoding="latin-1") for path in LISTINGS]
    made = sum(check(changed(dice.choice(texts), dice)) for _ in range(count))
    assert 0 < made < count  # some changes do no harm, and some do


def test_changed_listings() -> None:
    run_many(250, 1)


@pytest.mark.slow
def test_many_changed_listings() -> None:
    run_many(4000, 2)


def test_changed_programs_in_tokens() -> None:
    dice = random.Random(3)
    saved = program_bytes(
        [
            (10 * place, tokenise(line))
            for place, line in enumerate(
                (Path(__file__).parent / "listings" / "tables.bas")
                .read_text(encoding="latin-1")
                .splitlines(),
                1,
            )
        ]
    )
    for _ in range(150):
        data = bytearray(saved)
        for _ in range(dice.choice((1, 2, 5))):
            data[dice.randrange(len(data))] = dice.randrange(256)
        check(bytes(data))


def test_random_bytes() -> None:
    dice = random.Random(5)
    for _ in range(200):
        check(bytes(dice.randrange(256) for _ in range(dice.randrange(200))))


HARD = [
    "(" * 3000 + "1",
    "a=" + "(" * 30000,
    "a=" + "1+" * 20000 + "1",
    "a=" + "-" * 30000 + "1",
    "REPEAT:" * 5000,
    "a$=" + '"x"+' * 3000 + '"x"',
    "DIM a(100000,100000)",
    "DIM a% 999999999",
    'a$=STRING$(255,"x")+"y"',
    "PRINT FNa\nDEF FNa=FNa",
    "10 GOSUB 10",
    "REPEAT:UNTIL FALSE",
    "FOR i=1 TO 2 STEP 1E-30:NEXT",
    "a=9^9^9^9",
    'a=EVAL"EVAL"+a$',
    'a$="EVALa$":b=EVALa$',
    'f%=OPENOUT"x":PTR#f%=99999999',
    "a=1<<2147483647",
    "WHILE 1:ENDWHILE",
    'DIM c% 9:FOR i=1 TO 9E9:P%=c%:[OPT 0:EQUS STRING$(255,"x"):]:NEXT',
    "a=" + "FNa(" * 300,
    "a=a(" * 3000,
    "IF " * 5000,
    "PROCx(" + "a(1," * 2000,
    "DATA\nREPEAT:READ a$:UNTIL 0",
    'a=VAL("1E999")',
    "a=1E999",
    "a=INT(1E38)*10",
]


@pytest.mark.parametrize("text", HARD, ids=range(len(HARD)))
def test_hard_listings(text: str) -> None:
    assert not check(text)
