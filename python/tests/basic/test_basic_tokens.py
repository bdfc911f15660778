"""Keywords: how BASIC reads text, and programs in tokens both ways."""

from __future__ import annotations

import random
import re
from pathlib import Path

import pytest

from basic_runs import errors, image, images
from rosm.basic.saved import DamagedProgram, line_bytes, lines_of, program_bytes
from rosm.basic.tokens import KEYWORDS, NAMES, plain, tokenise

LISTINGS = Path(__file__).parent / "listings"

# Text, and its pieces: keywords between angle brackets.
READ = [
    ("PRINT A", "<PRINT> A"),
    ("FORP=0TO2STEP2", "<FOR>P=0<TO>2<STEP>2"),
    ("TOtal", "<TO>tal"),
    ("total", "total"),
    ("MOVEQ R0,R1", "<MOVE>Q R0,R1"),
    ("ORR R0", "<OR>R R0"),
    ("ENDcode%", "ENDcode%"),
    ("END", "<END>"),
    ("aTHEN", "aTHEN"),
    ("IFaTHENb", "<IF>aTHENb"),
    ("IF a THENb", "<IF> a <THEN>b"),
    ("EQUSSTRING$(3", "EQUSSTRING$(3"),
    ("EQUS STRING$(3", "EQUS <STRING$(>3"),
    ("&1AND3", "&1AND3"),
    ("&F AND 3", "&F <AND> 3"),
    ("PROCprint(1)", "<PROC>print(1)"),
    ("FNTO+1", "<FN>TO+1"),
    ("DEFFNEND", "<DEF><FN>END"),
    ("REM PRINT", "<REM> PRINT"),
    ("DATA PRINT,1", "<DATA> PRINT,1"),
    ("*PRINT", "*PRINT"),
    ("a=1:*PRINT", "a=1:*PRINT"),
    ("a=b*PI", "a=b*<PI>"),
    ("IF a THEN *RUN", "<IF> a <THEN> *RUN"),
    ('PRINT "PRINT"', '<PRINT> "PRINT"'),
    ("TIMEx", "TIMEx"),
    ("TIME$", "<TIME>$"),
    ("PIE", "PIE"),
    ("PI*2", "<PI>*2"),
    ("SINx", "<SIN>x"),
    ("COSINE", "<COS>INE"),
    ("LEFT$(A$)", "<LEFT$(>A$)"),
    ("LEFT$A", "LEFT$A"),
    ("ERRx", "ERRx"),
    ("ERROR", "<ERROR>"),
    ("TRUEx", "TRUEx"),
    ("P.1", "<PRINT>1"),
    ("E.", "<ENDPROC>"),
    ("WHILEa:ENDWHILE", "<WHILE>a:<ENDWHILE>"),
    ("CASE a OF", "<CASE> a <OF>"),
    ("ENDPROCx", "ENDPROCx"),
    ("_PRINT", "_PRINT"),
    ("ANDEQS R0", "<AND>EQS R0"),
    ("COLOR 1", "<COLOR> 1"),
    ("1E5E", "1E5E"),
    ("5ELSE6", "5<ELSE>6"),
    ("INPUT LINE a$", "<INPUT> <LINE> a$"),
    ("GET$#f", "<GET$>#f"),
    ("PTR#f=1", "<PTR>#f=1"),
    ("BPUT#f", "<BPUT>#f"),
    ("x%PRINT", "x%<PRINT>"),
    ("FN_a", "<FN>_a"),
    ("PROCa:PRINT", "<PROC>a:<PRINT>"),
    ("INSTALL", "<INSTALL>"),
    ("EDIT", "<EDIT>"),
    ("NOTa", "<NOT>a"),
    ("ON ERROR OFF", "<ON> <ERROR> <OFF>"),
]


@pytest.mark.parametrize("text, wanted", READ)
def test_reading(text: str, wanted: str) -> None:
    found = "".join(f"<{NAMES[sign]}>" if sign in NAMES else sign for sign in tokenise(text))
    assert found == wanted.replace("<COLOR>", "<COLOUR>")


# Lines as a machine keeps them; from the table of tokens in the Guide ("Keywords and tokens").
BYTES = [
    ('PRINT "A"', "F1202241 22"),
    ("GOTO 100", "E5208D446440"),
    ("IF A THEN 10 ELSE 20", "E72041208C208D544A40208B208D545440"),
    ("TIME=0", "D13D30"),
    ("A=TIME", "413D91"),
    ("PTR#F=0", "CF23463D30"),
    ("CASE A OF", "C88E204120CA"),
    ("ELSE", "CC"),
    ("ENDIF", "CD"),
    ("WHEN 1", "C92031"),
    ("OTHERWISE", "7F"),
    ("SYS 6", "C8992036"),
    ("SUM A()", "C68E20412829"),
    ("EDIT", "C792"),
    ("REM AND", "F420414E44"),
    ("LEFT$(", "C0"),
    ("ENDWHILE", "CE"),
    ("WHILE 1", "C8952031"),
    ("HIMEM=1", "D33D31"),
    ("SWAP A,B", "C89420412C42"),
    ("GOTO A", "E52041"),
    ("A=10", "413D3130"),
    ("ON A GOSUB 1,2", "EE204120E4208D5441402C8D544240"),
]


@pytest.mark.parametrize("text, wanted", BYTES)
def test_bytes_of_a_line(text: str, wanted: str) -> None:
    data = line_bytes(tokenise(text))
    assert data == bytes.fromhex(wanted)
    whole = bytes((0x0D, 0, 10, len(data) + 4)) + data + b"\x0d\xff"
    assert program_bytes([(10, tokenise(text))]) == whole
    assert [(number, plain(line)) for number, line in lines_of(whole)] == [(10, text)]


@pytest.mark.parametrize("name", ["module", "tables", "choices"])
def test_a_listing_in_tokens(name: str) -> None:
    """A listing in tokens makes the bytes of its text."""
    text = (LISTINGS / f"{name}.bas").read_text(encoding="latin-1")
    lines, number = [], 0
    for line in text.splitlines():
        figures, rest = re.match(r" *([0-9]*)(.*)", line).groups()
        number = int(figures) if figures else number + 10
        lines.append((number, tokenise(rest)))
    saved = program_bytes(lines)
    assert lines_of(saved) == lines
    assert image(saved) == image(text)


def test_every_keyword_both_ways() -> None:
    for name, character in KEYWORDS.items():
        if name in ("REM", "DATA", "COLOR"):
            continue
        for text in (f"x={character} 5", character):
            found = lines_of(program_bytes([(10, text)]))
            assert found == [(10, text)], name


def test_line_numbers_both_ways() -> None:
    for number in (0, 1, 63, 64, 127, 128, 255, 256, 1000, 16383, 16384, 32768, 65279):
        text = tokenise(f"GOTO {number}")
        assert lines_of(program_bytes([(10, text)])) == [(10, text)]


def test_random_lines_both_ways() -> None:
    dice = random.Random(4)
    words = [
        *KEYWORDS.values(),
        "a",
        "B%",
        "name$",
        '"text: PRINT"',
        " ",
        ":",
        "1",
        "&FF",
        "(",
        ")",
        "=",
        "+",
        ",",
    ]
    for name in ("REM", "DATA", "COLOR"):
        words.remove(KEYWORDS[name]) if name != "COLOR" else None
    for _ in range(500):
        text = "".join(dice.choice(words) for _ in range(dice.randrange(1, 30)))
        assert lines_of(program_bytes([(10, text)])) == [(10, text)]


DAMAGED = [
    b"\x0d\x00\x0a\x05\xf1",
    b"\x0d\x00",
    b"\x0d\x00\x0a\x02\xf1\x0d\xff",
    b"\x0d\x00\x0a\x05\xf1XX",
    b"\x0d\x00\x0a\x06\xc8\x01\x0d\xff",
    b"\x0d\x00\x0a\xff\xf1\x0d\xff",
]


@pytest.mark.parametrize("data", DAMAGED)
def test_damaged_programs(data: bytes) -> None:
    with pytest.raises(DamagedProgram):
        lines_of(data)
    programs, messages = images(data)
    assert not programs and len(messages.errors()) == 1


def test_messages_show_a_line_as_list_has_it() -> None:
    saved = program_bytes([(10, tokenise("PRINT 1")), (20, tokenise("FOR a=1 TO b:NEXT"))])
    _, messages = images(saved)
    assert messages.errors()[0].text() == (
        "test:2: error: b: no variable has this name so far\n" "    20FOR a=1 TO b:NEXT"
    )


def test_numbers_of_lines() -> None:
    _, messages = images("20 PRINT 1\n10 PRINT 2\n")
    found = [message for message in messages.items if message.severity == "warning"]
    assert [message.position.line for message in found] == [2]
    assert found[0].reason.startswith("its number isn't above the one before")
    assert errors("70000 REM")[0].startswith("1: 70000: line numbers go up to 65279")


def test_long_lines() -> None:
    _, messages = images('a$="' + "x" * 250 + '":b$="' + "y" * 50 + '"')
    assert messages.items[0].reason == "BASIC has lines of 251 bytes at most, and this is longer"
