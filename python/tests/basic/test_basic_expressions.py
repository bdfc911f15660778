"""Operators and functions: each by an example of its entry in the BBC BASIC Guide, worked by hand."""

from __future__ import annotations

import pytest

from basic_runs import value_of
from rosm.basic.values import BasicError

VALUES = [
    # Levels: unary signs, ^, * / DIV MOD, + -, one comparison or shift, AND, OR and EOR.
    ("-2^2", 4),
    ("2+3*4", 14),
    ("(2+3)*4", 20),
    ("1+2<<3", 24),
    ("2*3^2", 18),
    ("1<<2+1", 8),
    ("1 OR 2 AND 3", 3),
    ("1 OR 2 EOR 2", 1),
    ("6 AND 3=3", 6),
    ("NOT 1 AND &FF", 254),
    ("2-3-4", -5),
    ("2^3^2", 64),
    ("100/10/2", 5),
    ("-1>>>28 AND 6", 6),
    ("&80>>1+2", 16),
    ("%101 OR 2 AND 3", 7),
    ('ASC"A"-64', 1),
    ('ASC"A"+1', 66),
    # Operators.
    ("7 DIV 2", 3),
    ("-7 DIV 2", -3),
    ("7 DIV -2", -3),
    ("7.9 DIV 2", 3),
    ("7 MOD 3", 1),
    ("-7 MOD 3", -1),
    ("7 MOD -3", 1),
    ("7/2", 3.5),
    ("1<<31", -0x80000000),
    ("1<<32", 0),
    ("-16>>2", -4),
    ("-16>>>2", 0x3FFFFFFC),
    ("-1>>32", -1),
    ("-1>>>32", 0),
    ("&FF AND &F0", 240),
    ("5 EOR 1", 4),
    ("5 OR 2", 7),
    ("NOT 0", -1),
    ("NOT -1", 0),
    ("1=1", -1),
    ("1<>1", 0),
    ("1<2", -1),
    ("2<=1", 0),
    ("2>=2", -1),
    ("3>4", 0),
    ('"a"<"b"', -1),
    ('"abc"="abc"', -1),
    ('"a">"B"', -1),
    ('"ab"+"cd"', "abcd"),
    ("+5", 5),
    ("--5", 5),
    ("2147483647+1", 2147483648.0),
    ("&7FFFFFFF*2", 4294967294.0),
    ("&80000000-1", -2147483649.0),
    # Numbers.
    ("&FF", 255),
    ("&FFFFFFFF", -1),
    ("%1010", 10),
    ("1E3", 1000),
    ("1.5E1", 15),
    (".5", 0.5),
    ("5.", 5),
    ('"say ""no"""', 'say "no"'),
    ('""', ""),
    ("TRUE", -1),
    ("FALSE", 0),
    # Functions, in the order of the Guide.
    ("ABS -5", 5),
    ("ABS 5", 5),
    ("ACS 1", 0),
    ('ASC"Hello"', 72),
    ('ASC""', -1),
    ("ASN 0", 0),
    ("ATN 0", 0),
    ("CHR$65", "A"),
    ("CHR$(65+1)", "B"),
    ("COS 0", 1),
    ("DEG PI", 180),
    ('EVAL"2*8+1"', 17),
    ('EVAL("LEFT$("+CHR$34+"xyz"+CHR$34+",2)")', "xy"),
    ("EXP 0", 1),
    ('INSTR("HELLO","LO")', 4),
    ('INSTR("HELLO","L",4)', 4),
    ('INSTR("HELLO","Z")', 0),
    ('INSTR("HELLO","")', 1),
    ("INT 3.7", 3),
    ("INT -3.2", -4),
    ("INT(-3)", -3),
    ('LEFT$("BASIC",2)', "BA"),
    ('LEFT$("BASIC")', "BASI"),
    ('LEFT$("BASIC",-1)', "BASIC"),
    ('LEFT$("BASIC",9)', "BASIC"),
    ('LEN"HELLO"', 5),
    ('LEN("AB"+"C")', 3),
    ("LN 1", 0),
    ("LOG 100", 2),
    ('MID$("HELLO",2,3)', "ELL"),
    ('MID$("HELLO",4)', "LO"),
    ('MID$("HELLO",9)', ""),
    ('MID$("HELLO",0,2)', "HE"),
    ("RAD 180=PI", -1),
    ('RIGHT$("HELLO",2)', "LO"),
    ('RIGHT$("HELLO")', "O"),
    ('RIGHT$("HELLO",0)', ""),
    ("SGN -3", -1),
    ("SGN 0", 0),
    ("SGN 9", 1),
    ("SIN 0", 0),
    ("SQR 16", 4),
    ("STR$ 12", "12"),
    ("STR$~255", "FF"),
    ("STR$~-1", "FFFFFFFF"),
    ("STR$(1.5)", "1.5"),
    ("STR$(1/4)", "0.25"),
    ("STR$ 1E20", "1E20"),
    ('STRING$(3,"ab")', "ababab"),
    ('STRING$(0,"x")', ""),
    ("TAN 0", 0),
    ('VAL"12abc"', 12),
    ('VAL"-1.5"', -1.5),
    ('VAL"x"', 0),
    ('VAL"  7"', 7),
    ("ERR", 0),
    ("ERL", 0),
    ("REPORT$", ""),
    ("SIN RAD 30*2", 1),
]


@pytest.mark.parametrize("expression, wanted", VALUES)
def test_value(expression: str, wanted: object) -> None:
    found = value_of(expression)
    if isinstance(wanted, str):
        assert found == wanted
    else:
        assert found == pytest.approx(wanted, rel=1e-9, abs=1e-12)


KINDS = [("7 DIV 2", int), ("INT 3.7", int), ("7/7", float), ("2^2", float), ("1+1", int), ("1=1", int)]


@pytest.mark.parametrize("expression, kind", KINDS)
def test_kind(expression: str, kind: type) -> None:
    assert isinstance(value_of(expression), kind)


def test_reals_have_32_bits() -> None:
    # 1/3 is 0.0101..; with 32 bits behind the first one the last is rounded up.
    assert value_of("1/3") == 0xAAAAAAAB / 2**33
    # 2^33 + 1 has 34 bits, so the 1 is lost; 2^31 + 1 has 32.
    assert value_of("2^33+1") == 2**33
    assert value_of("2^31+1") == 2**31 + 1


ARRAYS = 'DIM a%(2),b%(2),m(1,1),v(1),s$(1)\na%()=1,2,3:b%()=10\nm()=1,2,3,4:v()=5,6:s$()="xy","z"\n'
ARRAY_VALUES = [
    ("DIM(a%())", 1),
    ("DIM(m())", 2),
    ("DIM(m(),2)", 1),
    ("DIM(a%(),1)", 2),
    ("SUM a%()", 6),
    ("SUM(a%())", 6),
    ("SUM s$()", "xyz"),
    ("SUMLEN s$()", 3),
    ("MOD(v())^2", 61),
    ("a%(1)+b%(2)", 12),
]


@pytest.mark.parametrize("expression, wanted", ARRAY_VALUES)
def test_arrays(expression: str, wanted: object) -> None:
    found = value_of(expression, ARRAYS)
    assert found == (wanted if isinstance(wanted, str) else pytest.approx(wanted, rel=1e-8))


INDIRECT = 'DIM b% 40\nb%!4=&12345678:b%?1=7:$(b%+8)="text":|(b%+20)=1.5:a%=4\n'
INDIRECT_VALUES = [
    ("b%!4", 0x12345678),
    ("b%?4", 0x78),
    ("?(b%+7)", 0x12),
    ("!(b%+4)", 0x12345678),
    ("$(b%+8)", "text"),
    ("|(b%+20)", 1.5),
    ("b%?1+1", 8),
    ("b%!a%", 0x12345678),
    ("b%?12", 13),
    ("LEN$(b%+8)", 4),
    ("?b%", 0),
    ("b%!4 AND &FF", 0x78),
    ("-b%?1", -7),
    ("b%?(a%-3)*2", 14),
]


@pytest.mark.parametrize("expression, wanted", INDIRECT_VALUES)
def test_indirection(expression: str, wanted: object) -> None:
    assert value_of(expression, INDIRECT) == wanted


def test_memory_of_the_program() -> None:
    # A block has one byte more than its number; the next begins at a multiple of 4.
    assert value_of("END", "DIM a% 9") == 0x8F00 + 12
    assert value_of("b%-a%", "DIM a% 12,b% 1") == 16
    assert value_of("a%", "DIM a% -1") == 0x8F00
    assert value_of("HIMEM>LOMEM") == -1


WRONG = [
    ("1/0", "division by zero"),
    ("1 DIV 0", "division by zero"),
    ("5 MOD 0", "division by zero"),
    ('1+"a"', "type mismatch"),
    ('"a"*2', "type mismatch"),
    ("LEN 5", "type mismatch"),
    ("ASC 5", "type mismatch"),
    ('ABS"x"', "type mismatch"),
    ('"a"=1', "type mismatch"),
    ("1E10 AND 1", "too big"),
    ("1E30*1E30", "too big"),
    ("SQR -1", "no value"),
    ("LN 0", "no value"),
    ("nothing", "no variable has this name"),
    ("none%(1)", "no DIM"),
    ("1=1=1", "doesn't understand"),
    ("(1", "`)` is wanted"),
    ("&ff", "capitals"),
    ('"open', "no closing quote"),
    ("1 2", "doesn't understand"),
    ("PRINT", "isn't a value"),
    ("FNnone", "no DEF"),
    ('STRING$(200,"ab")', "too long"),
    ("STRING$(3)", "it takes 2 to 2"),
    ("&123456789", "more than 32 bits"),
    ("", "a value is wanted"),
    ("EVAL", "a value is wanted"),
    ("(-8)^.5", "no power"),
    ("%2", "digits 0 and 1"),
    ("TO", "isn't a value"),
]


@pytest.mark.parametrize("expression, reason", WRONG)
def test_wrong(expression: str, reason: str) -> None:
    with pytest.raises(BasicError) as found:
        value_of(expression)
    assert reason in f"{found.value.word} {found.value.reason}"


MACHINE = [
    "GET",
    "GET$",
    "INKEY 10",
    "INKEY$ 10",
    "ADVAL 1",
    "RND",
    "RND(6)",
    "POINT(1,2)",
    "POS",
    "VPOS",
    "COUNT",
    "USR 5",
    "PAGE",
    "TOP",
    "TINT(1,2)",
    "BEAT",
    "MODE",
    "WIDTH",
    "QUIT",
]


@pytest.mark.parametrize("expression", MACHINE)
def test_what_a_machine_would_answer(expression: str) -> None:
    """Each is an error by its name while no bytes are laid."""
    with pytest.raises(BasicError) as found:
        value_of(expression)
    assert found.value.word in expression or found.value.word == "TOP"
    assert "bytes aren't whole" in found.value.reason


NEAR = ["y%=INT(x)", "y%=x", "a$=CHR$(x)", "FOR y%=1 TO x:NEXT", "WIDTH INT x"]


@pytest.mark.parametrize("value", ["3.0000001", "2.9999999"])
@pytest.mark.parametrize("statement", NEAR)
def test_near_whole(value: str, statement: str) -> None:
    """A real next to a whole number is cut with a warning."""
    from basic_runs import run

    _, messages = run(f"x={value}\n{statement}\n")
    assert any("BASIC V and VI may differ" in message.reason for message in messages.items)


NO_ARRAYS = [
    "PRINT a()",
    "b=a()",
    "b%=a()",
    "b$=a()",
    "IF a() THEN",
    "b=ABS a()",
    "b=1=a()",
    "b=a()^2",
    "b$=STR$ a()",
    "CASE a() OF\nWHEN 1\nENDCASE",
    "FOR i=a() TO 2",
    'f%=OPENOUT"x":PRINT#f%,a()',
    "b=LEN a()",
    "b=NOT a()",
    "b=a() AND 1",
    "b=a()>>1",
    "b=-a()",
    "DIM c a()",
    "READ a()",
    "b=FNf(a())\nEND\nDEF FNf(x)=x",
    "b=?a()",
    "P%=a()",
    "SYS a()",
    "SYS 6,a()\nb=!a()",
    "b=a() DIV 2",
    'ERROR a(),"x"',
    'b=EVAL"a()"',
    "b=INT a()",
    "b=SIN a()",
    "b=CHR$ a()",
    "PROCp(a())\nEND\nDEF PROCp(x):ENDPROC",
    "b=FNf\nEND\nDEF FNf=a()",
    "VDU 1:b=a()",
    'b$=STRING$(a(),"x")',
    "DIM d(2):d()=a():d(1)=a()",
    "b=VAL a()",
    "SWAP a(),b",
    "HIMEM=a()",
    "OSCLI a()",
]


@pytest.mark.parametrize("statement", NO_ARRAYS)
def test_an_array_is_no_value(statement: str) -> None:
    from basic_runs import errors

    assert len(errors("DIM a(2)\n" + statement)) == 1
