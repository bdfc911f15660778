"""What a listing saves and reads: SYS "OS_File", *SAVE, OPENOUT and BPUT#, and files that are given."""

from __future__ import annotations

from pathlib import Path

import pytest

from basic_runs import errors, images, run, variables, warnings
from rosm.basic import Options

LAY = "DIM c% 99\nFOR p%=4 TO 6 STEP 2\nP%=0:O%=c%\n[OPT p%:.a EQUD &11223344:EQUD a+4:]\nNEXT\n"
BYTES = bytes.fromhex("4433221104000000")
SAVES = [
    ('SYS "OS_File",10,"Pots",&FFA,,c%,O%', "Pots", 0xFFA),
    ('SYS 8,10,"adfs::4.$.Pots",&FFA,,c%,O%', "Pots", 0xFFA),
    ('SYS "XOS_File",10,"<A$Dir>.Code",&FF8,,c%,O%', "Code", 0xFF8),
    ('SYS "OS_File",0,"x",&FFFFFA00,0,c%,O%', "x", 0xFFA),
    ('OSCLI "SAVE Pots "+STR$~c%+" "+STR$~O%', "Pots", None),
    ('OSCLI("Save Pots "+STR$~c%+" +8")', "Pots", None),
    ('OSCLI "SAVE Pots "+STR$~c%+"+"+STR$~8', "Pots", None),
    ("*SAVE Pots 8F00 8F08", "Pots", None),
    ("*SAVE Pots 8F00 + 8 8F00", "Pots", None),
    ('SYS "OS_CLI","SAVE Pots 8F00 8F08"', "Pots", None),
    ("*SAVE Pots 8F00 8F08\n*SETTYPE Pots Module", "Pots", 0xFFA),
    ("*SAVE Pots 8F00 8F08\n*SetType Pots FFC", "Pots", 0xFFC),
    ('*SAVE Pots 8F00 8F08\nSYS "OS_File",18,"Pots",&FFA', "Pots", 0xFFA),
    ("IF TRUE THEN *SAVE Pots 8F00 8F08", "Pots", None),
]


@pytest.mark.parametrize("statements, name, file_type", SAVES)
def test_saved_memory(statements: str, name: str, file_type: int | None) -> None:
    programs, messages = images(LAY + statements)
    assert not messages.items, messages.items[0].text()
    assert [(program.name, program.origin, program.data) for program in programs] == [(name, 0, BYTES)]
    assert [(label.name, label.address) for label in programs[0].labels] == [("a", 0)]
    assert [(row.address, row.length, row.position.line) for row in programs[0].rows] == [
        (0, 4, 4),
        (4, 4, 4),
    ]
    assert run(LAY + statements)[0].filing.saved[0].type == file_type


def test_bytes_are_those_when_they_are_saved() -> None:
    programs, _ = images(LAY + "*SAVE one 8F00 8F04\nc%?0=9\n*SAVE two 8F00 8F04\n")
    assert [(program.name, program.data[0]) for program in programs] == [("one", 0x44), ("two", 9)]


def test_names_of_images_differ() -> None:
    programs, _ = images(LAY + "*SAVE a.x 8F00 8F04\n*SAVE b.x 8F04 8F08\n*SAVE b.x 8F00 8F08\n")
    assert [(program.name, len(program.data)) for program in programs] == [("x", 4), ("x_2", 8)]


WRITES = [
    ('BPUT#f%,65:BPUT#f%,"bc";:BPUT#f%,321', b"AbcA"),
    ('BPUT#f%,"line"', b"line\n"),
    ('PRINT#f%,1,"ab",-2', b"\x40\x00\x00\x00\x01\x00\x02ba\x40\xff\xff\xff\xfe"),
    ("PRINT#f%,1.5", b"\x80\x00\x00\x00\x40\x81"),
    ("BPUT#f%,1:BPUT#f%,2:PTR#f%=0:BPUT#f%,9", b"\x09\x02"),
    ("PTR#f%=3:BPUT#f%,1", b"\0\0\0\1"),
    ("EXT#f%=2", b"\0\0"),
    ("FOR i%=1 TO 3:BPUT#f%,i%:NEXT", b"\1\2\3"),
    ('DIM b% 9:$b%="xyz":SYS "OS_GBPB",2,f%,b%,3', b"xyz"),
    ('SYS "OS_BPut",7,f%', b"\7"),
    ("BPUT#f%,1:p%=PTR#f%:e%=EXT#f%:BPUT#f%,p%+e%", b"\1\2"),
]


@pytest.mark.parametrize("statements, wanted", WRITES)
def test_written_bytes(statements: str, wanted: bytes) -> None:
    for opens, closes in (('f%=OPENOUT"data"', "CLOSE#f%"), ('SYS "OS_Find",&80,"data" TO f%', "CLOSE#0")):
        programs, messages = images(f"{opens}\n{statements}\n{closes}")
        assert not messages.errors(), messages.items[0].text()
        assert [(program.name, program.origin, program.data) for program in programs] == [("data", 0, wanted)]


def test_a_file_that_isnt_closed() -> None:
    assert warnings('f%=OPENOUT"data":BPUT#f%,1') == ["1: data: the file isn't closed; its bytes are taken"]


def test_what_was_written_is_read_again() -> None:
    found = variables(
        'f%=OPENOUT"d":PRINT#f%,5,"text",2.5:BPUT#f%,"line":CLOSE#f%\n'
        'f%=OPENIN"d":INPUT#f%,a,b$,c:d$=GET$#f%:e=EOF#f%:CLOSE#f%'
    )
    assert [found[name] for name in ("a", "b$", "c", "d$", "e")] == [5, "text", 2.5, "line", -1]


@pytest.fixture
def given(tmp_path: Path) -> Options:
    (tmp_path / "Sprites,ff9").write_bytes(b"ABCDEFGH")
    (tmp_path / "Lib.bas").write_text(
        "10 REM a library\n20 DEF FNtwice(x)=2*x\n30 a=99\n40 DEF PROCz:z=5:ENDPROC\n"
    )
    return Options(files=[str(tmp_path / "Sprites,ff9"), str(tmp_path / "Lib.bas")])


READS = [
    ('f%=OPENIN"$.Sprites":a=BGET#f%+EXT#f%', {"a": 73}),
    ('f%=OPENUP"sprites":PTR#f%=7:a=BGET#f%:b=EOF#f%', {"a": 72, "b": -1}),
    ("DIM m% 99\n*LOAD Sprites 8F00\na=!m%", {"a": 0x44434241}),
    ('DIM m% 9:OSCLI "LOAD Sprites "+STR$~m%:a=m%?7', {"a": 72}),
    ('DIM m% 9:SYS "OS_File",16,"Sprites",m% TO a%,,,,l%:b=m%?1', {"a%": 1, "l%": 8, "b": 66}),
    ('SYS "OS_File",17,"Sprites" TO t%,,,,l%', {"t%": 1, "l%": 8}),
    ('LIBRARY "Lib":a=FNtwice(4)', {"a": 8}),
    ('INSTALL "Lib":PROCz', {"z": 5}),
]


@pytest.mark.parametrize("statements, wanted", READS)
def test_given_files(statements: str, wanted: dict[str, object], given: Options) -> None:
    basic, messages = run(statements, given)
    assert not messages.errors(), messages.items[0].text()
    assert {name: basic.variables[name] for name in wanted} == wanted


def test_a_library_is_named_in_messages(given: Options, tmp_path: Path) -> None:
    Path(given.files[1]).write_text("DEF FNbad(x)\n=x/0\n")
    _, messages = run('LIBRARY "Lib"\na=FNbad(1)', given)
    assert messages.items[0].text().startswith(f"{given.files[1]}:2: error: /: division by zero")


WRONG = [
    ('f%=OPENIN"none"', "1: none: none of the files given"),
    ("*LOAD none 8000", "1: none: none of the files given"),
    ("BPUT#5,1", "1: #5: no file is open"),
    ("*SAVE x 8F00", "1: *SAVE: a name, the start"),
    ("*SAVE x 8G00 9000", "1: *SAVE: `8G00` is no hexadecimal"),
    ("*SAVE x 8F00 8F00", "1: *SAVE: it saves no bytes"),
    ("*SAVE x 0 100", "1: : the program reads &0"),
    ('SYS "OS_File",17,"y" TO a', "1: SYS OS_File 17: whether a machine"),
    ('SYS "OS_GetEnv" TO a$', "1: SYS OS_GetEnv: a machine would answer"),
    ("*EXEC x", "1: *EXEC: its lines would come"),
    ('SYS "OS_GenerateError","x"', "1: SYS OS_GenerateError: the program stops"),
    ("*BASIC", "1: *BASIC: BASIC would"),
    ('SYS "OS_SWINumberFromString",,"No_Such" TO a', "1: No_Such: no SWI of this name"),
    ('DIM c% 9:SYS "OS_File",10,"x",&FFA,,c%,P%', "1: SYS OS_File 10: it saves no bytes"),
    ('f%=OPENOUT"x":a=BGET#f%', "1: #255: the file ends here"),
    ('f%=OPENOUT"x":PTR#f%=-1', "1: #255: the file has no place"),
]


@pytest.mark.parametrize("statements, wanted", WRONG)
def test_wrong(statements: str, wanted: str) -> None:
    found = errors(statements)
    assert len(found) == 1 and found[0].startswith(wanted)


def test_end_of_offset_assembly() -> None:
    assert errors(LAY + 'SYS "OS_File",10,"x",&FFA,,c%,P%') == [
        "6: SYS OS_File 10: it saves no bytes: P% is &8, and the bytes end at O%, &8F08"
    ]


PASSED = [
    'SYS "OS_Byte",4,1',
    'SYS "Wimp_Initialise",200,&4B534154,"x"',
    "*FX 4,1",
    "*Dir $.x",
    "*Stamp x",
    "*ICONSPRITES x",
    'SYS "OS_Write0","x"',
    'SYS "Unheard_Of",1,2',
    'OSCLI "CDir x"',
    'SYS "OS_File",8,"dir"',
    "*SETTYPE y FFA",
]


@pytest.mark.parametrize("statement", PASSED)
def test_passed_over_with_a_note(statement: str) -> None:
    _, messages = run(statement)
    assert [message.severity for message in messages.items] == ["note"]


def test_a_call_that_has_memory_is_warned_of() -> None:
    _, messages = run('DIM b% 20:SYS "OS_ConvertHex8",5,b%,20')
    assert [(message.severity, message.word) for message in messages.items] == [
        ("warning", "SYS OS_ConvertHex8")
    ]


def test_swi_numbers() -> None:
    assert variables('SYS "OS_SWINumberFromString",,"XWimp_Poll" TO a%')["a%"] == 0x600C7


def test_time() -> None:
    basic, messages = run("a$=TIME$:b$=MID$(TIME$,5,11)", Options(time="Sun,29 Nov 2026.02:40:00"))
    assert (basic.variables["a$"], basic.variables["b$"]) == ("Sun,29 Nov 2026.02:40:00", "29 Nov 2026")
    assert [message.reason for message in messages.items] == ["TIME$ is taken as Sun,29 Nov 2026.02:40:00"]
    assert len(run("a$=TIME$")[0].variables["a$"]) == 24


def test_two_libraries(tmp_path: Path) -> None:
    """The program's own routines come first, then those of the library that was loaded last."""
    for name, value in (("One", 1), ("Two", 2)):
        (tmp_path / name).write_text(f"DEF FNx={value}\nDEF FNy={value}\n")
    options = Options(files=[str(tmp_path / "One"), str(tmp_path / "Two")])
    basic, messages = run('LIBRARY "One":LIBRARY "Two"\na=FNx:b=FNy\nEND\nDEF FNy=3\n', options)
    assert (basic.variables["a"], basic.variables["b"]) == (2, 3)
    assert [message.word for message in messages.items] == ["FNx"]


def test_wrong_heap() -> None:
    for heap in (0, 0x8002, 0x4000000):
        assert errors("a=1", Options(heap=heap))[0].startswith(f"1: : the heap can't begin at &{heap:X}")


def test_heap() -> None:
    assert run("DIM a% 9", Options(heap=0x10000))[0].variables["a%"] == 0x10000
