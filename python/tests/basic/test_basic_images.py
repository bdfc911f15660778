"""What comes out of a listing: images, their origins, rows and labels; and where none comes out."""

from __future__ import annotations

import pytest

from basic_runs import errors, image, images, warnings

MOVING = [
    ("EQUD a", True),
    ("EQUD a+4", True),
    ("EQUD b", True),
    ("EQUD P%", True),
    ("EQUD P%+8", True),
    ("EQUD c%+4", True),
    ("EQUD b-a", False),
    ("EQUD P%-c%", False),
    ("EQUD a-c%", False),
    ("EQUD 5", False),
    ("EQUD n", False),
    ("EQUD (a-c%)/4", False),
    ("EQUD a>>2", False),
    ("EQUD a-b+P%", True),
    ("EQUW a-c%:EQUW 0", False),
]


@pytest.mark.parametrize("statement, moves", MOVING)
def test_words_that_move_with_the_program(statement: str, moves: bool) -> None:
    """They hold an address of the program; distances don't, and a module's words are offsets."""
    program = f"n=&8F04:DIM c% 99\nFOR p%=0 TO 2 STEP 2\nP%=c%\n[OPT p%\n.a\n{statement}\n.b\n]\nNEXT"
    programs, _ = images(program)
    assert programs[0].relocated == ([0x8F00] if moves else [])
    module = program.replace("FOR p%=0 TO 2 STEP 2\nP%=c%", "FOR p%=4 TO 6 STEP 2\nP%=0:O%=c%")
    assert images(module)[0][0].relocated == []


BLOCKS = [
    (
        "EQUD t%",
        "P%=c%",
        "t%: nothing is laid in this block of DIM, so what comes out has its address and not its bytes",
    ),
    ("ADR R0,t%", "P%=c%", "t%: nothing is laid in this block of DIM"),
    ("EQUD c%", "P%=0:O%=c%:o%=4", "c%: this is where DIM has the block, and not where its bytes will run"),
    ("EQUD c%", "P%=c%", ""),
    ("EQUD P%-c%", "P%=c%", ""),
]


@pytest.mark.parametrize("statement, start, wanted", BLOCKS)
def test_addresses_of_blocks(statement: str, start: str, wanted: str) -> None:
    """Words that hold where DIM has a block are no use where the block isn't part of what comes out."""
    found = warnings(f"DIM c% 99,t% 99:o%=0\n{start}\n[OPT 2+o%\n{statement}\n]\nt%!4=5")
    assert len(found) == bool(wanted) and all(warning.startswith("4: " + wanted) for warning in found)


def test_a_block_that_is_saved_with_the_code() -> None:
    assert warnings("DIM c% 7,t% 99:P%=c%\n[OPT 2:EQUD t%:]\n*SAVE x 8F00 8F20") == []


def test_reserved_at_the_end() -> None:
    """P% that goes on behind the last `]` belongs to the image."""
    assert image("DIM c% 99:P%=c%\n[OPT 2:EQUD 1:]\nP%=P%+8") == bytes((1, 0, 0, 0)) + bytes(8)


def test_two_blocks() -> None:
    programs, messages = images("DIM a% 9,b% 9\nP%=a%\n[OPT 2:EQUD 1:]\nP%=b%\n[OPT 2:EQUD a%:]")
    assert [(program.name, program.origin, len(program.data)) for program in programs] == [
        ("a", 0x8F00, 4),
        ("b", 0x8F0C, 4),
    ]
    assert [message.reason for message in messages.items] == ["bytes are laid in several blocks: a, b"]


def test_rows_and_labels() -> None:
    programs, _ = images(
        "DIM c% 99:P%=c%\n[OPT 2\n.x MOV R0,#1:EQUB 5\nFNm(2)\n]\nEND\nDEF FNm(n)\n[OPT 2:EQUB n:]\n=0"
    )
    rows = [(row.address, row.length, row.position.short(), row.code) for row in programs[0].rows]
    assert rows == [
        (0x8F00, 4, "test:3", True),
        (0x8F04, 1, "test:3", False),
        (0x8F05, 1, "test:8 in m, test:4", False),
    ]


NOTHING = [
    ("PRINT 1", "1: : the program reaches no [, so it lays no bytes"),
    ("", "1: : the program reaches no [, so it lays no bytes"),
    ("DIM c% 9:P%=c%\n[\n]", "1: : the program lays no bytes"),
    ("IF 0 THEN [OPT 2:EQUD 1:]", "1: : the program reaches no [, so it lays no bytes"),
    ("P%=0\n[MOV R0,#1\n]", "2: MOV: the program writes at &0, and no DIM gave it that memory"),
]


@pytest.mark.parametrize("program, wanted", NOTHING)
def test_nothing_laid(program: str, wanted: str) -> None:
    found = errors(program)
    assert len(found) == 1 and found[0].startswith(wanted)


STOPS = [
    ("CALL c%", []),
    ("A%=USR c%", []),
    ("INPUT a$", []),
    ("a=RND(5)", []),
    ("PROCend:END\nDEF PROCend:CALL c%:ENDPROC", []),
    ("CALL c%\nP%=c%\n[OPT 2:EQUD 2:]", ["3: CALL: code is called"]),
    ("CALL c%:PROCx:END\nDEF PROCx\nP%=c%\n[OPT 2:EQUD 2:]\nENDPROC", ["3: CALL: code is called"]),
]


@pytest.mark.parametrize("statements, wanted", STOPS)
def test_where_a_machine_is_wanted(statements: str, wanted: list[str]) -> None:
    """Behind the last bytes it ends the program with a warning, before them with an error."""
    program = "DIM c% 99:P%=c%\n[OPT 2:EQUD 1:]\n" + statements
    found = errors(program)
    assert [error[: len(want)] for error, want in zip(found, wanted)] == wanted and len(found) == len(wanted)
    if not wanted:
        assert len(warnings(program)) == 1


def test_a_loop_that_lays_goes_on() -> None:
    """A machine is wanted within the loop of the passes: more bytes will be laid."""
    assert len(errors("DIM c% 99\nFOR p%=0 TO 2 STEP 2\nP%=c%\n[OPT p%:EQUD 1:]\nCALL c%\nNEXT")) == 1


def test_no_end_of_the_assembler() -> None:
    assert warnings("DIM c% 9:P%=c%\n[OPT 2\nEQUD 1") == ["2: [: no ] ends this before the program's end"]
