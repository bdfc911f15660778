"""Every keyword of the language is done, or is an error by its name: none is passed over unseen."""

from __future__ import annotations

import pytest

from basic_runs import run
from rosm.basic import Options
from rosm.basic.expressions import FACTORS
from rosm.basic.statements import STATEMENTS
from rosm.basic.tokens import KEYWORDS, NAMES

# Words that are part of another statement or expression.
PARTS = {"THEN", "TO", "STEP", "OF", "SPC", "TAB(", "AND", "OR", "EOR", "DIV", "MOD", "OFF", "FN", "NOT"}
COMMANDS = {
    "APPEND",
    "AUTO",
    "CRUNCH",
    "DELETE",
    "EDIT",
    "HELP",
    "LIST",
    "LOAD",
    "LVAR",
    "NEW",
    "OLD",
    "RENUMBER",
    "SAVE",
    "TEXTLOAD",
    "TEXTSAVE",
    "TWIN",
    "TWINO",
}


@pytest.mark.parametrize("name", sorted(KEYWORDS))
def test_known(name: str) -> None:
    """It begins a statement or a value, or is part of one."""
    character = KEYWORDS[name]
    assert character in STATEMENTS or character in FACTORS or name in PARTS


@pytest.mark.parametrize("name", sorted(COMMANDS))
def test_commands_are_errors(name: str) -> None:
    _, messages = run(name)
    assert [message.word for message in messages.errors()] == [name]


@pytest.mark.parametrize("name", sorted(set(KEYWORDS) - COMMANDS - {"COLOR"}))
def test_a_word_alone(name: str) -> None:
    """A keyword where a statement begins, and where a value is wanted: done, noted, or an error there."""
    for text in (name + "\nz%=1\n", f"a={name}\nz%=1\n"):
        basic, messages = run(text, Options(steps=1000))
        done = basic.variables.get("z%") == 1
        ended = name in ("END", "STOP", "QUIT", "CHAIN") and text.startswith(name)
        assert done or ended or messages.errors(), text
        for message in messages.errors():
            assert message.word or message.reason, text


QUIET = {
    "REM",
    "DATA",
    "DEF",
    "LET",
    "REPEAT",
    "ENDIF",
    "ENDCASE",
    "PRINT",
    "RESTORE",
    "CLEAR",
    "ON",
    "END",
    "STOP",
    "QUIT",
}


@pytest.mark.parametrize("name", sorted(set(NAMES.values()) - COMMANDS - QUIET))
def test_nothing_goes_unsaid(name: str) -> None:
    """Alone as a statement it says something: a note that nothing is done, or an error."""
    _, messages = run(name, Options(steps=1000))
    assert messages.items, name
