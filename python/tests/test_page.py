"""The page docs/OLD_SOURCES.md: what it shows of a command is what the command prints."""

from __future__ import annotations

import re
import subprocess

import pytest
from machine import ROOT

PAGE = ROOT / "docs/OLD_SOURCES.md"
_SHOWN = re.compile(r"<!-- shown by (.+) -->\n((?:    .*\n)+)")


def shown() -> list[tuple[str, list[str]]]:
    return [(found[1], [line[4:] for line in found[2].splitlines()])
            for found in _SHOWN.finditer(PAGE.read_text())]


@pytest.mark.parametrize("command, lines", shown())
def test_command_prints_what_is_shown(command: str, lines: list[str]) -> None:
    done = subprocess.run(command.split(), cwd=ROOT, capture_output=True, check=False)
    printed = (done.stdout or done.stderr).decode().splitlines()
    assert printed[:len(lines)] == lines


def test_commands_are_shown() -> None:
    assert len(shown()) == 3


def test_each_option_is_on_the_page_or_in_the_manual() -> None:
    from rosm.source import parser_of
    text = PAGE.read_text() + (ROOT / "docs/man/rosm_source.1").read_text()
    for action in parser_of("rosm_source")._actions:
        for option in action.option_strings:
            assert option.lstrip("-") in text, option
