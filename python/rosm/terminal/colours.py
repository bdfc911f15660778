"""Colours of what is shown, where a terminal has them and nobody asks for none."""

from __future__ import annotations

import os
import sys

from .talk import Shown

ANSI = {"pass": "32", "fail": "31;1", "refused": "33", "output": "36", "trace": "2", "line": "1"}
STYLES = {"name": "#888888", "value": "", "new": "bold underline", "live": "#4c8bd6", "free": "#888888",
          "descriptor": "#b58900", "prompt": "bold"}


def has_colours() -> bool:
    """Whether standard output shows colours (no-color.org)."""
    return sys.stdout.isatty() and not os.environ.get("NO_COLOR") and os.environ.get("TERM") != "dumb"


def coloured(shown: Shown, is_coloured: bool) -> str:
    """A line as it is printed."""
    code = ANSI.get(shown.kind) if is_coloured else None
    return f"\x1b[{code}m{shown.text}\x1b[0m" if code and shown.text else shown.text
