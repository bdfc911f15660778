"""The player of records, one page of HTML, by tools/web_pages.py: in the package, or where it lies beside it."""

from __future__ import annotations

import sys
from pathlib import Path

PACKAGE = Path(__file__).resolve().parent
# as pip installs it; in a checkout, or a copy by ./install
FOLDERS = [PACKAGE / "player_files/tools", PACKAGE.parents[1] / "tools"]


class PlayerMissing(OSError):
    """What makes the page isn't there."""


def tools_folder() -> Path:
    """The folder with what makes the page."""
    for folder in FOLDERS:
        if (folder / "web_pages.py").is_file():
            return folder
    looked = ", ".join(str(folder) for folder in FOLDERS)
    raise PlayerMissing(f"web_pages.py is missing, which makes the page of a run; it was looked for in {looked}")


def player_page(records: str) -> str:
    """The page of records."""
    folder = str(tools_folder())
    sys.path.insert(0, folder)
    try:
        from web_pages import player_page as make  # type: ignore[import]
    finally:
        sys.path.remove(folder)
    page: str = make(records.encode("ascii"))
    return page
