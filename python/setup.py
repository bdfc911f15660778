"""Puts the library librosm.so and the player into the package where a checkout has them; pyproject.toml has
all else.

Without it the package is installed all the same: old sources need no library, and what does need it says
that it is missing, and how it is made.
"""

import os
import shutil
import sys
from pathlib import Path

from setuptools import Distribution, setup
from setuptools.command.build_py import build_py

NAME = "librosm.so"
CHECKOUT = Path(__file__).resolve().parent.parent
PLACES = [CHECKOUT / "out/library" / NAME, CHECKOUT / "out/unproved/library" / NAME]


def library() -> "Path | None":
    """The library: the one that ROSM_LIBRARY names, the proved one, or the one that is made without proof."""
    named = os.environ.get("ROSM_LIBRARY")
    places = [Path(named)] if named else PLACES
    return next((place for place in places if place.is_file()), None)


def copy_player(target: Path) -> None:
    """What makes the page of a run, as it lies in a checkout."""
    shutil.rmtree(target, ignore_errors=True)
    if (CHECKOUT / "tools/web_pages.py").is_file():
        shutil.copytree(CHECKOUT / "web/src", target / "web/src")
        shutil.copy(CHECKOUT / "web/player.html", target / "web")
        (target / "tools").mkdir()
        for name in ("make_page", "web_pages.py"):
            shutil.copy(CHECKOUT / "tools" / name, target / "tools")


class WithLibrary(build_py):
    """Builds the package with the library in it."""

    def run(self) -> None:
        super().run()
        found = library()
        if found is None:
            print(f"rosm: there is no {NAME}, so rosm.Machine won't work: `./build --unproved` or `tools/library`"
                  " makes it; then install again", file=sys.stderr)
        else:
            shutil.copyfile(found, Path(self.build_lib) / "rosm" / NAME)
        copy_player(Path(self.build_lib) / "rosm/player_files")


class Native(Distribution):
    """What has the library in it is for this kind of machine alone."""

    def has_ext_modules(self) -> bool:
        return library() is not None


setup(cmdclass={"build_py": WithLibrary}, distclass=Native)
