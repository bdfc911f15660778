"""Calls of the library librosm.so: a script to its answers, a debugging script to its records."""

from __future__ import annotations

import ctypes
import mmap
import os
from dataclasses import dataclass
from functools import lru_cache
from pathlib import Path
from typing import Any, NamedTuple, Protocol

NAME = "librosm.so"
# exit statuses with which nothing is answered
WRONG_SIZES, NOT_RUN = 2, 4
# The room for answers that is tried first. The system has it ready only where it is written to, and a second
# call would answer the whole script again.
FIRST_ROOM = 1 << 26


class LibraryMissing(OSError):
    """The library isn't there, or is one without the calls that are wanted."""


class ScriptError(ValueError):
    """A script, an image or sizes that the library doesn't run."""


@dataclass(frozen=True)
class Settings:
    """The sizes of a machine in pages of 4,096 bytes, and how many steps each line may take."""

    pages: int = 256
    app: int = 64
    rma: int = 16
    budget: int = 1_000_000


class Answer(NamedTuple):
    """The exit status and all answers. A byte that is printed is the character of its number."""

    status: int
    text: str


class Engine(Protocol):
    """What answers a debugging script with its records."""

    def __call__(self, script: bytes, settings: Settings) -> Answer: ...


def places() -> list[Path]:
    """Where the library may be: ROSM_LIBRARY alone; or in the package, beside it, in a checkout, or where
    ./install puts it."""
    named = os.environ.get("ROSM_LIBRARY")
    if named:
        return [Path(named)]
    package = Path(__file__).resolve().parent
    checkout, prefix = package.parents[1], package.parents[3]
    return [package / NAME, package.parent / NAME, checkout / "out/library" / NAME,
            checkout / "out/unproved/library" / NAME, prefix / "lib" / NAME]


def library_path() -> Path:
    """The library's file. LibraryMissing: it is in none of those places."""
    for place in places():
        if place.is_file():
            return place
    looked = ", ".join(str(place) for place in places())
    raise LibraryMissing(f"{NAME} is missing; `./build --unproved` or `tools/library` in a checkout makes it,"
                         f" and ROSM_LIBRARY names one elsewhere. It was looked for here: {looked}")


@lru_cache(maxsize=None)
def loaded(path: Path) -> Any:
    """The library, with the types of its calls."""
    try:
        library = ctypes.CDLL(str(path))
        sizes = [ctypes.c_uint32] * 3 + [ctypes.c_uint64]
        given = [ctypes.c_char_p, ctypes.c_size_t]
        out = [ctypes.c_void_p, ctypes.c_size_t, ctypes.POINTER(ctypes.c_size_t)]
        for name, count in (("rosm_run", 1), ("rosm_run_image", 3), ("rosm_records", 2)):
            call = getattr(library, name)
            call.argtypes = sizes + given * count + out
            call.restype = ctypes.c_uint32
    except (OSError, AttributeError) as error:
        raise LibraryMissing(f"{path} can't be used: {error}") from error
    return library


def answered(name: str, settings: Settings, given: list[bytes]) -> Answer:
    """Makes a call with room enough for all that it answers."""
    call = getattr(loaded(library_path()), name)
    words = [word for text in given for word in (text, len(text))]
    sizes = (settings.pages, settings.app, settings.rma, settings.budget)
    room = FIRST_ROOM
    while True:
        status, written, text = called(call, (*sizes, *words), room)
        if status == WRONG_SIZES:
            raise ScriptError(f"no machine has {settings.pages} pages, {settings.app} of them for the"
                              f" application and {settings.rma} for modules")
        if status == NOT_RUN:
            raise ScriptError("the script or the image is refused or too long, or memory ran out")
        if written <= room:
            return Answer(status, text.decode("latin-1"))
        # the same script has the same answers
        room = written


def called(call: Any, words: tuple[Any, ...], room: int) -> tuple[int, int, bytes]:
    """A call with so much room: its status, how long all answers are, and those that have room."""
    written = ctypes.c_size_t()
    with mmap.mmap(-1, room) as memory:
        out = ctypes.c_char.from_buffer(memory)
        status = call(*words, ctypes.addressof(out), room, ctypes.byref(written))
        # memory that is still pointed to can't be given back
        del out
        return status, written.value, memory[:min(written.value, room)]


def bytes_of(text: str | bytes) -> bytes:
    return text.encode("latin-1") if isinstance(text, str) else bytes(text)


def run(script: str | bytes, *, image: tuple[str, bytes] | None = None, pages: int = 256, app: int = 64,
        rma: int = 16, budget: int = 1_000_000) -> Answer:
    """Answers a script of rosm on a fresh machine, with an image there from the start if one is given.

    The status is 0 after OS_Exit, 1 after a fault, 3 after another stop or none. The budget is that of
    the whole script. ScriptError: the script or the image isn't run.
    """
    given = [bytes_of(text) for text in (*(image or ()), script)]
    name = "rosm_run_image" if image else "rosm_run"
    return answered(name, Settings(pages, app, rma, budget), given)


def records(script: str | bytes, *, name: str = "script", pages: int = 256, app: int = 64, rma: int = 16,
            budget: int = 1_000_000) -> Answer:
    """The records of a debugging script: JSON objects, one a line, as docs/JSON.md has them.

    The status is that of rosm_debug, and the budget that of each line. ScriptError: it isn't run.
    """
    return answered("rosm_records", Settings(pages, app, rma, budget), [bytes_of(name), bytes_of(script)])


def library_engine(script: bytes, settings: Settings) -> Answer:
    """The library as what answers debugging scripts."""
    return answered("rosm_records", settings, [b"", script])
