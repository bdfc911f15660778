"""The built programs, and how a script is handed to one: whole, or in pieces that it reads one by one."""
from __future__ import annotations

import argparse
import os
import pathlib
import subprocess
import sys
import tempfile
import threading
import time
from concurrent.futures import ProcessPoolExecutor
from dataclasses import dataclass
from typing import Callable, Iterable, Iterator, TypeVar

from transcripts import Transcript

ROOT = pathlib.Path(__file__).resolve().parent.parent
UNPROVED = ROOT / "out/unproved"
# a program that takes longer is ended
SECONDS = 60
Task = TypeVar("Task")
Found = TypeVar("Found")


@dataclass(frozen=True)
class Programs:
    """The programs that are run."""

    rosm: str
    rosm_tools: str

    @classmethod
    def in_folder(cls, folder: pathlib.Path) -> Programs:
        names = [folder / name for name in ("rosm", "rosm_tools")]
        for path in names:
            if not os.access(path, os.X_OK):
                sys.exit(f"{path} isn't built; ./build --unproved makes it without proof")
        return cls(*(str(path.resolve()) for path in names))

    @property
    def rosm_debug(self) -> list[str]:
        return [self.rosm_tools, "debug"]


@dataclass(frozen=True)
class Outcome:
    """What came of a script."""

    answer: bytes
    errors: bytes
    # None: it didn't end in time
    status: int | None


def run(command: list[str], script: bytes, size: int | None = None) -> Outcome:
    """Runs a program on a script. With a size each read of the program gives it as many bytes and no more: each write
    to such a pipe is a packet of its own."""
    reading, writing = os.pipe2(os.O_CLOEXEC | (os.O_DIRECT if size else 0))
    with tempfile.TemporaryFile() as answers, tempfile.TemporaryFile() as errors:
        begun = time.monotonic()
        with subprocess.Popen(command, stdin=reading, stdout=answers, stderr=errors) as process:
            os.close(reading)
            timer = threading.Timer(SECONDS, process.kill)
            timer.start()
            try:
                for place in range(0, len(script), size or max(len(script), 1)):
                    write_all(writing, script[place : place + (size or len(script))])
            except BrokenPipeError:
                pass  # it has ended before the script does
            os.close(writing)
            status: int | None = process.wait()
            timer.cancel()
        if time.monotonic() - begun >= SECONDS and status and status < 0:
            status = None
        answers.seek(0)
        errors.seek(0)
        return Outcome(answers.read(), errors.read(), status)


def write_all(file: int, text: bytes) -> None:
    while text:
        text = text[os.write(file, text) :]


def command_of(transcript: Transcript, programs: Programs, room: str, by_debugger: bool) -> list[str]:
    """The program and its words; each image is handed in as a file."""
    files = []
    for name, image in transcript.images.items():
        files.append(f"{room}/{name}")
        pathlib.Path(files[-1]).write_bytes(image)
    front = programs.rosm_debug if by_debugger else [programs.rosm]
    return [*front, *["--tap"] * transcript.is_tap, *transcript.options, "--", *files]


def side_by_side(work: Callable[[Task], Found], tasks: Iterable[Task]) -> Iterator[Found]:
    """What comes of each task, in order, as many at a time as there are processors."""
    with ProcessPoolExecutor(len(os.sched_getaffinity(0))) as pool:
        yield from pool.map(work, tasks)


def words_of(about: str, names: str) -> tuple[Programs, list[str]]:
    """The programs that the command line asks for, and the other words."""
    reader = argparse.ArgumentParser(description=about, formatter_class=argparse.RawDescriptionHelpFormatter)
    reader.add_argument("--programs", metavar="FOLDER", type=pathlib.Path, default=UNPROVED)
    reader.add_argument("names", metavar=names, nargs="*")
    asked = reader.parse_args()
    return Programs.in_folder(asked.programs), asked.names


def told_in_all(good: int, bad: int) -> int:
    """The last line, and the exit status."""
    print(f"{good} passed, {bad} failed")
    return 1 if bad or not good else 0
