"""Marks one submission, in a process of its own: a job comes on standard input, the mark goes out as JSON.

So nothing that a submission does, to the assembler or to memory, can touch the marks of another.
"""

from __future__ import annotations

import json
import pickle
import resource
import sys
from dataclasses import asdict
from pathlib import Path

from ..native import library_engine
from .grading import mark, refused_mark
from .submission import Refused, read_submission

MOST_MEMORY = 4 << 30


def main() -> int:
    exercise, path = pickle.load(sys.stdin.buffer)
    resource.setrlimit(resource.RLIMIT_AS, (MOST_MEMORY, MOST_MEMORY))
    # the system ends the process by SIGXCPU then
    resource.setrlimit(resource.RLIMIT_CPU, (exercise.seconds, exercise.seconds + 1))
    try:
        found = mark(exercise, path, read_submission(Path(path), exercise.bytes), library_engine)
    except Refused as error:
        found = refused_mark(exercise, path, str(error))
    except MemoryError:
        found = refused_mark(exercise, path, "there isn't memory enough to mark it")
    json.dump(asdict(found), sys.stdout)
    return 0


if __name__ == "__main__":
    sys.exit(main())
