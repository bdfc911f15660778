"""Marks many submissions side by side, each in a process of its own, on all processors."""

from __future__ import annotations

import json
import os
import pickle
import signal
import subprocess
import sys
from concurrent.futures import ThreadPoolExecutor
from pathlib import Path
from typing import Iterator

from .cases import Exercise
from .grading import CaseMark, Mark, refused_mark

PACKAGE = Path(__file__).resolve().parents[2]
# Seconds are those of a processor. Where these are many times as long there is something else wrong.
LONGEST_WAIT = 30


def mark_one(exercise: Exercise, path: str) -> Mark:
    """Marks a submission; one that takes too long, or whose process ends, has no case."""
    folders = [str(PACKAGE), *filter(None, [os.environ.get("PYTHONPATH")])]
    environment = {**os.environ, "PYTHONPATH": os.pathsep.join(folders)}
    try:
        done = subprocess.run([sys.executable, "-m", "rosm.marking.worker"], input=pickle.dumps((exercise, path)),
                              capture_output=True, check=False, env=environment,
                              timeout=exercise.seconds * LONGEST_WAIT)
        if done.returncode in (-signal.SIGXCPU, -signal.SIGKILL):
            return too_long(exercise, path)
        found = json.loads(done.stdout)
        return Mark(found["path"], found["refused"], [CaseMark(**case) for case in found["cases"]])
    except subprocess.TimeoutExpired:
        return too_long(exercise, path)
    except ValueError:
        last = done.stderr.decode("utf-8", "replace").strip().split("\n")[-1]
        return refused_mark(exercise, path, f"marking it failed: {last or f'status {done.returncode}'}")


def too_long(exercise: Exercise, path: str) -> Mark:
    """A submission whose marking took too long."""
    return refused_mark(exercise, path, f"marking it took more than {exercise.seconds} seconds")


def mark_all(exercise: Exercise, paths: list[str], jobs: int | None = None) -> Iterator[Mark]:
    """The marks, in the order of the paths, as they come."""
    with ThreadPoolExecutor(jobs or len(os.sched_getaffinity(0))) as pool:
        yield from pool.map(lambda path: mark_one(exercise, path), paths)
