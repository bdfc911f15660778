"""A script for rosm_debug in pieces, each with its answer."""
import re
import subprocess
from collections.abc import Callable

SECONDS = 60
# why a line isn't known whose first word isn't
UNKNOWN = "no such line; HELP lists them"

# what a row finds of the answers: why it fails, or nothing
Verdict = Callable[[list[str]], str | None]


class RowError(Exception):
    """A row that can't be read."""


class Script:
    """Lines in pieces, each with a line behind it that isn't known, whose answer ends its own."""

    def __init__(self) -> None:
        self.lines: list[str] = []
        self.marks: list[int] = []

    def ask(self, *lines: str) -> int:
        """Adds a piece, and returns its number."""
        for text in (*lines, "mark"):
            self.lines += text.split("\n")
        self.marks.append(len(self.lines))
        return len(self.marks) - 1

    def answers(self, command: list[str]) -> list[str]:
        """What the pieces are answered."""
        typed = "".join(line + "\n" for line in self.lines).encode("latin-1")
        try:
            ran = subprocess.run(
                command, input=typed, capture_output=True, timeout=SECONDS, check=False
            )
        except subprocess.TimeoutExpired as error:
            raise RowError(f"{command[0]} takes over {SECONDS} seconds") from error
        rest = ran.stdout.decode("latin-1")
        answers = []
        for number in self.marks:
            answer, mark, rest = rest.partition(f"? line {number}: {UNKNOWN}\n")
            if not mark:
                errors = ran.stderr.decode("latin-1")
                raise RowError(f"no answer up to line {number} of the script: {errors}")
            answers.append(answer)
        return answers


def fields_of(row: str, form: str) -> list[str]:
    """The fields of a row: as many as those of the form, or more where that ends in `..`."""
    fields, wanted = row.split(" | "), form.split(" | ")
    most = len(fields) if form.endswith("..") else len(wanted)
    if not len(wanted) <= len(fields) <= most:
        raise RowError(f"the row isn't of the form {form}")
    return fields


def words_of(answer: str) -> list[str]:
    """The words or bytes that WORDS or MEM prints in an answer."""
    lines = re.findall(r"^[0-9A-F]{8}: (.*)$", answer, re.M)
    return [word for line in lines for word in line.split()]
