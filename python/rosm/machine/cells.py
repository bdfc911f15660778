"""Cells: what changes over a run, each with its values and the moments at which it took them."""

from __future__ import annotations

from bisect import bisect_right
from typing import Generic, TypeVar

Value = TypeVar("Value")


class Cell(Generic[Value]):
    """A register, a flag, a word, a list of areas: its value at each moment."""

    __slots__ = ("moments", "values")

    def __init__(self, first: Value) -> None:
        self.moments = [0]
        self.values = [first]

    def put(self, moment: int, value: Value) -> None:
        """It is written at a moment, which isn't before the last one."""
        if self.moments[-1] == moment:
            self.values[-1] = value
        else:
            self.moments.append(moment)
            self.values.append(value)

    def at(self, moment: int) -> Value:
        """Its value after a moment."""
        return self.values[bisect_right(self.moments, moment) - 1]

    def newest(self) -> Value:
        return self.values[-1]

    def written(self, moment: int) -> int:
        """The moment at which it was last written, up to this one; 0 where it never was."""
        return self.moments[bisect_right(self.moments, moment) - 1]

    def cut(self, moment: int) -> None:
        """Forgets what came after a moment."""
        count = bisect_right(self.moments, moment)
        del self.moments[count:], self.values[count:]
