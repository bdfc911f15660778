"""What a Machine gives to look at: registers, memory, flags, heaps, areas, modules."""

from __future__ import annotations

import html
from dataclasses import dataclass
from typing import TYPE_CHECKING, Iterator, overload

if TYPE_CHECKING:
    from . import Machine

WORDS = {"SP": "R13", "LR": "R14", "PC": "R15"}
ADDRESSES = 1 << 32


class Unmapped(IndexError):
    """An address at which no memory is mapped."""


class Registers:
    """`m.r[0]` to `m.r[15]`, `m.r["R13_svc"]`, `m.r["LR"]`. R15 is the program counter without the flags."""

    def __init__(self, machine: Machine) -> None:
        self._machine = machine

    def __getitem__(self, name: int | str) -> int:
        history, moment = self._machine.history, self._machine.moment
        if isinstance(name, str) and name in history.registers:
            return history.registers[name].at(moment)
        return history.register(register_number(name), moment)

    def __setitem__(self, name: int | str, value: int) -> None:
        if isinstance(name, str) and "_" in name:
            raise KeyError(f"{name} can't be set: only registers of the present mode can")
        self._machine.set(**{f"R{register_number(name)}": value})

    def __len__(self) -> int:
        return 16

    def __iter__(self) -> Iterator[int]:
        return (self[number] for number in range(16))

    def __repr__(self) -> str:
        return " ".join(f"R{number}={value:08X}" for number, value in enumerate(self))


def register_number(name: int | str) -> int:
    """0 to 15; KeyError where there is no such register."""
    if isinstance(name, int):
        if not 0 <= name <= 15:
            raise KeyError(f"R{name} is no register: they are R0 to R15")
        return name
    text = WORDS.get(name.upper(), name.upper())
    if text[:1] == "R" and text[1:].isdigit() and int(text[1:]) <= 15:
        return int(text[1:])
    raise KeyError(f"{name!r} is no register: they are R0 to R15, SP, LR, PC and those of modes, as R13_svc")


@dataclass(frozen=True)
class Flags:
    """The flags, and the mode that stands beside them in the PSR. As text `nZCvif`, capitals are set."""

    N: bool
    Z: bool
    C: bool
    V: bool
    I: bool  # noqa: E741
    F: bool

    def __str__(self) -> str:
        return "".join(name if getattr(self, name) else name.lower() for name in "NZCVIF")


class Memory:
    """`m.mem[a]` is a byte, `m.mem[a:b]` bytes; both can be assigned. Unmapped: no memory is there."""

    def __init__(self, machine: Machine) -> None:
        self._machine = machine

    @overload
    def __getitem__(self, place: int) -> int: ...

    @overload
    def __getitem__(self, place: slice) -> bytes: ...

    def __getitem__(self, place: int | slice) -> int | bytes:
        if isinstance(place, slice):
            start, stop = self._range(place)
            return self.read(start, stop - start)
        return self.read(place, 1)[0]

    def __setitem__(self, place: int | slice, value: int | bytes) -> None:
        if isinstance(place, slice):
            start, stop = self._range(place)
            if isinstance(value, int) or len(value) != stop - start:
                raise ValueError(f"{stop - start} bytes are wanted")
            self.write(start, value)
        else:
            self.write(place, bytes([value]) if isinstance(value, int) else value)

    @staticmethod
    def _range(place: slice) -> tuple[int, int]:
        if place.start is None or place.stop is None or place.step not in (None, 1):
            raise IndexError("memory is asked for from an address up to another: m.mem[0x9000:0x9010]")
        return place.start, max(place.start, place.stop)

    def read(self, start: int, count: int) -> bytes:
        """So many bytes from an address on."""
        if count <= 0:
            return b""
        self._check(start, count)
        first = start & ~3
        words = b"".join(self._word(at).to_bytes(4, "little") for at in range(first, start + count, 4))
        return words[start - first:start - first + count]

    def word(self, at: int) -> int:
        """The word at an address that is a multiple of 4."""
        if at % 4:
            raise IndexError(f"&{at:X} is no multiple of 4")
        self._check(at, 4)
        return self._word(at)

    def text(self, at: int, most: int = 4096) -> str:
        """The bytes up to a zero, as text, and so many at most."""
        data = bytearray()
        while len(data) < most and (byte := self.read(at + len(data), 1)) != b"\0":
            data += byte
        return data.decode("latin-1")

    def write(self, start: int, data: bytes) -> None:
        """Puts bytes there, in words by POKE."""
        if not data:
            return
        first, end = start & ~3, (start + len(data) + 3) & ~3
        self._check(first, end - first)
        whole = bytearray(self.read(first, end - first))
        whole[start - first:start - first + len(data)] = data
        self._machine.lines(*(f"POKE &{first + at:X} &{int.from_bytes(whole[at:at + 4], 'little'):X}"
                              for at in range(0, len(whole), 4)))

    def mapped(self) -> list[tuple[int, int]]:
        """The ranges of memory that are mapped: address and bytes."""
        return self._machine.history.mapped(self._machine.moment)

    def _word(self, at: int) -> int:
        history, moment = self._machine.history, self._machine.moment
        if not history.is_known(at, moment):
            raise Unmapped(f"what is at &{at:X} isn't known: a step wrote more words than its record has")
        return history.word(at, moment)

    def _check(self, start: int, count: int) -> None:
        at = start
        for first, size in self.mapped():
            if first <= at < first + size:
                at = first + size
        if at < start + count or start < 0:
            raise Unmapped(f"no memory is mapped at &{max(at, start) & (ADDRESSES - 1):X}")


@dataclass(frozen=True)
class Block:
    """An item of a heap: its address and bytes, as HEAP has them. `address` is 4 above that: the program's."""

    item: int
    size: int
    is_live: bool

    @property
    def address(self) -> int:
        return self.item + 4

    def __str__(self) -> str:
        return f"{'live' if self.is_live else 'free'} {self.item:08X} {self.size}"


@dataclass(frozen=True)
class Heap:
    """A heap: where it starts, its base and end from there, and its items by address."""

    start: int
    base: int
    end: int
    items: tuple[Block, ...]

    @property
    def live(self) -> list[Block]:
        return [item for item in self.items if item.is_live]

    @property
    def free(self) -> list[Block]:
        return [item for item in self.items if not item.is_live]

    def __str__(self) -> str:
        return "\n".join([f"heap {self.start:08X} base {self.base} end {self.end}", *map(str, self.items)])

    def _repr_html_(self) -> str:
        from .notebook import heap_table
        return heap_table(self)


@dataclass(frozen=True)
class Area:
    """A dynamic area."""

    number: int
    base: int
    size: int
    most: int
    name: str


@dataclass(frozen=True)
class Instance:
    """An instance of a module: its name, where its private word is, and whether it is preferred."""

    name: str
    word: int
    preferred: bool


@dataclass(frozen=True)
class Module:
    """A module that is loaded."""

    title: str
    address: int
    length: int
    instances: tuple[Instance, ...]


@dataclass(frozen=True)
class FlexBlock:
    """A block of the flex store, by the address of its anchor."""

    anchor: int
    address: int
    size: int


@dataclass(frozen=True)
class Frame:
    """Module code that was entered and hasn't gone back."""

    number: int
    entry: str
    module: str
    instance: str
    swi: int | None
    caller: int | None


def escaped(text: str) -> str:
    """A text for HTML: signs that a browser would drop are shown by their numbers."""
    clean = "".join(sign if sign == "\n" or " " <= sign <= "~" or sign >= "\xa0" else f"\\x{ord(sign):02X}"
                    for sign in text)
    return html.escape(clean, quote=True)
