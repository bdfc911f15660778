"""Files: those given may be read, and what the program writes is kept as what it saved."""

from __future__ import annotations

import re
from dataclasses import dataclass
from typing import TYPE_CHECKING

from ..files import Library, read_bytes
from ..messages import Position
from .values import BasicError, Value, number_of
from .variables import real_bytes, real_from

if TYPE_CHECKING:
    from ..program import Program
    from .interpreter import Basic

LARGEST_FILE = 8 << 20


@dataclass
class OpenFile:
    """A file that is open: its bytes, and where the next is read or written."""

    name: str
    data: bytearray
    writes: bool
    position: Position
    pointer: int = 0


@dataclass
class SavedFile:
    """A file that the program saved: its bytes as a Program, and its type where it has one."""

    name: str
    program: Program
    type: int | None = None


def image_name(name: str, others: list[str]) -> str:
    """The last part of a file's name as a word that a block can have, and none of the others."""
    last = re.split(r"[.:]", name)[-1]
    word = "".join(sign if "!" <= sign <= "~" else "_" for sign in last) or "program"
    number, found = 1, word
    while found in others:
        number += 1
        found = f"{word}_{number}"
    return found


class Filing:
    """The files of a program that is run. None is written on the disc."""

    def __init__(self, basic: Basic) -> None:
        self.basic = basic
        self.library = Library(basic.options.files)
        self.open: dict[int, OpenFile] = {}
        self.saved: list[SavedFile] = []
        self.ranges: list[tuple[int, int]] = []  # memory that was saved

    def given(self, name: str, word: str) -> str:
        """The path of a file that was given on the command line."""
        if not name.strip():
            raise BasicError("this names no file", word)
        return self.library.find(name)

    def exists(self, name: str) -> bool:
        from ..files import fit, wanted_parts

        return any(fit(wanted_parts(name), path) for path in self.library.paths if wanted_parts(name))

    def _add(self, file: OpenFile) -> int:
        if len(self.open) >= 200:
            raise BasicError("more than 200 files are open", file.name)
        handle = 255
        while handle in self.open:
            handle -= 1
        self.open[handle] = file
        return handle

    def open_input(self, name: str, word: str) -> int:
        """OPENIN and OPENUP of a file that was given, or that the program wrote before."""
        for saved in self.saved:
            if saved.name == name:
                return self._add(
                    OpenFile(name, bytearray(saved.program.data), word == "OPENUP", self.basic.position())
                )
        data = read_bytes(self.given(name, word))
        return self._add(OpenFile(name, bytearray(data), word == "OPENUP", self.basic.position()))

    def open_output(self, name: str) -> int:
        """OPENOUT: a new file."""
        return self._add(OpenFile(name, bytearray(), True, self.basic.position()))

    def _file(self, handle: int) -> OpenFile:
        found = self.open.get(handle)
        if found is None:
            raise BasicError("no file is open by this number", f"#{handle}")
        return found

    def put(self, handle: int, data: bytes) -> None:
        """Writes bytes at the pointer."""
        file = self._file(handle)
        if not file.writes:
            raise BasicError("this file was opened for reading", f"#{handle}")
        end = file.pointer + len(data)
        if end > LARGEST_FILE:
            raise BasicError(f"the file has more than {LARGEST_FILE} bytes", file.name)
        if file.pointer > len(file.data):
            file.data.extend(bytes(file.pointer - len(file.data)))
        file.data[file.pointer : end] = data
        file.pointer = end

    def get_byte(self, handle: int) -> int:
        file = self._file(handle)
        if file.pointer >= len(file.data):
            raise BasicError("the file ends here", f"#{handle}")
        file.pointer += 1
        return file.data[file.pointer - 1]

    def get(self, handle: int, count: int) -> bytes:
        return bytes(self.get_byte(handle) for _ in range(count))

    def get_line(self, handle: int) -> str:
        """GET$#: characters up to the end of a line, 255 at most."""
        found = bytearray()
        while not self.at_end(handle) and len(found) < 255:
            byte = self.get_byte(handle)
            if byte in (0, 10, 13):
                break
            found.append(byte)
        return found.decode("latin-1")

    def at_end(self, handle: int) -> bool:
        file = self._file(handle)
        return file.pointer >= len(file.data)

    def extent(self, handle: int) -> int:
        return len(self._file(handle).data)

    def set_extent(self, handle: int, size: int) -> None:
        file = self._file(handle)
        if not file.writes or not 0 <= size <= LARGEST_FILE:
            raise BasicError(f"the file can't get {size} bytes", f"#{handle}")
        del file.data[size:]
        file.data.extend(bytes(size - len(file.data)))

    def pointer(self, handle: int) -> int:
        return self._file(handle).pointer

    def set_pointer(self, handle: int, place: int) -> None:
        file = self._file(handle)
        most = LARGEST_FILE if file.writes else len(file.data)
        if not 0 <= place <= most:
            raise BasicError(f"the file has no place {place}", f"#{handle}")
        file.pointer = place

    def print_value(self, handle: int, value: Value) -> None:
        """PRINT#: a value in BASIC's own form."""
        if isinstance(value, str):
            data = bytes((0, len(value))) + value.encode("latin-1", "replace")[::-1]
        elif isinstance(value, int):
            data = b"\x40" + (value & 0xFFFFFFFF).to_bytes(4, "big")
        else:
            data = b"\x80" + real_bytes(number_of(value))
        self.put(handle, data)

    def input_values(self) -> None:
        """INPUT#: values in BASIC's own form."""
        basic = self.basic
        handle = basic.integer()
        while basic.take(","):
            target = basic.place()
            target.set(basic, self._input_value(handle))

    def _input_value(self, handle: int) -> Value:
        kind = self.get_byte(handle)
        if kind == 0:
            return self.get(handle, self.get_byte(handle))[::-1].decode("latin-1")
        if kind == 0x40:
            return int.from_bytes(self.get(handle, 4), "big", signed=True)
        if kind == 0x80:
            return real_from(self.get(handle, 5))
        raise BasicError(f"&{kind:X} begins no value as PRINT# writes it", "INPUT#")

    def close(self, handle: int) -> None:
        """CLOSE#; 0 closes all. What was written is saved."""
        if handle == 0:
            for number in sorted(self.open, reverse=True):
                self.close(number)
            return
        file = self._file(handle)
        del self.open[handle]
        if file.writes:
            self.keep_bytes(file.name, bytes(file.data), file.position)

    def keep_bytes(self, name: str, data: bytes, position: Position) -> None:
        """Keeps a file that was written byte by byte: it has no addresses."""
        from ..program import Program, Row

        rows = [Row(0, len(data), position)] if data else []
        self.keep(name, Program(0, data, rows=rows))

    def keep(self, name: str, program: Program, file_type: int | None = None) -> None:
        """Keeps a saved file; one of the same name before it is gone, as on a disc."""
        program.name = image_name(name, [saved.program.name for saved in self.saved if saved.name != name])
        self.saved = [saved for saved in self.saved if saved.name != name]
        self.saved.append(SavedFile(name, program, file_type))

    def set_type(self, name: str, file_type: int) -> None:
        for saved in self.saved:
            if saved.name.lower() == name.lower():
                saved.type = file_type
                return
        self.basic.pass_over("nothing is done: the program saved no file of this name", name)

    def save(self, name: str, start: int, end: int, word: str, file_type: int | None = None) -> None:
        """Saves memory from start up to end."""
        if end <= start:
            raise BasicError(
                f"it saves no bytes: from &{start & 0xFFFFFFFF:X} to &{end & 0xFFFFFFFF:X}", word
            )
        if end - start > LARGEST_FILE:
            raise BasicError(f"it saves {end - start} bytes, and {LARGEST_FILE} are the most", word)
        self.ranges.append((start, end))
        self.keep(name, self.basic.assembly.image(start, end), file_type)

    def load(self, name: str, address: int, word: str) -> int:
        """Loads a file that was given into memory; how many bytes it has."""
        data = read_bytes(self.given(name, word))
        self.basic.memory.write(address, data)
        return len(data)

    def finish(self) -> None:
        """Files that are still open when the program ends are kept, with a warning."""
        for handle, file in sorted(self.open.items(), reverse=True):
            if file.writes and file.data:
                self.basic.messages.warn(
                    file.position, "the file isn't closed; its bytes are taken", file.name
                )
                self.keep_bytes(file.name, bytes(file.data), file.position)
        self.open.clear()
