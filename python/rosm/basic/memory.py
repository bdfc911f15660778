"""The memory that a listing sees: blocks of DIM, and the bytes that it lays and pokes there."""

from __future__ import annotations

from dataclasses import dataclass

from .values import BasicError

HEAP = 0x8F00  # where DIM begins unless an option says otherwise
HIGHEST = 1 << 26  # the end of the ARM2's addresses
LARGEST = 8 << 20  # bytes that all blocks may take together


@dataclass(frozen=True)
class Block:
    """What DIM name size gave: its address, its bytes (one more than the number) and its name."""

    address: int
    size: int
    name: str

    def has(self, address: int) -> bool:
        return self.address <= address < self.address + self.size


class Memory:
    """Bytes from the heap's start on. Elsewhere is nothing that a listing may read or write."""

    def __init__(self, heap: int = HEAP, size: int = LARGEST) -> None:
        if heap & 3 or not 0 < heap <= HIGHEST - size:
            raise BasicError(
                f"the heap can't begin at &{heap:X}: it wants a multiple of 4 below" f" &{HIGHEST - size:X}"
            )
        self.heap = heap
        self.top = heap  # where the next block of DIM begins
        self.limit = heap + size  # the end of all memory
        self.himem = self.limit  # what lies above is the program's own, and no DIM takes it
        self.bytes = bytearray()
        self.blocks: list[Block] = []
        self.starts: dict[int, Block] = {}  # blocks by their addresses
        self.last_block: Block | None = None  # in which bytes were laid

    def dim(self, size: int, name: str) -> int:
        """A block of `size` + 1 bytes at a multiple of 4; -1 takes nothing and shows the place."""
        if size < -1:
            raise BasicError(f"DIM can't take {size + 1} bytes", name)
        address = self.top
        if address + size + 1 > self.himem:
            raise BasicError(f"no room for {size + 1} bytes: {LARGEST} are the most", name)
        if size >= 0:
            block = self.starts[address] = Block(address, size + 1, name)
            self.blocks.append(block)
            self.top = address + (size + 4 & ~3)
        return address

    def check_block(self, address: int, size: int, goes_on: bool) -> None:
        """An error where bytes that are laid go on behind their block: other variables stand there.

        `goes_on` says that the bytes before were laid just now.
        """
        block = self.last_block
        if block and block.address < address and address + size <= block.address + block.size:
            return
        block = self.block_at(address - 1) if goes_on else None
        block = self.last_block = block or self.block_at(address)
        if block and address + size > block.address + block.size:
            raise BasicError(
                f"the bytes go on behind the block {block.name}, to which DIM gave {block.size} bytes"
            )

    def block_at(self, address: int) -> Block | None:
        """The block in which an address lies."""
        for block in self.blocks:
            if block.has(address):
                return block
        return None

    def _offset(self, address: int, size: int, does: str) -> int:
        address &= 0xFFFFFFFF
        if not (self.heap <= address and address + size <= self.limit):
            raise BasicError(
                f"the program {does} &{address:X}, and no DIM gave it that memory"
                f" (it has &{self.heap:X} to &{self.limit:X}; what is assembled for another place"
                " is laid by OPT with bit 2, at O%)"
            )
        offset = address - self.heap
        if offset + size > len(self.bytes):
            self.bytes.extend(bytes(max(4096, offset + size - len(self.bytes))))
        return offset

    def read(self, address: int, size: int) -> bytes:
        """Bytes from an address on."""
        offset = self._offset(address, size, "reads")
        return bytes(self.bytes[offset : offset + size])

    def write(self, address: int, data: bytes) -> None:
        """Stores bytes from an address on."""
        offset = self._offset(address, len(data), "writes at")
        self.bytes[offset : offset + len(data)] = data

    def word(self, address: int) -> int:
        """A word at any address, as `!` reads it."""
        return int.from_bytes(self.read(address, 4), "little", signed=True)

    def text(self, address: int) -> str:
        """What `$` reads: up to a carriage return, 255 bytes at most."""
        found = bytearray()
        while len(found) < 255:
            byte = self.read(address + len(found), 1)
            if byte == b"\r":
                break
            found += byte
        return found.decode("latin-1")
