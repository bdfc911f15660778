"""Random instructions, drawn as operations and spelt twice: as ObjAsm has them and as GNU as has them.

The two writers share nothing but what was drawn.
"""

from __future__ import annotations

import random
import shutil
import subprocess
from dataclasses import dataclass, field
from pathlib import Path

CONDITIONS = ["EQ", "NE", "CS", "CC", "MI", "PL", "VS", "VC", "HI", "LS", "GE", "LT", "GT", "LE", "", "", ""]
DATA = ["AND", "EOR", "SUB", "RSB", "ADD", "ADC", "SBC", "RSC", "ORR", "BIC"]
TESTS = ["TST", "TEQ", "CMP", "CMN"]
MOVES = ["MOV", "MVN"]
NAMES = {0: ["a1"], 1: ["a2"], 2: ["a3"], 3: ["a4"], 4: ["v1"], 5: ["v2"], 6: ["v3"], 7: ["v4"], 8: ["v5"],
         9: ["v6"], 10: ["sl"], 11: ["fp"], 12: ["ip"], 13: ["sp"], 14: ["lr"], 15: ["pc"]}


@dataclass
class Drawn:
    """One instruction: what it does, and no text."""

    kind: str
    name: str
    condition: str
    flags: bool = False
    registers: list[int] = field(default_factory=list)
    number: int | None = None
    rotation: int | None = None
    shift: tuple[str, int | None, int | None] | None = None  # name, amount, register
    byte: bool = False
    user: bool = False
    before: bool = True
    writes: bool = False
    up: bool = True
    mode: str = ""
    listed: list[int] = field(default_factory=list)
    hat: bool = False


def draw(rng: random.Random) -> Drawn:
    """One random instruction that both assemblers have."""
    kind = rng.choice(["data", "data", "data", "move", "test", "mul", "transfer", "transfer", "block",
                       "branch", "swi", "adr", "near"])
    condition = rng.choice(CONDITIONS)
    return {"data": draw_data, "move": draw_data, "test": draw_data, "mul": draw_multiply,
            "transfer": draw_transfer, "block": draw_block}.get(kind, draw_other)(rng, kind, condition)


def rotated_byte(rng: random.Random) -> int:
    turn, byte = 2 * rng.randrange(16), rng.randrange(256)
    return (byte >> turn | byte << 32 - turn) & 0xFFFFFFFF


def draw_operand(rng: random.Random, drawn: Drawn, opposite: str) -> None:
    """The last operand: a number or a register that is shifted."""
    choice = rng.randrange(10)
    if choice < 4:
        value = rotated_byte(rng)
        if opposite and rng.randrange(3) == 0:
            value = ~value if opposite == "not" else -value
        drawn.number = value & 0xFFFFFFFF
        return
    if choice == 4:
        drawn.number, drawn.rotation = rng.randrange(256), 2 * rng.randrange(16)
        return
    drawn.registers.append(rng.randrange(15))
    if choice > 6:
        name = rng.choice(["LSL", "LSR", "ASR", "ROR", "RRX"])
        if name == "RRX":
            drawn.shift = (name, None, None)
        elif rng.randrange(2):
            drawn.shift = (name, rng.randint(1, 32 if name in ("LSR", "ASR") else 31), None)
        else:
            drawn.shift = (name, None, rng.randrange(15))


def draw_data(rng: random.Random, kind: str, condition: str) -> Drawn:
    name = rng.choice({"data": DATA, "move": MOVES, "test": TESTS}[kind])
    drawn = Drawn(kind, name, condition, flags=kind != "test" and rng.randrange(3) == 0)
    drawn.registers = [rng.randrange(16) for _ in range(2 if kind == "data" else 1)]
    if kind == "test" and rng.randrange(5) == 0:
        drawn.user = True  # P
    opposite = {"MOV": "not", "MVN": "not", "AND": "not", "BIC": "not", "ADC": "not", "SBC": "not",
                "ADD": "minus", "SUB": "minus", "CMP": "minus", "CMN": "minus"}.get(name, "")
    if kind == "data" and name in ("ADD", "SUB") and drawn.registers[1] == 15:
        drawn.registers[1] = 14  # GNU as takes ADD rd,pc,#n for an ADR and turns n's sign
    draw_operand(rng, drawn, opposite)
    return drawn


def draw_multiply(rng: random.Random, kind: str, condition: str) -> Drawn:
    name = rng.choice(["MUL", "MLA"])
    target, first = rng.sample(range(15), 2)
    registers = [target, first, rng.randrange(15)] + ([rng.randrange(15)] if name == "MLA" else [])
    return Drawn(kind, name, condition, flags=rng.randrange(2) == 0, registers=registers)


def draw_transfer(rng: random.Random, kind: str, condition: str) -> Drawn:
    drawn = Drawn(kind, rng.choice(["LDR", "STR"]), condition, byte=rng.randrange(2) == 0)
    target, base, index = rng.sample(range(15), 3)
    drawn.before = rng.randrange(2) == 0
    drawn.writes = drawn.before and rng.randrange(3) == 0
    drawn.user = not drawn.before and rng.randrange(4) == 0
    drawn.registers = [target, base]
    if rng.randrange(2):
        drawn.number = rng.randint(-4095, 4095)
    else:
        drawn.registers.append(index)
        drawn.up = rng.randrange(2) == 0
        if rng.randrange(2):
            name = rng.choice(["LSL", "LSR", "ASR", "ROR", "RRX"])
            most = 32 if name in ("LSR", "ASR") else 31
            drawn.shift = (name, None if name == "RRX" else rng.randint(1, most), None)
    return drawn


def draw_block(rng: random.Random, kind: str, condition: str) -> Drawn:
    name = rng.choice(["LDM", "STM"])
    drawn = Drawn(kind, name, condition, registers=[rng.randrange(15)])
    drawn.mode = rng.choice(["IA", "IB", "DA", "DB", "FD", "FA", "ED", "EA"])
    drawn.listed = sorted(rng.sample(range(16), rng.randint(1, 10)))
    drawn.writes = rng.randrange(2) == 0
    drawn.hat = rng.randrange(4) == 0 and not drawn.writes
    return drawn


def draw_other(rng: random.Random, kind: str, condition: str) -> Drawn:
    if kind == "branch":
        return Drawn(kind, rng.choice(["B", "BL"]), condition, number=4 * rng.randint(-1000, 1000))
    if kind == "swi":
        return Drawn(kind, "SWI", condition, number=rng.randrange(1 << 24))
    if kind == "adr":
        return Drawn(kind, "ADR", condition, registers=[rng.randrange(15)], number=4 * rng.randint(-250, 250))
    return Drawn(kind, rng.choice(["LDR", "STR"]), condition, registers=[rng.randrange(15)],
                 byte=rng.randrange(3) == 0, number=rng.randint(-4000, 4000))


class ObjAsmWriter:
    """Spells an instruction for ObjAsm, in any of its ways."""

    def __init__(self, rng: random.Random) -> None:
        self.rng = rng

    def space(self) -> str:
        return self.rng.choice(["", "", " ", "  ", "\t"])

    def comma(self) -> str:
        return self.space() + "," + self.space()

    def register(self, number: int) -> str:
        name = self.rng.choice([f"r{number}", f"R{number}"] + NAMES[number])
        return name.upper() if self.rng.randrange(4) == 0 else name

    def number(self, value: int) -> str:
        if value < 0:
            return "-" + self.space() + self.whole(-value)
        choice = self.rng.randrange(7)
        if choice == 0:
            return f"&{value:X}"
        if choice == 1:
            return f"0x{value:x}"
        if choice == 2:
            return f"2_{value:b}"
        if choice == 3 and value > 3:
            part = self.rng.randrange(value)
            return f"{part}{self.space()}+{self.space()}&{value - part:x}"
        if choice == 4 and value and value & value - 1 == 0:
            return f"1:SHL:{value.bit_length() - 1}"
        return str(value)

    def whole(self, value: int) -> str:
        """A number behind a sign: a sum stands in parentheses."""
        text = self.number(value)
        return text if text.replace("&", "").isalnum() else f"({text})"

    def mnemonic(self, name: str, condition: str, ending: str) -> str:
        condition = {"CS": self.rng.choice(["CS", "HS"]), "CC": self.rng.choice(["CC", "LO"]),
                     "": self.rng.choice(["", "", "AL"])}.get(condition, condition)
        swap = ending and self.rng.randrange(4) == 0 and not (ending == "P" and condition == "LS")
        word = name + (ending + condition if swap else condition + ending)
        return word.lower() if self.rng.randrange(3) == 0 else word

    def shift(self, shift: tuple[str, int | None, int | None]) -> str:
        name, amount, register = shift
        if name == "RRX":
            return "RRX"
        if name == "LSL":
            name = self.rng.choice(["LSL", "ASL"])
        name = name.lower() if self.rng.randrange(3) == 0 else name
        if register is not None:
            return f"{name} {self.register(register)}"
        return f"{name}{self.space()}#{self.space()}{self.number(amount or 0)}"

    def operand(self, drawn: Drawn) -> str:
        if drawn.number is not None:
            value = drawn.number
            if drawn.rotation is not None:
                return f"#{self.number(value)}{self.comma()}{drawn.rotation}"
            if value >> 31 and self.rng.randrange(2):
                value -= 1 << 32
            return f"#{self.space()}{self.number(value)}"
        text = self.register(drawn.registers[-1])
        return text + (self.comma() + self.shift(drawn.shift) if drawn.shift else "")

    def text(self, drawn: Drawn) -> str:
        return " " + getattr(self, drawn.kind)(drawn) + self.rng.choice(["", " ; comment", ""])

    def data(self, drawn: Drawn) -> str:
        target, first = drawn.registers[:2]
        parts = [self.register(target)]
        if target != first or self.rng.randrange(2):
            parts.append(self.register(first))
        parts.append(self.operand(drawn))
        return f"{self.mnemonic(drawn.name, drawn.condition, 'S' * drawn.flags)} {self.comma().join(parts)}"

    def move(self, drawn: Drawn) -> str:
        ending = "S" if drawn.flags else ""
        return (f"{self.mnemonic(drawn.name, drawn.condition, ending)} "
                f"{self.register(drawn.registers[0])}{self.comma()}{self.operand(drawn)}")

    def test(self, drawn: Drawn) -> str:
        ending = "P" if drawn.user else self.rng.choice(["", "S"])
        return (f"{self.mnemonic(drawn.name, drawn.condition, ending)} "
                f"{self.register(drawn.registers[0])}{self.comma()}{self.operand(drawn)}")

    def mul(self, drawn: Drawn) -> str:
        return (f"{self.mnemonic(drawn.name, drawn.condition, 'S' if drawn.flags else '')} "
                + self.comma().join(self.register(number) for number in drawn.registers))

    def transfer(self, drawn: Drawn) -> str:
        word = self.mnemonic(drawn.name, drawn.condition, "B" * drawn.byte + "T" * drawn.user)
        target, base = drawn.registers[:2]
        if drawn.number is not None:
            offset = f"#{self.space()}{self.number(drawn.number)}"
        else:
            sign = self.rng.choice(["", "+"]) if drawn.up else "-"
            offset = sign + self.register(drawn.registers[2])
            offset += self.comma() + self.shift(drawn.shift) if drawn.shift else ""
        front = f"{word} {self.register(target)}{self.comma()}[{self.space()}{self.register(base)}"
        front += self.space()
        if not drawn.before:
            return f"{front}]{self.comma()}{offset}"
        return f"{front},{self.space()}{offset}{self.space()}]" + (self.space() + "!" if drawn.writes else "")

    def block(self, drawn: Drawn) -> str:
        parts, rest = [], list(drawn.listed)
        while rest:
            last = 0
            while last + 1 < len(rest) and rest[last + 1] == rest[last] + 1 and self.rng.randrange(4):
                last += 1
            first, end = self.register(rest[0]), self.register(rest[last])
            parts.append(first if last == 0 else f"{first}{self.space()}-{self.space()}{end}")
            rest = rest[last + 1:]
        word = self.mnemonic(drawn.name, drawn.condition, drawn.mode)
        return (f"{word} {self.register(drawn.registers[0])}{self.space()}{'!' if drawn.writes else ''}"
                f"{self.comma()}{{{self.space()}{self.comma().join(parts)}}}{self.space()}{'^' * drawn.hat}")

    def here(self, drawn: Drawn) -> str:
        value = drawn.number or 0
        place = self.rng.choice([".", "{PC}"])
        return f"{place}{self.space()}{'-' if value < 0 else '+'}{self.space()}{self.whole(abs(value))}"

    def branch(self, drawn: Drawn) -> str:
        return f"{self.mnemonic(drawn.name, drawn.condition, '')} {self.here(drawn)}"

    def swi(self, drawn: Drawn) -> str:
        return f"{self.mnemonic(drawn.name, drawn.condition, '')} {self.number(drawn.number or 0)}"

    def adr(self, drawn: Drawn) -> str:
        return (f"{self.mnemonic(drawn.name, drawn.condition, '')} "
                f"{self.register(drawn.registers[0])}{self.comma()}{self.here(drawn)}")

    def near(self, drawn: Drawn) -> str:
        word = self.mnemonic(drawn.name, drawn.condition, "B" * drawn.byte)
        return f"{word} {self.register(drawn.registers[0])}{self.comma()}{self.here(drawn)}"


def gnu_text(drawn: Drawn) -> str:
    """The same instruction as GNU as has it, in divided syntax."""
    name, regs = drawn.name.lower() + drawn.condition.lower(), [f"r{number}" for number in drawn.registers]
    here = f".{drawn.number or 0:+d}"
    if drawn.kind in ("data", "move", "test"):
        ending = "p" if drawn.user else "s" if drawn.flags else ""
        fixed = 2 if drawn.kind == "data" else 1
        return f"\t{name}{ending}\t{', '.join(regs[:fixed] + [gnu_operand(drawn, regs)])}"
    if drawn.kind == "mul":
        return f"\t{name}{'s' if drawn.flags else ''}\t{', '.join(regs)}"
    if drawn.kind == "transfer":
        word = name + ("b" if drawn.byte else "") + ("t" if drawn.user else "")
        offset = f"#{drawn.number}" if drawn.number is not None else \
            ("" if drawn.up else "-") + regs[2] + gnu_shift(drawn)
        inside = f"[{regs[1]}, {offset}]{'!' if drawn.writes else ''}" if drawn.before else \
            f"[{regs[1]}], {offset}"
        return f"\t{word}\t{regs[0]}, {inside}"
    if drawn.kind == "block":
        listed = ", ".join(f"r{number}" for number in drawn.listed)
        return (f"\t{name}{drawn.mode.lower()}\t{regs[0]}{'!' if drawn.writes else ''}, "
                f"{{{listed}}}{'^' if drawn.hat else ''}")
    if drawn.kind == "swi":
        return f"\t{name}\t{drawn.number}"
    if drawn.kind == "branch":
        return f"\t{name}\t{here}"
    return f"\t{name}{'b' if drawn.byte else ''}\t{regs[0]}, {here}"


def gnu_operand(drawn: Drawn, regs: list[str]) -> str:
    if drawn.number is not None:
        rotation = f", {drawn.rotation}" if drawn.rotation is not None else ""
        return f"#{drawn.number}{rotation}"
    return regs[-1] + gnu_shift(drawn)


def gnu_shift(drawn: Drawn) -> str:
    if drawn.shift is None:
        return ""
    name, amount, register = drawn.shift
    if name == "RRX":
        return ", rrx"
    return f", {name.lower()} " + (f"r{register}" if register is not None else f"#{amount}")


def gnu_bytes(text: str, folder: Path, origin: int = 0x8000) -> bytes:
    """What GNU as and ld make of a text."""
    source = folder / "gnu.s"
    source.write_text("\t.arch armv2\n\t.syntax divided\n\t.text\n\t.global _start\n_start:\n" + text)
    run = lambda *words: subprocess.run(words, check=True, capture_output=True)  # noqa: E731
    run("arm-none-eabi-as", "-W", "-march=armv2", "-o", str(folder / "gnu.o"), str(source))
    run("arm-none-eabi-ld", "-Ttext", hex(origin), "-o", str(folder / "gnu.elf"), str(folder / "gnu.o"))
    run("arm-none-eabi-objcopy", "-O", "binary", str(folder / "gnu.elf"), str(folder / "gnu.bin"))
    return (folder / "gnu.bin").read_bytes()


HAS_GNU = shutil.which("arm-none-eabi-as") is not None
