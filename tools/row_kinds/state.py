"""The core of a machine as REGS and BANKS print it, and items that name parts of it."""
import re
from dataclasses import dataclass

from row_kinds.script import RowError

FLAGS = "NZCVIF"
MODES = ("USR", "FIQ", "IRQ", "SVC")
# the first register that each mode has for itself
OWN = {"USR": 8, "FIQ": 8, "IRQ": 13, "SVC": 13}
NAMES = {f"R{number}" for number in range(16)} | {"PC"}
NAMES |= {f"R{number}_{mode.lower()}" for mode in MODES for number in range(OWN[mode], 15)}


@dataclass
class State:
    """The registers of all modes by their names in BANKS, R0 to R7 and PC; flags and mode."""

    registers: dict[str, int]
    flags: str
    mode: str
    # some that REGS shows of the present mode
    seen: dict[str, int]

    @staticmethod
    def of(answer: str) -> "State":
        """Reads what REGS and BANKS print."""
        printed = re.findall(r"\b(R\d+(?:_\w+)?) +([0-9A-F]{8})\b", answer)
        status = re.search(r"^PSR (\w{6}) (\w{3})$", answer, re.M)
        if not status:
            raise RowError(f"REGS prints {answer!r}")
        shown = {name: int(value, 16) for name, value in printed}
        registers = {name: shown[name] for name in shown if "_" in name or int(name[1:]) < 8}
        registers["PC"] = shown["R15"] & 0x03FFFFFC
        seen = {f"R{number}": shown[f"R{number}"] for number in range(8, 15)}
        return State(registers, status[1], status[2], seen)

    def bank(self, name: str) -> str:
        """The name that a register, as the present mode sees it, has in BANKS."""
        number = int(name[1:])
        if number < 8:
            return name
        return f"{name}_{self.mode.lower() if number >= OWN[self.mode] else 'usr'}"

    def take(self, items: list[str]) -> None:
        """Changes what the items name, but words of memory: the mode first."""
        for item in sorted(items, key=lambda item: not (item in MODES or item.startswith("R15="))):
            name, equals, value = item.partition("=")
            if item in MODES:
                self.mode = item
            elif not equals:
                named = {letter.upper(): letter for letter in item}
                self.flags = "".join(named.get(own.upper(), own) for own in self.flags)
            elif name == "R15":
                bits = int(value, 16)
                set_here = [bool(bits >> 31 - place & 1) for place in range(6)]
                self.flags = "".join(f if s else f.lower() for f, s in zip(FLAGS, set_here))
                self.mode = MODES[bits & 3]
                self.registers["PC"] = bits & 0x03FFFFFC
            elif not name.startswith("["):
                bank = name if "_" in name or name == "PC" else self.bank(name)
                self.registers[bank] = int(value, 16)

    def differences(self, wanted: "State") -> list[str]:
        """What is otherwise than it should be."""
        found = []
        for name, value in self.registers.items():
            if value != wanted.registers[name]:
                found.append(f"{name} is {value:08X}, not {wanted.registers[name]:08X}")
        for name, value in self.seen.items():
            if value != self.registers[self.bank(name)]:
                found.append(f"REGS and BANKS print different words of {name}")
        if (self.flags, self.mode) != (wanted.flags, wanted.mode):
            status = f"{wanted.flags} {wanted.mode}"
            found.append(f"PSR is {self.flags} {self.mode}, not {status}")
        return found


def checked(items: list[str]) -> list[str]:
    """The items, if each has its form."""
    for item in items:
        name, equals, value = item.partition("=")
        letters = item.upper()
        if equals:
            is_known = name in NAMES or bool(re.fullmatch(r"\[[0-9A-F]+\]", name))
            is_item = is_known and bool(re.fullmatch(r"[0-9A-F]{1,8}", value))
        else:
            is_flags = set(letters) <= set(FLAGS) and len(set(letters)) == len(letters) > 0
            is_item = item in MODES or is_flags
        if not is_item:
            raise RowError(f"`{item}` is no item")
    return items


def set_line(item: str) -> str:
    """The line that sets what an item names."""
    name, equals, value = item.partition("=")
    if not equals:
        return f"SET PSR {item}"
    return f"POKE &{name[1:-1]} &{value}" if name.startswith("[") else f"SET {name} &{value}"
