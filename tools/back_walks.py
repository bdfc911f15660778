"""What tools/back_beside_steps compares: lines with their answers, beside the same done one step at a time."""
from __future__ import annotations

import re
from dataclasses import dataclass, field

import back_scripts
from back_scripts import Script

# how many steps a line may take
BUDGET = 40
# a line that always fails, and so ends what another is answered
MARK = "EXPECT STEPS 4294967295"
# FRAMES names registers too, so it comes before the views that are read
SHOWN = ["WHERE", "FRAMES", "REGS", "BANKS", "WORDS &9000 8", "WORDS &B000 12", "WORDS &8000 8", "HEAP &B000", "AREAS"]
SHOWN += ["MODULES", "FLEX", "STACK 4"]
# what comes behind the registers
FIRST_WORD = "\n00009000: "
NO_HISTORY = "refused NoHistory\n"
MODES = ("USR", "FIQ", "IRQ", "SVC")
PSR = re.compile(r"^PSR (\w{6}) (\w+)$", re.M)
REGISTER = re.compile(r"(R\d+(?:_\w+)?) +([0-9A-F]{8})")
LIVE = re.compile(r"^live ([0-9A-F]{8}) (\d+)$", re.M)
# what an address may stand behind
PLACED = re.compile(r"(?:BACK UNTIL|(?:TRACE )?GOSUB|LAST (?:CHANGE(?: WORD| BYTE| BLOCK)?|CLAIM|FREE)) (\S+)")
# what LAST CHANGE takes for no address
NO_ADDRESS = re.compile(r"R\d+(_\w+)?|SP|LR|FLAGS")


@dataclass
class Unit:
    """A step, or a change from outside, by a line, and the line STUB in force; what was answered, shown and read of
    memory behind it."""

    line: int
    text: str
    count: int
    at: int | None = None
    is_fault: bool = False
    stub: str = ""
    parts: list[str] = field(default_factory=list)
    registers: dict[str, str] = field(default_factory=dict)

    def read(self) -> dict[str, str]:
        if not self.registers:
            shown = self.parts[1].partition(FIRST_WORD)[0]
            self.registers = dict(REGISTER.findall(shown))
            flags, mode = PSR.findall(shown)[0]
            bits = sum(1 << 31 - place for place, letter in enumerate("NZCVIF") if flags[place] == letter)
            self.registers |= {"mode": mode, "FLAGS": f"{bits + MODES.index(mode):08X}"}
        return self.registers

    @property
    def is_step(self) -> bool:
        return self.count > 0 or self.is_fault

    @property
    def trace(self) -> str:
        """What TRACE shows of a step: all but the last line, which says how it ended."""
        lines = self.parts[0].splitlines(keepends=True)
        return "".join(lines[:-1])

    def block(self, address: int) -> str:
        """The live block of the heap at &B000 that has a byte, its length included."""
        items = ((int(found[1], 16), int(found[2])) for found in LIVE.finditer(self.parts[1]))
        return next((f"{at:08X}" for at, size in items if at <= address < at + size), "none")

    def register(self, number: int, mode: str) -> str:
        known = self.read()
        if number < 8:
            return known[f"R{number}"]
        banked = number > 12 or (mode == "FIQ" and number > 7)
        return known[f"R{number}_{mode.lower() if banked else 'usr'}"]

    @property
    def pc(self) -> int:
        return int(self.read()["R15"], 16) & 0x3FFFFFC


@dataclass
class Entry:
    """A line that was asked, where an address it names stands, and what has to be compared of it: what was done
    before it and behind it, and what lay ahead then."""

    text: str
    number: int
    address: int | None = None
    before: str = ""
    answer: str = ""
    when: str = ""
    shown: str = ""
    path: list[Unit] = field(default_factory=list)
    ahead: list[Unit] = field(default_factory=list)
    now: list[Unit] = field(default_factory=list)
    left: list[Unit] = field(default_factory=list)
    is_known: bool = True


def typed(script: Script) -> list[str]:
    """What begins a script: a fresh machine, and its program."""
    return [*back_scripts.AS_BEFORE, "RESET", "FORGET q", "FORGET p", "ASM p &8000", *script.program, "END"]


def place_named(text: str) -> str | None:
    """The word of a line that names an address, if one does."""
    found = PLACED.fullmatch(text)
    if not found or text.startswith("LAST CHANGE ") and NO_ADDRESS.fullmatch(found[1]):
        return None
    return found[1]


class Singles:
    """What is typed without lines that go back, one step at a time."""

    def __init__(self) -> None:
        self.lines = [*back_scripts.MODULES]
        self.count = 0
        self.read: list[str] = []
        self.stub = ""

    def begin(self, script: Script, read: list[str]) -> Unit:
        """A script whose memory is read so; the unit before all that is done."""
        self.read = read
        self.lines += typed(script)
        self.stub = ""
        return self.done(Unit(0, "RESET", 0))

    def stub_lines(self, stub: str) -> list[str]:
        """The lines after which that stub alone is set."""
        lines = [] if stub == self.stub else ["UNSTUB 6", *([stub] if stub else [])]
        self.stub = stub
        return lines

    def done(self, unit: Unit) -> Unit:
        text = f"TRACE {unit.text}" if unit.is_step else unit.text
        if lines := self.stub_lines(unit.stub):
            self.lines += [*lines, MARK]
            self.count += 1
        self.lines += [text, MARK, *SHOWN, MARK, *self.read, MARK]
        unit.at = self.count
        self.count += 3
        return unit

    def stand(self, path: list[Unit]) -> None:
        """Stands behind these units, which begin with a fresh machine."""
        self.lines += [line for unit in path for line in [*self.stub_lines(unit.stub), unit.text]]
        self.lines.append(MARK)
        self.count += 1


def since_made(path: list[Unit]) -> list[Unit]:
    """What was done since the machine was made last."""
    made = max(place for place, unit in enumerate(path) if unit.text == "RESET")
    return path[made:]


def steps_of(path: list[Unit]) -> int:
    return sum(unit.count for unit in path)


def until(path: list[Unit], step: int) -> list[Unit]:
    kept, count = [], 0
    for unit in path:
        count += unit.count
        if count > step:
            break
        kept.append(unit)
    return kept


def routine_units(entry: Entry, taken: int, is_faulted: bool) -> list[Unit]:
    """What GOSUB did: R14 and the place are set, and set as they were where the routine has come back."""
    number, before = entry.number, dict(REGISTER.findall(entry.before))
    flags, mode = PSR.findall(entry.before)[0]
    bits = sum(1 << 31 - place for place, letter in enumerate("NZCVIF") if flags[place] == letter) + MODES.index(mode)
    units = [Unit(number, f"SET R14 &{bits + 0x3FFFFFC:X}", 0), Unit(number, f"SET PC &{entry.address:X}", 0)]
    units += [Unit(number, "STEP 1", 1) for _ in range(taken)]
    if is_faulted:
        units.append(Unit(number, "STEP 1", 0, is_fault=True))
    # what the guest printed may stand before it on its line
    if re.search(r"returned after \d+ steps?\n\Z", entry.answer):
        at = int(before["R15"], 16) & 0x3FFFFFC
        units += [Unit(number, f"SET R14 &{before['R14']}", 0), Unit(number, f"SET PC &{at:X}", 0)]
    return units


def units_of(entry: Entry, taken: int, is_halted: bool) -> list[Unit]:
    """What a line did that took so many steps, of a machine that a fault had halted or not."""
    number, text = entry.number, entry.text
    if entry.answer.startswith("? line"):
        return []
    if back_scripts.is_change(text):
        if "PC" in text.split() and entry.answer:
            return []
        if back_scripts.is_bytes(text) and entry.answer.startswith("refused"):
            return []
        found = re.match(r"REPEAT (\d+) (.*)", text)
        return [Unit(number, found[2] if found else text, 0) for _ in range(int(found[1]) if found else 1)]
    stops = re.findall(r"stop (\w+)", entry.answer)
    is_faulted = bool(stops) and stops[-1] not in ("Exit", "Budget", "Break", "Watch")
    if back_scripts.is_routine(text) and (taken or is_faulted) and not is_halted:
        return routine_units(entry, taken, is_faulted)
    if back_scripts.is_call(text):
        first = Unit(number, back_scripts.plain(text), min(taken, 1), is_fault=not taken)
        units = [first] if taken or is_faulted else []
        rest = taken - 1
        is_faulted = is_faulted and taken > 0
    else:
        # a line that took no step is one that can be undone all the same
        units, rest = [] if taken or is_faulted else [Unit(number, "", 0)], taken
    units += [Unit(number, "STEP 1", 1) for _ in range(rest)]
    return [*units, Unit(number, "STEP 1", 0, is_fault=True)] if is_faulted else units


class Walk:
    """A script whose answers are known, beside its steps one by one."""

    def __init__(self, entries: list[Entry], singles: Singles, script: Script) -> None:
        words = sorted({place & ~3 for entry in entries if (place := entry.address) is not None})
        self.read = [f"MEM &{word:X} 4" for word in words]
        self.singles = singles
        self.is_known, self.stub = True, ""
        self.path = [singles.begin(script, self.read)]
        self.ahead: list[Unit] = []
        self.is_there = True
        self.entries = entries
        self.wrong: list[str] = []
        for entry in entries:
            self.walk(entry)
            entry.now, entry.left, entry.is_known = [*self.path], [*self.ahead], self.is_known

    def walk(self, entry: Entry) -> None:
        text = entry.text
        entry.path, entry.ahead = [*self.path], [*self.ahead]
        total = steps_of(self.path)
        if text == "RESET" and not self.is_known:
            self.begin()
        elif text in back_scripts.LOSING:
            # the past of a machine that stands as it was made begins with an image that is added
            # nor does a block whose name is taken, as `asm q: NameTaken`, change the images
            if not re.match(r"refused|(asm|hex) \S+: [A-Z]", entry.answer):
                self.is_known = self.is_known and self.path[-1].text == "RESET"
                if self.is_known:
                    self.begin()
                self.ahead = []
        elif text.startswith(("STUB", "UNSTUB")):
            if entry.answer.startswith(("stub", "unstub")):
                self.stub = text if text.startswith("STUB") else ""
        elif not self.is_known:
            return
        elif back_scripts.is_back(text):
            self.go_back(entry, total)
        elif back_scripts.takes_steps(text) or back_scripts.is_change(text):
            now = re.fullmatch(r"step (\d+)( of \d+)?\n", entry.when)
            taken = int(now[1]) - total if now else 0
            if not now or taken < 0 or taken > 2 * BUDGET:
                self.wrong.append(f"{text}: WHEN {entry.when!r} behind step {total}")
                return
            for unit in units_of(entry, taken, self.is_halted):
                unit.stub = self.stub
                self.add(unit)

    def begin(self) -> None:
        """A past begins, on a machine as it was made."""
        self.path, self.ahead, self.is_known, self.is_there = self.path[:1], [], True, False

    @property
    def is_halted(self) -> bool:
        """Whether a fault has halted the machine."""
        return any(unit.is_fault for unit in since_made(self.path))

    def add(self, unit: Unit) -> None:
        if unit.text:
            if not self.is_there:
                self.singles.stand(self.path_shown(self.path))
            self.singles.done(unit)
            self.is_there = True
        self.path.append(unit)
        self.ahead = []

    def go_back(self, entry: Entry, total: int) -> None:
        """Cuts the path where the line says that it went, and what lies ahead; that this is right is looked at later."""
        self.is_there = False
        words = entry.text.upper().split()
        found = re.search(r" step (\d+)\n$", entry.answer)
        if words[0] == "UNDO" and len(self.path) > 1:
            last = self.path[-1].line
            while self.path[-1].line == last:
                self.path.pop()
            self.ahead = []
        elif words[0] == "BACK" and found:
            whole = [*self.path, *self.ahead]
            self.path = until(whole, int(found[1]))
            self.ahead = whole[len(self.path) :]

    # what is looked at once all that was shown is known

    def values(self, entry: Entry, what: str, path: list[Unit]) -> list[str]:
        """What was there of a part of the machine, behind each unit."""
        if what.startswith(("CLAIM", "FREE", "CHANGE BLOCK")):
            assert entry.address is not None
            return [unit.block(entry.address) for unit in path]
        if entry.address is not None:
            return [memory_shown(unit.parts[2], entry.address, "BYTE" in what) for unit in path]
        if what == "CHANGE FLAGS":
            return [unit.read()["FLAGS"] for unit in path]
        number, mode = register_named(what, path[-1].read()["mode"])
        return [unit.register(number, mode) for unit in path]

    def behind(self, path: list[Unit]) -> Unit:
        return self.path_shown(path)[-1]

    def path_shown(self, path: list[Unit]) -> list[Unit]:
        return [unit for unit in path if unit.text]

    def wanted_steps(self, entry: Entry) -> str:
        """What LAST STEPS has to answer."""
        traces = [unit.trace for unit in since_made(self.path_shown(entry.path)) if unit.is_step and unit.trace]
        return "".join(traces[-int(entry.text.split()[-1]) :]) or NO_HISTORY

    def wanted_last(self, entry: Entry) -> str:
        """What LAST CHANGE, CLAIM or FREE has to answer."""
        what = entry.text.removeprefix("LAST ")
        kind, name = what.split()[0], what.split()[-1]
        if kind == "CHANGE" and entry.address is not None and entry.address & 3 and not re.search("BYTE|BLOCK", what):
            return "? line"
        spelt = f"{spelt_register(name)}=" if entry.address is None else f"[{entry.address:08X}]="
        spelt = "block " if kind != "CHANGE" or what.startswith("CHANGE BLOCK") else spelt
        path, found, step = self.path_shown(entry.path), f"no {kind.lower()} since step 0\n", 0
        total = steps_of(path)
        values = self.values(entry, what, path)
        for was, now, after in zip(values, values[1:], path[1:]):
            if was != now and (kind, now) != ("CLAIM", "none") and (kind, was) != ("FREE", "none"):
                place = f"step {step}" if after.count else f"line {after.line} at step {step}"
                found = f"{place}, {total - step} back: {spelt}{now} was {was}\n"
            step += after.count
        return found

    def wanted_back(self, entry: Entry) -> str:
        words, total = entry.text.upper().split(), steps_of(entry.path)
        whole = [*entry.path, *entry.ahead]
        if words[0] == "UNDO":
            if len(entry.path) == 1:
                return NO_HISTORY
            return f"undone line {entry.path[-1].line}, at step {steps_of(entry.now)}\n"
        goal: int | None = None
        if words[1:2] == ["UNTIL"]:
            assert entry.address is not None
            if entry.address & 0xFC000003:
                return "? line"
            path, step = self.path_shown(entry.path), 0
            for before, after in zip(path, path[1:]):
                if after.count and before.pc == entry.address:
                    goal = step
                step += after.count
            if goal is None:
                return "refused NotThere\n"
        elif words[1:2] == ["TO"]:
            goal, total = int(words[2]), steps_of(whole)
        else:
            goal = total - int(words[1] if words[1:] else 1)
        if not 0 <= goal <= total:
            return NO_HISTORY
        where = self.behind(until(whole, goal)).parts[1].partition("\n")[0]
        return f"{where} step {goal}\n"

    def differences(self) -> list[str]:
        for entry in self.entries:
            wanted = None
            if entry.text.upper().startswith("LAST STEPS"):
                wanted = self.wanted_steps(entry)
            elif back_scripts.is_question(entry.text):
                wanted = self.wanted_last(entry)
            elif back_scripts.is_back(entry.text):
                wanted = self.wanted_back(entry)
            elif back_scripts.is_change(entry.text) and len(entry.now) > len(entry.path) and entry.is_known:
                wanted = "".join(unit.parts[0] for unit in entry.now[len(entry.path) :])
            if not entry.is_known and wanted is not None and wanted != "? line":
                wanted = NO_HISTORY
            found = entry.answer[:6] if wanted == "? line" else entry.answer
            if wanted is not None and found != wanted:
                self.wrong.append(f"{entry.text}: {entry.answer!r}, and not {wanted!r}")
            count, left = steps_of(entry.now), steps_of(entry.left)
            when = f"step {count} of {count + left}\n" if left else f"step {count}\n"
            when = when if entry.is_known else NO_HISTORY
            if entry.when != when:
                self.wrong.append(f"{entry.text}: WHEN {entry.when!r}, and not {when!r}")
            if entry.shown and entry.is_known and entry.shown != (there := self.behind(entry.now).parts[1]):
                lines = [pair for pair in zip(entry.shown.split("\n"), there.split("\n")) if pair[0] != pair[1]]
                self.wrong.append(f"{entry.text} shows {lines[:1]}")
        return self.wrong


def memory_shown(shown: str, address: int, is_byte: bool) -> str:
    """A word or a byte of what MEM shows, as LAST shows it."""
    place = shown.index(f"{address & ~3:08X}: ") + 10
    octets = shown[place : place + 11].split()
    if is_byte:
        return octets[address & 3]
    return "--------" if "--" in octets else "".join(reversed(octets))


def register_named(what: str, mode: str) -> tuple[int, str]:
    """The register behind CHANGE, and the mode whose register it is."""
    name, _, bank = what.split()[-1].partition("_")
    return {"SP": 13, "LR": 14}.get(name) or int(name[1:]), bank.upper() or mode


def spelt_register(name: str) -> str:
    return {"SP": "R13", "LR": "R14"}.get(name, name)
