"""SYS: the calls that save and load, and a few that need no machine.

A call whose answer the program asks for behind TO, and that isn't one of these, is an error; one
that asks for nothing is passed over with a note.
"""

from __future__ import annotations

from .. import swis
from .commands import command
from .interpreter import Basic
from .tokens import T
from .values import BasicError, Stop, Value, integer_of, wrapped
from .variables import Target

_PRINTS = {"OS_Write0", "OS_WriteC", "OS_WriteS", "OS_NewLine", "OS_WriteN", "OS_PrettyPrint"}


class Arguments:
    """What stands behind SYS: values by their registers; one left out is 0."""

    def __init__(self, basic: Basic, values: list[Value], name: str) -> None:
        self.basic = basic
        self.values = values
        self.name = name

    def number(self, register: int) -> int:
        return integer_of(self.values[register]) if register < len(self.values) else 0

    def text(self, register: int) -> str:
        """A string, or the one at an address, which a control character ends."""
        value = self.values[register] if register < len(self.values) else 0
        if isinstance(value, str):
            return value
        address, found = integer_of(value), bytearray()
        while len(found) < 255:
            byte = self.basic.memory.read(address + len(found), 1)[0]
            if byte < 32:
                break
            found.append(byte)
        return found.decode("latin-1")


def system_call(basic: Basic) -> None:
    """SYS name or number, values TO variables; flags."""
    which = basic.evaluate()
    values: list[Value] = []
    while basic.take(","):
        if basic.blank() in (",", T["TO"]) or basic.at_end():
            values.append(0)
        else:
            values.append(basic.evaluate())
    targets = answer_places(basic) if basic.take(T["TO"]) else None
    if len(values) > 8:
        raise BasicError(f"a call has 8 values at most, and not {len(values)}", "SYS")
    name = call_name(which)
    answers = do_call(basic, name, Arguments(basic, values, name), targets is not None)
    if targets is None:
        return
    if answers is None:
        basic.machine_wanted("a machine would answer this call", f"SYS {name}")
    for register, target in targets:
        if register is None:
            target.set(basic, 0)
        elif register not in answers:
            raise BasicError(f"what R{register} has behind this call isn't known here", f"SYS {name}")
        else:
            target.set(basic, answers[register])


def answer_places(basic: Basic) -> list[tuple[int | None, Target]]:
    """The variables behind TO with their registers; the one behind `;` takes the flags."""
    found: list[tuple[int | None, Target]] = []
    register = 0
    while True:
        if basic.blank() not in (",", ";") and not basic.at_end():
            found.append((register, basic.place()))
        register += 1
        if not basic.take(","):
            break
    if basic.take(";"):
        found.append((None, basic.place()))
    return found


def call_name(which: Value) -> str:
    """The name of a call; a number that has none stands for itself."""
    if isinstance(which, str):
        number = swis.swi_number(which)
        if number is None:
            return which
    else:
        number = integer_of(which)
    return swis.swi_name(number & ~swis.X_BIT) or f"&{number & 0xFFFFFFFF:X}"


def do_call(basic: Basic, name: str, given: Arguments, asked: bool) -> dict[int, Value] | None:
    """Does a call; its answers by register, or None where only a machine has them."""
    if name == "OS_File":
        return os_file(basic, given, asked)
    if name == "OS_CLI":
        command(basic, given.text(0))
        return {}
    if name == "OS_SWINumberFromString":
        return {0: swi_number(given.text(1))}
    if name == "OS_Find":
        return os_find(basic, given)
    if name == "OS_GBPB":
        return os_gbpb(basic, given)
    if name == "OS_BPut":
        basic.filing.put(given.number(1), bytes((given.number(0) & 255,)))
        return {}
    if name == "OS_GenerateError":
        raise BasicError("the program stops with an error of its own", "SYS " + name)
    if name in ("OS_Exit", "OS_ExitAndDie"):
        raise Stop
    if not asked and any(is_memory(basic, value) for value in given.values) and name not in _PRINTS:
        basic.warn(
            "nothing is done: if this call changes memory of the program, its bytes are others here",
            f"SYS {name}",
        )
        return {}
    if not asked:
        what = "what it prints isn't kept" if name in _PRINTS else "there is no machine that answers"
        basic.pass_over(f"nothing is done: {what}", f"SYS {name}")
        return {}
    return None


def is_memory(basic: Basic, value: Value) -> bool:
    """Whether a value is an address in a block of the program."""
    return isinstance(value, int) and basic.memory.block_at(value) is not None


def swi_number(name: str) -> int:
    number = swis.swi_number(name)
    if number is None:
        raise BasicError("no SWI of this name is known", name)
    return number


def os_file(basic: Basic, given: Arguments, asked: bool) -> dict[int, Value] | None:
    """OS_File: 10 and 0 save memory, 18 sets a type, 16 and 255 load a file that was given."""
    action, name, filing = given.number(0), given.text(1), basic.filing
    word = f"SYS OS_File {action}"
    if action in (0, 10):
        file_type = given.number(2) & 0xFFF if action == 10 else type_of(given.number(2))
        start, end = given.number(4) & 0xFFFFFFFF, given.number(5) & 0xFFFFFFFF
        check_end(basic, start, end, word)
        filing.save(name, start, end, word, file_type)
        return {}
    if action in (18, 2):
        file_type = given.number(2) & 0xFFF if action == 18 else type_of(given.number(2))
        if file_type is not None:
            filing.set_type(name, file_type)
        return {}
    if action in (16, 255, 12, 14):
        length = filing.load(name, given.number(2), word)
        return {0: 1, 4: length}
    if action in (5, 13, 15, 17, 20):
        if not filing.exists(name):
            raise BasicError(
                f"whether a machine has the file {name} isn't known here;" " give it on the command line",
                word,
            )
        from ..files import read_bytes

        return {0: 1, 4: len(read_bytes(filing.given(name, word)))}
    if asked:
        return None
    basic.pass_over("nothing is done: there is no disc that this would change", word)
    return {}


def check_end(basic: Basic, start: int, end: int, word: str) -> None:
    """With offset assembly the bytes end at O%, and P% is where they would end when they run."""
    target = basic.variables.get("O%", 0)
    if end <= start and end == basic.variables["P%"] and integer_of(target) > start:
        raise BasicError(f"it saves no bytes: P% is &{end:X}, and the bytes end at O%, &{target:X}", word)


def type_of(load_address: int) -> int | None:
    """The file type that a load address &FFFtttdd has."""
    load_address &= 0xFFFFFFFF
    return load_address >> 8 & 0xFFF if load_address >> 20 == 0xFFF else None


def os_find(basic: Basic, given: Arguments) -> dict[int, Value] | None:
    """OS_Find: opens a file, and 0 closes one."""
    action = given.number(0)
    if action == 0:
        basic.filing.close(given.number(1))
        return {}
    if action & 0xC0 == 0x80:
        return {0: basic.filing.open_output(given.text(1))}
    word = "OPENUP" if action & 0xC0 == 0xC0 else "OPENIN"
    return {0: basic.filing.open_input(given.text(1), word)}


def os_gbpb(basic: Basic, given: Arguments) -> dict[int, Value] | None:
    """OS_GBPB: 1 and 2 write bytes of memory, 3 and 4 read them."""
    action, handle, address, count = (given.number(register) for register in range(4))
    if action not in (1, 2, 3, 4):
        return None
    if not 0 <= count <= 8 << 20:
        raise BasicError(f"it can't move {count} bytes", "SYS OS_GBPB")
    if action in (1, 3):
        basic.filing.set_pointer(handle, given.number(4))
    if action <= 2:
        basic.filing.put(handle, basic.memory.read(address, count))
    else:
        basic.memory.write(address, basic.filing.get(handle, count))
    return {2: wrapped(address + count), 3: 0, 4: basic.filing.pointer(handle)}
