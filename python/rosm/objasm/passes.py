"""The passes over a source, and the program that the last one makes."""

from __future__ import annotations

from ..messages import Position, SourceError
from ..program import Label, Program, Row
from .areas import LARGEST, Area, linker_names, order_differs, place_areas
from .assembler import Assembler, Options
from .control import file_lines
from .frames import Frame
from .tokens import Stop
from .values import Distance

MOST_PASSES = 40


def assemble_files(options: Options) -> Program:
    """Assembles the first file, which may GET the others. Where an error is found, no bytes count."""
    assembler = Assembler(options)
    program = Program(assembler.origin, b"", name=options.name)
    for number in range(MOST_PASSES):
        if number:
            assembler.begin_pass()
        try:
            moved = one_pass(assembler, number)
        except Stop:
            # What stopped the pass was reported last; a first reading's other errors may be none.
            del assembler.messages.items[:0 if number else -1]
            break
        except SourceError as error:  # the first file can't be read
            program.messages.error(Position(options.files[0], 0), error.reason, error.word)
            return program
        if not moved and number:
            break
    else:
        assembler.messages.error(Position(options.files[0], 0),
                                 f"addresses still move after {MOST_PASSES} readings: what one line "
                                 "lays depends on itself")
    program.messages = assembler.messages
    if not program.messages.errors():
        build(assembler, program)
    return program


def one_pass(assembler: Assembler, number: int) -> bool:
    """Reads everything once; whether anything moved since the pass before."""
    path = assembler.options.files[0]
    frame = Frame(path, file_lines(assembler, path), ())
    assembler.frames.append(frame)
    assembler.run_frames()
    areas = list(assembler.areas.values())
    for area in areas:
        assembler.lay_pool(area)
    moved = place_areas(areas, assembler.origin, assembler.options.linked)
    moved |= place_rooms(assembler, areas)
    linked = linker_names(areas, assembler.origin)
    moved |= bool(assembler.imports) and linked != assembler.linked
    assembler.linked = linked
    moved |= any(area.pools != area.pools_laid for area in areas)
    assembler.labels.end_pass()
    check_names(assembler)
    return moved or assembler.symbols.moved or assembler.labels.moved or number == 0


def place_rooms(assembler: Assembler, areas: list[Area]) -> bool:
    """Gives imported rooms their addresses behind all areas; whether one moved."""
    address = max((area.address + len(area.data) for area in areas if area.data), default=assembler.origin)
    rooms = {}
    for name, size in assembler.options.rooms.items():
        address = (address + 3) // 4 * 4
        rooms[name] = address
        address += size
    moved = rooms != assembler.rooms
    assembler.rooms = rooms
    return moved


def check_names(assembler: Assembler) -> None:
    """Warns of exported names that nothing has."""
    for name, position in assembler.exports.items():
        symbol = assembler.symbols.known.get(name)
        if symbol is None or assembler.symbols.is_stale(symbol):
            assembler.messages.warn(position, "it is exported, and nothing has this name", name)


def build(assembler: Assembler, program: Program) -> None:
    """Puts the areas together."""
    options = assembler.options
    areas = [area for area in assembler.areas.values() if area.data]
    areas.sort(key=lambda area: area.address)
    source = Position(options.files[0], 0)
    if not areas:
        program.messages.error(source, "the source lays no bytes")
        return
    if options.linked and order_differs(list(assembler.areas.values())):
        names = ", ".join(area.name for area in areas if area.name)
        program.messages.warn(source, "the areas are in the linker's order, which isn't the source's: "
                              f"{names}; --source-order keeps that")
    program.origin = areas[0].address
    if options.origin is not None and program.origin != options.origin:
        program.messages.warn(source, f"ORG gives the origin &{program.origin:X}, and not --origin")
    if not join_areas(areas, program, source):
        return
    program.labels = labels_of(assembler)
    add_rooms(assembler, program)
    for area in areas:
        program.rows += [Row(area.address + row.offset, row.length, row.position, row.code)
                         for row in area.rows]
        program.relocated += [area.address + offset for offset in area.relocated]
    if assembler.entry:
        program.entry = assembler.address_of(assembler.entry[0], "")
        if program.entry != program.origin:
            program.messages.warn(assembler.entry[1], f"BOOT of the machine begins at &{program.origin:X}, "
                                  f"and not at &{program.entry:X}", "ENTRY")


def join_areas(areas: list[Area], program: Program, source: Position) -> bool:
    """The bytes of all areas with zeros between them; False where they can't be one program."""
    data = bytearray()
    for area in areas:
        gap = area.address - program.origin - len(data)
        if gap < 0:
            program.messages.error(area.position or source, "the area lies over another", area.name)
            return False
        if gap > LARGEST:
            program.messages.error(area.position or source,
                                   f"the area is {gap} bytes behind the others", area.name)
            return False
        data += bytes(gap) + area.data
    program.data = bytes(data)
    if program.end() > 1 << 26:
        program.messages.error(source, "the program ends behind the last address, &3FFFFFF")
        program.data = b""
        return False
    return True


def add_rooms(assembler: Assembler, program: Program) -> None:
    """Lays the rooms of imported names behind the program."""
    for name, size in assembler.options.rooms.items():
        address = assembler.rooms[name]
        program.data += bytes(address + size - program.end())
        program.labels.append(Label(name, address, Position("--bind", 0)))


def labels_of(assembler: Assembler) -> list[Label]:
    """All names of addresses of the last pass."""
    labels = []
    for name, symbol in assembler.symbols.known.items():
        value = symbol.value
        if symbol.given == assembler.symbols.pass_number and isinstance(value, Distance) \
                and isinstance(value.base, Area):
            labels.append(Label(name, value.base.address + value.offset, symbol.position))
    return labels
