"""The addresses of imported names: the command line's, a linker's, or none."""

from __future__ import annotations

from typing import TYPE_CHECKING

from ..messages import SourceError
from .areas import Area
from .values import ImportBase

if TYPE_CHECKING:
    from .assembler import Assembler


def imported(assembler: "Assembler", name: str) -> int:
    """The address of an imported name."""
    if name in assembler.options.bindings:
        return assembler.options.bindings[name]
    if name in assembler.options.rooms:
        return assembler.rooms.get(name, 0)
    if is_linked(assembler, name):
        return (assembler.linked or {}).get(name, 0)
    found = assembler.imports[name]
    if not found.weak:
        raise SourceError(f"it is imported, and nothing gives it an address; --bind {name}=&.. does", name)
    if not found.warned:
        found.warned = True
        assembler.messages.warn(found.position, "it is imported as WEAK and not there: its address is 0", name)
    return 0


def is_linked(assembler: "Assembler", name: str) -> bool:
    """Whether a linker gives an imported name its address. Before the first pass ends that isn't known."""
    if assembler.linked is None:
        return name.endswith("$$Base") or name.endswith("$$Limit")
    return name in assembler.linked


def is_of_program(assembler: "Assembler", base: object) -> bool:
    """Whether places count from where the program itself is, so that they move with it."""
    if isinstance(base, ImportBase):
        is_bound = base.name in assembler.options.bindings or base.name in assembler.options.rooms
        return not is_bound and is_linked(assembler, base.name)
    return isinstance(base, Area) and base.fixed is None
