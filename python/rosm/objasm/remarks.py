"""Directives that lay nothing: those that check or print, those of listings, and those refused."""

from __future__ import annotations

from typing import TYPE_CHECKING, Callable

from ..messages import SourceError
from .expressions import Expressions
from .tokens import Line, no_label

if TYPE_CHECKING:
    from .assembler import Assembler

Directive = Callable[["Assembler", Line], None]


def assert_(assembler: "Assembler", line: Line) -> None:
    """ASSERT: the condition must hold."""
    no_label(line)
    reader = Expressions(assembler, line.operands)
    holds = reader.truth()
    reader.end()
    if not holds:
        raise SourceError("this doesn't hold", line.operands)


def info(assembler: "Assembler", line: Line) -> None:
    """`INFO n,"text"` and `! n,"text"`: a note where n is 0, else an error."""
    no_label(line)
    reader = Expressions(assembler, line.operands)
    number = reader.number()
    reader.need(",")
    text = reader.string()
    reader.end()
    if number:
        raise SourceError(text, line.operation)
    assembler.messages.note(assembler.position(), text, line.operation)


def for_listings(what: str) -> Directive:
    """TTL, SUBT and their kin: the first line of each is noted."""
    def directive(assembler: "Assembler", line: Line) -> None:
        no_label(line)
        assembler.note_once(line.operation, f"{what}; it makes no bytes")
    return directive


def opt(assembler: "Assembler", line: Line) -> None:
    """OPT: what a listing shows; {OPT} is the number."""
    no_label(line)
    reader = Expressions(assembler, line.operands, strict=True)
    if not reader.at_end():
        assembler.option = reader.number()
        reader.end()
    assembler.note_once(line.operation, "it says what a listing shows; it makes no bytes")


REMARKS: dict[str, Directive] = {
    "ASSERT": assert_, "INFO": info, "!": info, "OPT": opt, "TTL": for_listings("a listing's title"),
    "SUBT": for_listings("a listing's title"),
    "LEADR": for_listings("the address of a file on disc; the origin is --origin's or ORG's"),
    "NOFP": for_listings("it forbids floating point, of which the machine has none"),
    "CODE32": for_listings("all instructions have 32 bits"),
    "ARM": for_listings("all instructions have 32 bits")}

_LATER = "this is of later assemblers, and isn't read"
REFUSED = {name: "the machine has no floating point" for name in
           ("DCFS", "DCFD", "DCFSU", "DCFDU", "DCFE", "DCFP")}
REFUSED |= {name: _LATER for name in
            ("DCQ", "DCQU", "DCDO", "PROC", "ENDP", "FUNCTION", "ENDFUNC", "FRAME", "EXPORTAS",
             "REQUIRE", "REQUIRE8", "PRESERVE8", "RELOC", "ATTR", "COMMON", "DN", "SN", "QN", "VN",
             "FILL", "ALIAS", "THUMBX")}
REFUSED |= {name: "the ARM2 has no Thumb code" for name in ("CODE16", "THUMB")}
REFUSED["WEAK"] = "write IMPORT name,WEAK"
REFUSED["DATA"] = _LATER
REFUSED["ASL"] = REFUSED["LSL"] = REFUSED["LSR"] = REFUSED["ASR"] = REFUSED["ROR"] = REFUSED["RRX"] = \
    "on the ARM2 a shift follows an operand: MOV Rd,Rm,LSL #n"
