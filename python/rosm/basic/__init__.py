"""BBC BASIC V: a listing is run, and the bytes that its assembler lays are what comes out."""

from __future__ import annotations

from ..files import read_bytes
from ..messages import MessageList, Position, SourceError
from ..program import Program
from . import functions as _functions  # fills the table of functions
from .images import block_images, check_blocks, check_passes
from .interpreter import Basic, Options
from .lines import Listing

__all__ = ["Options", "assemble", "assemble_bytes", "run_listing"]
assert _functions


def assemble(
    paths: list[str], options: Options | None = None, messages: MessageList | None = None
) -> list[Program]:
    """Runs the listing of the first path; the other paths are files that it may read.

    The programs that it saves, or else those that it lays in its blocks. All have the same list of
    messages, and there are none where it has errors.
    """
    options = options or Options()
    messages = messages if messages is not None else MessageList()
    options.files = [*paths[1:], *options.files]
    try:
        data = read_bytes(paths[0])
    except SourceError as error:
        messages.error(Position(paths[0], 0), error.reason, "")
        return []
    return assemble_bytes(paths[0], data, options, messages)


def assemble_bytes(file: str, data: bytes, options: Options, messages: MessageList) -> list[Program]:
    """Runs a listing, text or tokens, that was read already."""
    basic = run_listing(file, data, options, messages)
    if basic is None:
        return []
    programs = [saved.program for saved in basic.filing.saved]
    if not messages.errors():
        check_passes(basic)
        check_blocks(basic)
        if not programs:
            programs = block_images(basic)
            if len(programs) > 1:
                names = ", ".join(program.name for program in programs)
                messages.warn(Position(file, 1), f"bytes are laid in several blocks: {names}")
        if not programs:
            messages.error(
                Position(file, 1),
                "the program lays no bytes"
                if basic.assembly.opened
                else "the program reaches no [, so it lays no bytes",
            )
    sort_messages(file, messages)
    if messages.errors():
        return []
    for program in programs:
        program.messages = messages
    return programs


def sort_messages(file: str, messages: MessageList) -> None:
    """Puts messages in the order of the lines, those of the listing first: passes find them in theirs."""
    messages.items.sort(
        key=lambda message: (message.position.file != file, message.position.file, message.position.line)
    )


def run_listing(file: str, data: bytes, options: Options, messages: MessageList) -> Basic | None:
    """Reads and runs a listing; where it stands at the end, or None where it can't be read."""
    listing = Listing(messages)
    try:
        listing.load_main(file, data)
        basic = Basic(listing, options, messages)
    except SourceError as error:
        messages.error(Position(file, 1), error.reason, "" if error.word == file else error.word)
        return None
    basic.run_program()
    if not messages.errors():
        basic.filing.finish()
    return basic
