"""`python -m rosm`: a prompt, and the commands source, symbols, run, show and mark."""

from __future__ import annotations

import sys

from . import running, show, source, symbols

USAGE = """usage: rosm [OPTION..] [IMAGE..]             a prompt: lines of rosm_debug, with history and completion
       rosm source [OPTION..] FILE..       an old source as a block, bytes or an ELF file
       rosm run [OPTION..] FILE.. LINE..   runs the lines of a script with it, in rosm_debug
       rosm show [OPTION..] SCRIPT         a script and its answers as a page, with pictures
       rosm symbols SCRIPT NAME            labels and lines of an ASM block of it as an ELF file, for GDB
       rosm mark [OPTION..] CASES FILE..   marks what a class has handed in"""


def main(arguments: list[str]) -> int:
    """Runs a command; the result is the exit status."""
    command, rest = (arguments[0], arguments[1:]) if arguments else ("", [])
    if command == "source":
        return source.run("rosm_source", rest)
    if command == "symbols":
        return symbols.run("rosm_symbols", rest)
    if command == "run":
        return running.run("rosm run", rest)
    if command == "show":
        return show.run("rosm_show", rest)
    if command == "mark":
        from .marking import command as marking
        return marking.run("rosm mark", rest)
    if command in ("", "prompt") or command.startswith("--") and command != "--help":
        from .terminal import command as terminal
        return terminal.run("rosm", rest if command == "prompt" else arguments)
    print(USAGE, file=sys.stderr)
    return 0 if command in ("-h", "--help") else 2


if __name__ == "__main__":
    sys.exit(main(sys.argv[1:]))
