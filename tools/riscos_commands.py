"""Cases of tools/run_riscos: commands at random, for a module that notes which one was entered, and how: through OS_CLI,
and by the line COMMAND of a debugging script, which does the same."""
from __future__ import annotations

import random
from dataclasses import dataclass
from typing import Iterator

from riscos_cases import BAD_COMMAND, SYNTAX, TEXT, Case, spelt

# the commands in their order, each with the least and the most words that it takes
COMMANDS = (("Ab", 0, 9), ("Abc", 1, 2), ("ABCD", 0, 0), ("b_1", 0, 255))
# where the module notes the tail's address, the count of words and the command's number, from 1
NOTES = 0x9300
# where OS_CLI keeps its copy of the command: 256 bytes below the eleven registers that it stacks
COPY = 0x1C02000 - 4 * 11 - 256
# where COMMAND puts the tail
LINE_TAIL = 0x1C02300
CODE = """note{number}   STMFD   R13!,{{R14}}
        MOV     R2,#{number}
        B       note
"""
BLOCK = """ASM probe 0
        DCD     0,0,0,0,title,0,table
title   DCB     "Probe",0
syntax  DCB     "Syntax: none",0
table
{table}        DCB     0
        ALIGN
{code}note    MOV     R3,#&9300
        STMIA   R3,{{R0-R2}}
        LDMFD   R13!,{{PC}}
END
LOAD probe
"""


def block() -> str:
    """The module, and the line that loads it."""
    table = code = ""
    for number, (name, least, most) in enumerate(COMMANDS, 1):
        table += f'        DCB     "{name}",0\n        DCD     note{number},&{most << 16 | least:X},syntax,0\n'
        code += CODE.format(number=number)
    return BLOCK.format(table=table, code=code)


def tail_of(line: str, name: str) -> str | None:
    """What stands behind the name of a command, if the line has it, whole or as much as stands before a full stop."""
    for place, sign in enumerate(line + "\r"):
        if sign == "." and place:
            return line[place + 1 :]
        if place == len(name):
            return line[place:] if sign <= " " else None
        if sign.upper() != name[place].upper():
            return None
    return None


def words_in(tail: str) -> int:
    """How many words a tail has: spaces within double quotes part none."""
    count, within, before = 0, False, " "
    for sign in tail:
        count += before == " " and not within and sign != " "
        within ^= sign == '"'
        before = sign
    return count


def case_of(line: str, end: str) -> Case:
    """The case of a command."""
    meant = line.lstrip(" *")
    notes = dict.fromkeys((NOTES, NOTES + 4, NOTES + 8), 0)
    error = BAD_COMMAND if meant and meant[0] != "|" else ""
    for number, (name, least, most) in enumerate(COMMANDS, 1):
        tail = tail_of(meant, name) if error else None
        if tail is not None:
            count = words_in(tail)
            error = "" if least <= count <= most else SYNTAX
            if not error:
                place = len(meant) - len(tail.lstrip(" "))
                notes = {NOTES: COPY + place, NOTES + 4: count, NOTES + 8: number}
            break
    wanted = {} if error else {"R0": TEXT}
    return Case("oscli", {"R0": TEXT}, wanted, text=(line + end).encode(), error=error, library="commands", words=notes)


def commands(chance: random.Random) -> Iterator[Case]:
    """Cases of OS_CLI."""
    for _ in range(300):
        front = "".join(chance.choices(" *", k=chance.randrange(3)))
        name = "".join(chance.choices("aAbBcd_1.|", (9, 9, 9, 9, 6, 3, 2, 2, 3, 1), k=chance.randrange(5)))
        if chance.random() < 0.5:
            name = chance.choice(COMMANDS)[0] + chance.choice(("", ".", " "))
        words = "".join(chance.choices(' x"', (3, 3, 1), k=chance.randrange(8)))
        yield case_of(front + name + chance.choice((" ", "")) + words, chance.choice("\0\n\r"))


@dataclass
class CommandLine(Case):
    """A line COMMAND, and what must come of it."""

    def lines(self) -> Iterator[str]:
        yield f"FILL &{NOTES:X} 12 0"
        yield f"COMMAND {self.text.decode()}"
        if self.error:
            yield "EXPECT ANSWER " + ("refused NoCommand" if self.error == BAD_COMMAND else f"error 220 &DC {self.error}")
        else:
            yield f'FIND &{LINE_TAIL:X} 1 "{spelt(self.value)}"'
            yield f"EXPECT ANSWER found &{LINE_TAIL:X}"
        for place, word in self.words.items():
            yield f"EXPECT WORD &{place:X} &{word:X}"


def tidied(tail: str) -> str:
    """A tail whose words, but for spaces within double quotes, are parted by single spaces, as a line's are."""
    text, within = "", False
    for sign in tail:
        within ^= sign == '"'
        if sign != " " or within or not text.endswith(" "):
            text += sign
    return text.lstrip(" ") if within else text.strip(" ")


def command_lines(chance: random.Random) -> Iterator[Case]:
    """Cases of COMMAND: those of OS_CLI whose name is no shorter one with a full stop."""
    for case in commands(chance):
        line = case.text.decode().rstrip("\0\n\r").lstrip(" *")
        name, _, tail = line.partition(" ")
        if not name or "." in name or "|" in name or '"' in name:
            continue
        words = {**case.words, NOTES: LINE_TAIL} if not case.error else case.words
        yield CommandLine("COMMAND", {}, text=line.encode(), error=case.error, value=(tidied(tail) + "\r").encode(), words=words)
