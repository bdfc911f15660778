"""What completes a line: words from HELP, labels, images, registers, and in a block those of the assembler."""

from __future__ import annotations

import re
from dataclasses import dataclass, field

from ..mnemonics import CONDITIONS
from ..swis import NUMBERS

OPERATIONS = ("AND EOR SUB RSB ADD ADC SBC RSC TST TEQ CMP CMN ORR MOV BIC MVN MUL MLA LDR LDRB STR STRB LDMIA LDMIB"
              " LDMDA LDMDB LDMFD LDMFA LDMED LDMEA STMIA STMIB STMDA STMDB STMFD STMFA STMED STMEA B BL SWI"
              " DCD DCB SPACE ALIGN").split()
REGISTERS = [f"R{number}" for number in range(16)] + ["SP", "LR", "PC"]
TAKE_IMAGES = ("BOOT", "LOAD", "PUT", "FORGET", "COUNTS", "LISTING")
TAKE_PLACES = ("BREAK", "UNBREAK", "MEM", "DUMP", "CODE", "HEAP", "POKE", "FILL", "FIND", "WORDS", "GOSUB", "WATCH",
               "UNWATCH", "STEP")
LABEL = re.compile(r"[A-Za-z_]\w*")


@dataclass(frozen=True)
class Known:
    """The words of lines: those that begin one, and those that come second, by the first."""

    first: list[str]
    second: dict[str, list[str]] = field(default_factory=dict)


def known_words(help_text: str) -> Known:
    """The words of HELP: capital words at the front of what it lists."""
    first: dict[str, None] = {}
    second: dict[str, dict[str, None]] = {}
    for row in help_text.split("\n"):
        left = re.split(r" {3,}", row[2:])[0] if row.startswith("  ") else ""
        front = ""
        for phrase in left.split(", ") if re.match(r"[A-Z]{2}", left) else []:
            words = phrase.split()
            capitals = [word for word in words[:2] if re.fullmatch(r"[A-Z]{2,}", word)]
            if words[0] not in capitals:
                continue
            if front == "EXPECT":
                second["EXPECT"][words[0]] = None
                continue
            front = words[0]
            first[front] = None
            second.setdefault(front, {}).update(dict.fromkeys(capitals[1:]))
    return Known(list(first), {word: list(others) for word, others in second.items()})


def completions(known: Known, before: str, labels: list[str], images: list[str]) -> list[str]:
    """What the last word before the cursor may be, in a line of a script."""
    words = before.split(" ")
    word, front = words[-1], [each.upper() for each in words[:-1] if each]
    while front[:1] == ["TRACE"] or front[:1] == ["REPEAT"] and len(front) > 1:
        front = front[2:] if front[0] == "REPEAT" else front[1:]
        if not front and word.upper() in ("O", "ON", "OF", "OFF", "L", "LI", "LA"):
            break
    if not front:
        options = list(known.first)
        if words[0].upper() == "TRACE" and len(words) > 1:
            options += known.second.get("TRACE", [])
    elif front[0] in TAKE_IMAGES and len(front) == 1:
        options = images
    elif front[0] in TAKE_PLACES or front[0] == "PUT":
        options = labels + REGISTERS
    else:
        options = [*known.second.get(front[0], []), *REGISTERS, *labels] if len(front) == 1 else labels + REGISTERS
    return matching(options, word)


def block_completions(before: str, lines: list[str]) -> list[str]:
    """What the last word may be in a block of assembler text, whose lines so far are these."""
    word = re.split(r"[\s,\[{]", before)[-1]
    front = before.split()[:-1] if word else before.split()
    labels = [found[0] for line in lines if (found := LABEL.match(line))]
    if not before[:1].isspace() and " " not in before:
        return matching(["END"], word)
    if front and front[-1].upper().startswith("SWI"):
        return matching([name for name in NUMBERS if name.startswith("OS_")], word)
    is_operand = any(re.match(operation_pattern(), each, re.IGNORECASE) for each in front)
    return matching([*labels, *REGISTERS] if is_operand else list(OPERATIONS), word)


def operation_pattern() -> str:
    names = sorted(OPERATIONS, key=len, reverse=True)
    return rf"({'|'.join(names)})({'|'.join(CONDITIONS)})?[SBTP]?$"


def matching(options: list[str], word: str) -> list[str]:
    """The options that begin so, each once, letters of either case alike."""
    return list(dict.fromkeys(option for option in options
                              if option.lower().startswith(word.lower()) and option != word))
