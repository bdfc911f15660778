"""What is likely wrong with a line that the machine's assembler can't read: a few words for whoever wrote it.

The assembler says `Syntax` of such a line; docs/ASSEMBLER.md has its grammar. A hint is given only for what
that grammar hasn't at all. Where none is known, none is given.
"""

from __future__ import annotations

import difflib
import re
from typing import Sequence

from .mnemonics import BASIC, OBJASM, why_not

# what the assembler has beside instructions
DIRECTIVES = ("DCD", "DCB", "SPACE", "ALIGN")
# what others have in their place
FOREIGN = {"EQUD": "DCD", "EQUB": "DCB", "EQUS": "DCB", "EQUW": "DCB", "DCW": "DCB", ".WORD": "DCD", ".BYTE": "DCB",
           ".ASCIZ": "DCB", ".ASCII": "DCB", ".SPACE": "SPACE", ".ALIGN": "ALIGN"}
OBJASM_ALONE = ("EQU", "RN", "AREA", "ENTRY", "EXPORT", "IMPORT", "GET", "LTORG", "MACRO", "ORG", "*", "=", "&", "%")
# what a misspelt word is compared with first: operations without conditions
KNOWN = [spelling for spelling, operation in BASIC.items() if operation.bits >> 28 == 14] + [*DIRECTIVES]
LINE = re.compile(r"(?P<label>[^\s:]*)(?P<colon>:?)(?:\s+(?P<word>\S+)\s*(?P<rest>.*))?")
TEXTS = re.compile(r"\"[^\"]*\"|'[^']'")


def hint_of(line: str) -> str:
    """What is likely wrong with a line, or nothing."""
    if "\t" in line.partition(";")[0]:
        return "a tab: the assembler takes spaces alone"
    code = TEXTS.sub("''", line).partition(";")[0].rstrip()
    found = LINE.fullmatch(code)
    if found is None:
        return ""
    label, word, rest = found["label"], (found["word"] or "").upper(), found["rest"] or ""
    if found["colon"] or word.endswith(":"):
        return "a label has no colon"
    if label.upper() in FOREIGN or word in FOREIGN:
        return f"here that is {FOREIGN.get(word) or FOREIGN[label.upper()]}"
    if label.startswith("."):
        return "a label has no dot"
    if re.search(r"//|/\*|\s@", code):
        return "a comment begins with ;"
    if is_instruction(label) and word:
        return f"{label} is in the first column, where labels begin: put spaces before it"
    return hint_of_word(word) or hint_of_operands(word, rest)


def hint_of_label(line: str, lines: Sequence[str]) -> str:
    """A label of these lines that the line likely means, where it names one that isn't there; or nothing."""
    labels = {label for each in lines if (label := re.match(r"[^\s;]*", each)[0])}  # type: ignore[index]
    words = set(re.findall(r"[A-Za-z_]\w*", TEXTS.sub("", line).partition(";")[0])) - labels
    near = sorted(label for label in labels if any(word.lower() == label.lower() for word in words))
    return f"there is {near[0]}; capitals count" if near else ""


def is_instruction(word: str) -> bool:
    """Whether the assembler has an instruction of that spelling."""
    found = BASIC.get(word.upper())
    return found is not None and found.name != "ADR"


def hint_of_word(word: str) -> str:
    """What is wrong with an operation, or nothing."""
    if word in OBJASM_ALONE:
        return f"{word} is ObjAsm's"
    if word.startswith("ADR") and BASIC.get(word):
        return "there is no ADR: it is ADD with PC, and a distance"
    if not word or is_instruction(word) or word in DIRECTIVES:
        return ""
    if word == "NOP":
        return "here that is MOV R0,R0"
    if reason := why_not(word):
        return f"{word}: {reason}"
    if meant := OBJASM.get(word):
        near = [spelling for spelling, operation in BASIC.items() if operation == meant]
    else:
        near = difflib.get_close_matches(word, KNOWN, 1) or difflib.get_close_matches(word, BASIC, 1, 0.7)
    return f"no instruction {word}" + (f"; {near[0]}?" if near else "")


def hint_of_operands(word: str, rest: str) -> str:
    """What is wrong with the operands of an operation that is one, or nothing."""
    if re.search(r"\b0x", rest, re.IGNORECASE):
        return "hexadecimal is &10, not 0x10"
    if word.startswith("LDR") and re.search(r",\s*=", rest):
        return "there is no LDR with =: put the word behind a label, with DCD"
    if re.search(r"\bASL\b", rest, re.IGNORECASE):
        return "ASL is LSL here"
    if "[" not in rest and re.search(r"#\s*-", rest):
        return "a number has no sign: use MVN for MOV, SUB for ADD, CMN for CMP"
    if re.search(r"[\[{(]\s|\s[\]})]|\s[-+]|[-+]\s", rest):
        return "spaces are only beside commas"
    return ""
