"""Cases of tools/run_riscos: texts through OS_GSTrans, and names of SWIs by the table of rosm_source."""
from __future__ import annotations

import random
import sys
from typing import Iterator

from programs import ROOT
from riscos_cases import BAD_STRING, BUFFER, TEXT, Case

sys.path.insert(0, str(ROOT / "python"))
from rosm.swis import NUMBERS  # noqa: E402

# what random texts are made of: a < without a > is a sign like others
SIGNS = "aZ9  \"\"|||||!!??<@[\\]^_`{}~"
SPACE_ENDS, BARS_STAY, QUOTES_STAY = 1 << 29, 1 << 30, 1 << 31


def sign_behind_bar(signs: list[str]) -> int | None:
    """The byte that | and what stands behind it mean; those signs are taken. None: nothing does."""
    if not signs:
        return None
    sign = signs.pop(0)
    if sign == "!":
        if signs[:1] != ["|"]:
            return 128 | ord(signs.pop(0)) if signs else None
        signs.pop(0)
        if signs[:1] == ["!"]:
            return 128 | ord(signs.pop(0))
        byte = sign_behind_bar(signs)
        return byte if byte is None else 128 | byte
    if "@" <= sign <= "_" or "a" <= sign <= "z":
        return ord(sign) & 31
    return {"{": 27, "}": 29, "~": 30, "`": 31, "?": 127}.get(sign, ord(sign))


def translated(text: str, flags: int) -> tuple[bytes, int] | None:
    """What OS_GSTrans makes of a text without its end, and how many signs it takes. None: it is a bad string."""
    signs = [*text.lstrip(" ")]
    if is_quoted := signs[:1] == ['"'] and not flags & QUOTES_STAY:
        signs.pop(0)
    made = bytearray()
    while signs:
        sign = signs.pop(0)
        if sign == "|" and not flags & BARS_STAY:
            byte = sign_behind_bar(signs)
            if byte is None:
                return None
            made.append(byte)
        elif sign == '"' and is_quoted and signs[:1] != ['"']:
            rest = "".join(signs).lstrip(" ")
            if flags & SPACE_ENDS and signs[:1] == [" "]:
                return bytes(made), len(text) - len(signs) + 1
            return None if rest else (bytes(made), len(text) + 1)
        elif sign == " " and not is_quoted and flags & SPACE_ENDS:
            return bytes(made), len(text) - len(signs)
        else:
            made.append(ord(sign))
            if sign == '"' and is_quoted:
                signs.pop(0)
    return None if is_quoted else (bytes(made), len(text) + 1)


def translations(chance: random.Random) -> Iterator[Case]:
    """Cases of OS_GSTrans."""
    for _ in range(400):
        text = "".join(chance.choices(SIGNS, k=chance.randrange(12)))
        flags = chance.getrandbits(3) << 29
        given = {"R0": TEXT, "R1": BUFFER, "R2": flags | 20}
        stands = text.encode() + chance.choice((b"\0", b"\n", b"\r"))
        found = translated(text, flags)
        if found is None:
            yield Case("gstrans", given, {"R1": BUFFER, "R2": flags | 20}, b"", stands, BAD_STRING, "strings")
        elif len(found[0]) > 3 and chance.random() < 0.3:
            size = chance.randrange(len(found[0]))
            wanted = {"R1": BUFFER, "R2": size}
            yield Case("gstrans", given | {"R2": flags | size}, wanted, found[0][:size], stands, "", "strings", "C")
        else:
            wanted = {"R0": TEXT + found[1], "R1": BUFFER, "R2": len(found[0])}
            yield Case("gstrans", given, wanted, found[0], stands, "", "strings", "c")


def names() -> Iterator[Case]:
    """Cases of OS_SWINumberToString."""
    known = {number: f"OS_{name.removeprefix('OS_')}" for name, number in NUMBERS.items() if number < 0x100}
    for number in range(0x100):
        for bit in (0, 0x20000):
            name = ("X" if bit else "") + known.get(number, "OS_Undefined")
            given = {"R0": number | bit, "R1": BUFFER, "R2": len(name) + 1}
            wanted = {"R0": number | bit, "R1": BUFFER, "R2": len(name) + 1}
            yield Case("swinumbertostring", given, wanted, name.encode() + b"\0", library="strings")
