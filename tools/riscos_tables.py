"""Cases of tools/run_riscos: variables, vectors and sorted words at random, beside tables of Python's."""
from __future__ import annotations

import random
import re
from typing import Iterator

from riscos_cases import BAD_RELEASE, BUFFER, CROWDED, NOT_FOUND, OVERFLOW, TEXT, VALUE, WORD, Case

# the vectors that are claimed, and how many claims there can be
VECTORS, MOST_CLAIMS = (16, 17), 16
# the routines that claim them, which the script has as a block
ROUTINES = ("add", "double", "stop")
BLOCK = """ASM routines &8000
add     ADD     R0,R0,R12
        MOV     PC,R14
double  ADD     R0,R0,R0
        MOV     PC,R14
stop    CMP     R13,#0                  ; C is set
        LDMFD   R13!,{PC}
END
PUT routines &8000
"""


class Variables:
    """What a table of system variables holds, by the names in capitals: name, type and value."""

    def __init__(self, chance: random.Random) -> None:
        self.table: dict[str, tuple[str, int, bytes]] = {}
        self.chance = chance

    def first(self, pattern: str, behind: str = "") -> str:
        """The first name in the alphabet's order that a pattern means, behind another, in capitals; none is empty."""
        signs = {"*": ".*", "#": "."}
        form = re.compile("".join(signs.get(it) or re.escape(it) for it in pattern), re.IGNORECASE)
        return next((it for it in sorted(self.table) if it > behind and form.fullmatch(it)), "")

    def pattern(self) -> str:
        return "".join(self.chance.choices("abAB$_1*#", (4, 4, 4, 4, 1, 1, 1, 1, 1), k=self.chance.randint(1, 4)))

    def case(self, routine: str, pattern: str, given: dict[str, int], **more: object) -> Case:
        """A call with that name."""
        text = pattern.encode() + self.chance.choice((b"\0", b"\r", b" "))
        return Case(routine, {"R0": TEXT} | given, text=text, library="environment", **more)  # type: ignore[arg-type]

    def put(self) -> Case:
        """A variable is set."""
        pattern, kind = self.pattern(), self.chance.choice((1, 2, 4))
        value = self.chance.randbytes(4 if kind == 1 else self.chance.randint(1, 20))
        found = self.first(pattern)
        given = {"R1": VALUE, "R2": len(value), "R3": 0, "R4": kind}
        if not found and set(pattern) & set("*#"):
            return self.case("setvarval", pattern, given, wanted={"R2": len(value), "R4": kind}, value=value, error=NOT_FOUND)
        name = self.table[found][0] if found else pattern
        self.table[name.upper()] = (name, kind % 4, value)
        return self.case("setvarval", pattern, given, wanted={"R2": len(value), "R4": kind % 4}, value=value)

    def remove(self) -> Case:
        """A variable is removed."""
        pattern = self.pattern()
        found = self.first(pattern)
        if found:
            del self.table[found]
            return self.case("setvarval", pattern, {"R2": WORD - 1, "R3": 0}, wanted={"R3": 0})
        return self.case("setvarval", pattern, {"R2": WORD - 1, "R3": 0}, error=NOT_FOUND)

    def get(self) -> Iterator[Case]:
        """All variables that a name means are read, one after another."""
        pattern, found, context = self.pattern(), "", {"R3": 0}
        while found := self.first(pattern, found):
            _, kind, value = self.table[found]
            size = self.chance.choice((len(value), 30, WORD - 1, len(value) - 1))
            given, context = context | {"R1": BUFFER, "R2": size, "R4": 0}, {}
            if size >> 31 or size < len(value):
                wanted = {"R2": WORD - 1 - len(value)}
                yield self.case("readvarval", pattern, given, wanted=wanted, error=OVERFLOW)
                return
            yield self.case("readvarval", pattern, given, wanted={"R2": len(value), "R4": kind}, written=value)
            if self.chance.random() < 0.5:
                return

    def cases(self) -> Iterator[Case]:
        for _ in range(150):
            yield self.put() if self.chance.random() < 0.7 else self.remove()
            yield from self.get()
        for name in sorted(self.table):
            yield self.case("readvarval", name, {"R1": BUFFER, "R2": 30, "R3": 0, "R4": 0},
                            wanted={"R2": len(self.table[name][2])}, written=self.table[name][2])


class Vectors:
    """What has claimed vectors, the newest last: the vector, the routine, and its R12."""

    def __init__(self, chance: random.Random) -> None:
        self.claims: list[tuple[int, str, int]] = []
        self.chance = chance

    def case(self, routine: str, claim: tuple[int, str, int], error: str = "") -> Case:
        vector, code, space = claim
        given: dict[str, int | str] = {"R0": vector, "R1": f"routines:{code}", "R2": space}
        wanted = {"R2": space} if error else {"R0": vector, "R2": space}
        return Case(routine, given, wanted, error=error, library="vectors")

    def change(self) -> Case:
        """A vector is claimed or released."""
        claim = (self.chance.choice(VECTORS), self.chance.choice(ROUTINES), self.chance.choice((0, 3)))
        routine = self.chance.choice(("claim", "addtovector", "addtovector", "release", "release"))
        if routine == "release":
            if claim not in self.claims:
                return self.case(routine, claim, BAD_RELEASE)
            del self.claims[len(self.claims) - 1 - self.claims[::-1].index(claim)]
            return self.case(routine, claim)
        if routine == "claim":
            self.claims = [it for it in self.claims if it != claim]
        if len(self.claims) == MOST_CLAIMS:
            return self.case(routine, claim, CROWDED)
        self.claims.append(claim)
        return self.case(routine, claim)

    def call(self) -> Case:
        """A vector is called: the newest claim first, until one ends it."""
        vector, start = self.chance.choice(VECTORS), self.chance.randrange(1000)
        value, carry = start, "c"
        for _, code, space in reversed([it for it in self.claims if it[0] == vector]):
            if code == "stop":
                carry = "C"
                break
            value = value * 2 if code == "double" else value + space
        given = {"R0": start, "R9": vector}
        return Case("callavector", given, {"R0": value % WORD, "R9": vector}, library="vectors", carry=carry)

    def cases(self) -> Iterator[Case]:
        for _ in range(300):
            yield self.change()
            yield self.call()


def integer(word: int) -> int:
    return word - WORD if word >> 31 else word


def in_bytes(words: list[int]) -> bytes:
    return b"".join(word.to_bytes(4, "little") for word in words)


def sorted_words(chance: random.Random, order: int) -> Case:
    """Words that are put in order, 12 at most: numbers, integers, or the addresses of some."""
    count = chance.randrange(13)
    words = [chance.choice((chance.getrandbits(32), chance.getrandbits(2), WORD - 1 - chance.getrandbits(2))) for _ in range(count)]
    key = integer if order & 1 else int
    given: dict[str, int | str] = {"R0": count, "R1": BUFFER, "R2": order}
    if order < 2:
        return Case("heapsort", given, written=in_bytes(sorted(words, key=key)), library="sort", before=in_bytes(words))
    places = {TEXT + 4 * place: word for place, word in enumerate(words)}
    made = sorted(places, key=lambda place: key(places[place]))
    return Case("heapsort", given, written=in_bytes(made), text=in_bytes(words), library="sort", before=in_bytes([*places]))


def sorted_texts(chance: random.Random, order: int) -> Case:
    """Addresses of texts that are put in order."""
    texts = ["".join(chance.choices("aAbB_", k=chance.randrange(4))) for _ in range(chance.randrange(13))]
    places, text = {}, ""
    for each in texts:
        places[TEXT + len(text)] = each
        text += each + chance.choice("\0\r\n")
    made = sorted(places, key=lambda place: places[place].upper() if order == 4 else places[place])
    given: dict[str, int | str] = {"R0": len(places), "R1": BUFFER, "R2": order}
    return Case("heapsort", given, written=in_bytes(made), text=text.encode(), library="sort", before=in_bytes([*places]))


def orders(chance: random.Random) -> Iterator[Case]:
    """Cases of OS_HeapSort."""
    for order in range(6):
        yield from ((sorted_words if order < 4 else sorted_texts)(chance, order) for _ in range(40))
