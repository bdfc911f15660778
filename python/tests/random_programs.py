"""Random programs in ObjAsm's and GNU as's own words: labels, data, pools, loops, macros, numbered labels.

Each step adds the same thing to both texts; neither is made of the other.
"""

from __future__ import annotations

import random

from random_words import ObjAsmWriter, draw, gnu_text

OBJASM_HEAD = """        MACRO
$l      Count   $r, $n
$l      MOV     $r, #$n
01      SUBS    $r, $r, #1
        BNE     %BT01
        MEND
        MACRO
$l      Pair    $a, $b
$l      Count   $a, 3
        Count   $b, 4
        BEQ     %FT02
        ADD     $a, $a, $b
02
        MEND
        GBLA    i
"""
GNU_HEAD = """ .macro count r, n
 mov \\r, #\\n
count_\\@: subs \\r, \\r, #1
 bne count_\\@
 .endm
 .macro pair a, b
 count \\a, 3
 count \\b, 4
 beq pair_\\@
 add \\a, \\a, \\b
pair_\\@:
 .endm
"""


class Programs:
    """A program that grows in both languages at once."""

    def __init__(self, seed: int) -> None:
        self.rng = random.Random(seed)
        self.writer = ObjAsmWriter(self.rng)
        self.theirs: list[str] = [GNU_HEAD]
        self.ours: list[str] = [OBJASM_HEAD]
        self.labels = [f"lab{number}" for number in range(12)]
        self.unplaced = list(self.labels)
        self.near: str | None = None  # a label that stands just before
        self.open: list[int] = []  # numbered labels that are wanted further on
        self.used: set[int] = set()  # numbers in this routine
        self.back: list[int] = []
        self.constants = [self.rng.getrandbits(32) for _ in range(5)] + [255, 0xFFFFFFFF, 0x3F0]

    def add(self, ours: str, theirs: str) -> None:
        self.ours.append(ours)
        self.theirs.append(theirs)

    def step(self) -> None:
        """One more thing."""
        steps = [self.instruction, self.instruction, self.instruction, self.label, self.reference,
                 self.reference, self.words, self.bytes, self.constant, self.constant, self.numbered,
                 self.numbered, self.loop, self.macro, self.routine, self.pool, self.space]
        self.rng.choice(steps)()

    def instruction(self) -> None:
        drawn = draw(self.rng)
        self.add(self.writer.text(drawn), gnu_text(drawn))

    def label(self) -> None:
        if self.unplaced:
            self.near = self.unplaced.pop(self.rng.randrange(len(self.unplaced)))
            self.add(self.near, f"{self.near}:")
            if self.rng.randrange(2):
                self.add(f"        ADR     r1, {self.near}", f" adr r1, {self.near}")

    def reference(self) -> None:
        name, number = self.rng.choice(self.labels), 4 * self.rng.randrange(4)
        sum_ours = f"{name} + {number}" if number else name
        sum_theirs = f"{name}+{number}"
        choice = self.rng.randrange(5)
        if choice == 0:
            self.add(f"        BLEQ    {sum_ours}", f" bleq {sum_theirs}")
        elif choice == 1:
            self.add(f"        LDRB    r3, {sum_ours}", f" ldrb r3, {sum_theirs}")
        elif choice == 2:
            self.add(f"        LDR     r4, ={sum_ours}", f" ldr r4, ={sum_theirs}")
        elif choice == 3:
            self.add(f"        STR     r5, [pc, #{name} - . - 8]", f" str r5, {name}")
        else:
            self.add(f"        LDRNE   r6, ={name}", f" ldrne r6, ={name}")

    def words(self) -> None:
        first, second = self.rng.choice(self.labels), self.rng.choice(self.labels)
        value = self.rng.getrandbits(32)
        self.add(f"        &       {first}, {second} - {first}, &{value:X}",
                 f" .word {first}, {second}-{first}, {value}")

    def bytes(self) -> None:
        text = "".join(self.rng.choice("abc ;|',") for _ in range(self.rng.randrange(9)))
        number, step = self.rng.randrange(256), self.rng.choice([4, 4, 8, 16])
        half = self.rng.randrange(65536)
        if self.rng.randrange(2):
            self.add(f"        =       \"{text}\"\"\", {number}", f" .ascii \"{text}\\\"\"\n .byte {number}")
        self.add(f"        DCB     {number}, '{chr(97 + number % 26)}'\n        DCWU    &{half:x}",
                 f" .byte {number}, '{chr(97 + number % 26)}'\n .2byte {half}")
        self.add(f"        ALIGN   {step}" if step > 4 else "        ALIGN", f" .balign {step}, 0")

    def constant(self) -> None:
        value = self.rng.choice(self.constants)
        self.add(f"        LDR     r7, =&{value:X}", f" ldr r7, ={value}")

    def numbered(self) -> None:
        if self.open and self.rng.randrange(2):
            number = self.open.pop()
            self.back.append(number)
            self.add(f"{number:02}", f"{number}:")
        elif self.back and self.rng.randrange(2):
            number = self.rng.choice(self.back)
            self.add(f"        BCS     %B{number:02}", f" bcs {number}b")
        else:
            number = self.rng.randrange(3, 100)
            if number not in self.used:
                self.used.add(number)
                self.open.append(number)
                self.add(f"        BGT     %FT{number:02}", f" bgt {number}f")

    def loop(self) -> None:
        count = self.rng.randrange(4)
        self.add(f"i       SETA    0\n        WHILE   i < {count}\n        MOV     r2, #i * 3\n"
                 "i       SETA    i + 1\n        WEND",
                 "".join(f" mov r2, #{number * 3}\n" for number in range(count)))

    def macro(self) -> None:
        first, second = self.rng.sample(range(12), 2)
        if self.rng.randrange(2):
            self.add(f"        Count   r{first}, {second + 1}", f" count r{first}, {second + 1}")
        else:
            self.add(f"        Pair    r{first}, r{second}", f" pair r{first}, r{second}")

    def routine(self) -> None:
        self.close()
        self.add("        ROUT", "")
        self.used, self.back = set(), []

    def close(self) -> None:
        """Places the numbered labels that are wanted still."""
        for number in self.open:
            self.add(f"{number:02}", f"{number}:")
        self.open = []

    def pool(self) -> None:
        self.add("        LTORG", " .ltorg")

    def space(self) -> None:
        size = 4 * self.rng.randrange(1, 5)
        self.add(f"        %       {size}", f" .space {size}")

    def finish(self) -> None:
        self.close()
        for name in self.unplaced:
            self.add(f"{name}   NOP", f"{name}: mov r0, r0")


def program_pair(seed: int, steps: int) -> tuple[str, str]:
    """A program of so many steps for ObjAsm, and for GNU as."""
    programs = Programs(seed)
    for _ in range(steps):
        programs.step()
    programs.finish()
    return "\n".join(programs.ours) + "\n", "\n".join(programs.theirs) + "\n .ltorg\n"
