"""Random listings with labels, data, macros, loops and gaps, each also written for GNU as."""

from __future__ import annotations

import random

from basic_instructions import block, data_operation, multiply, transfer

MACROS = """END
DEF FNwords(n%,first%)
LOCAL i%
FOR i%=first% TO first%+n%-1
[OPT opt%:EQUD i%*i%-5:]
NEXT
=opt%
DEF FNstore(r%,place%)
IF r% AND 1 THEN
[OPT opt%
STR r%,[R13,#-4]!:BL place%
]
ELSE
[OPT opt%:STMFD (13)!,{r%,R14}:]
ENDIF
=opt%
DEF PROCtable(n%)
LOCAL k%
WHILE k%<n%
CASE k% MOD 3 OF
WHEN 0
[OPT opt%:EQUW k%:]
WHEN 1:[OPT opt%:EQUB k%:EQUB k%*2:]
OTHERWISE
[OPT opt%:EQUS CHR$(65+k%)+"z":]
ENDCASE
k%+=1
ENDWHILE
ENDPROC"""


class Pair:
    """The lines of one program in both languages."""

    def __init__(self, dice: random.Random) -> None:
        self.dice = dice
        self.basic: list[str] = []
        self.gnu: list[str] = []
        self.labels = [f"l{number}{dice.choice(('', '%', '_x'))}" for number in range(8)]
        self.waiting = list(range(8))

    def say(self, basic: str, gnu: str) -> None:
        self.basic.append(basic)
        self.gnu.append(gnu)

    def target(self) -> tuple[str, str]:
        number = self.dice.randrange(8)
        return self.labels[number], f"l{number}"

    def label(self) -> None:
        if self.waiting:
            number = self.waiting.pop(0)
            self.say(f".{self.labels[number]}", f"l{number}:")

    def piece(self) -> None:
        dice = self.dice
        choice = dice.randrange(13)
        label, gnu = self.target()
        if choice < 3:
            make = dice.choice((data_operation, multiply, transfer, block))
            self.say(*make(dice))
        elif choice == 3:
            name = dice.choice(("B", "BL", "BEQ", "BLNE"))
            self.say(f"{name} {label}", f"{name} {gnu}")
        elif choice == 4:
            self.load(label, gnu)
        elif choice == 5:
            more = dice.randrange(-40, 40)
            self.say(f"EQUD {label}{more:+}", f".word {gnu}{more:+}")
        elif choice == 6:
            self.data()
        elif choice == 7:
            count, first = dice.randrange(1, 5), dice.randrange(20)
            self.say(
                f"OPT FNwords({count},{first})",
                "\n".join(f".word {value * value - 5}" for value in range(first, first + count)),
            )
        elif choice == 8:
            self.store(label, gnu)
        elif choice == 9:
            self.table()
        elif choice == 10:
            size = 4 * dice.randrange(1, 9)
            self.say(f"]\nP%=P%+{size}:O%=O%+{size}\n[OPT opt%", f".space {size}")
        elif choice == 11:
            count = dice.randrange(1, 4)
            self.say(
                f"]\nFOR n%=1 TO {count}\n[OPT opt%\nMOV R1,#n%<<2\n]\nNEXT\n[OPT opt%",
                "\n".join(f"mov r1,#{4 * n}" for n in range(1, count + 1)),
            )
        else:
            self.label()

    def load(self, label: str, gnu: str) -> None:
        name = self.dice.choice(("LDR", "STR", "LDRB"))
        number = self.dice.randrange(13)
        self.say(f"{name} R{number},{label}", f"{name} r{number},{gnu}")

    def data(self) -> None:
        dice = self.dice
        text = "".join(dice.choice("abc :;,") for _ in range(dice.randrange(1, 9)))
        byte, half = dice.randrange(256), dice.randrange(65536)
        self.say(
            f'EQUB {byte}:EQUW {half}:EQUS "{text}":ALIGN',
            f'.byte {byte},{half & 255},{half >> 8}\n.ascii "{text}"\n.balign 4, 0',
        )

    def store(self, label: str, gnu: str) -> None:
        number = self.dice.randrange(12)
        shown = self.dice.choice(("", "OPT "))
        lines = f"str r{number},[sp,#-4]!\nbl {gnu}" if number & 1 else f"stmfd sp!,{{r{number},lr}}"
        self.say(f"{shown}FNstore({number},{label})", lines)

    def table(self) -> None:
        count = self.dice.randrange(1, 7)
        lines = []
        for k in range(count):
            lines.append((f".byte {k},0", f".byte {k},{2 * k}", f'.ascii "{chr(65 + k)}z"')[k % 3])
        self.say(f"]\nPROCtable({count})\n[OPT opt%\nALIGN", "\n".join([*lines, ".balign 4, 0"]))


def listing(dice: random.Random) -> tuple[str, str, int]:
    """A listing, the same for GNU as, and its origin."""
    pair = Pair(dice)
    pair.say("EQUD 1", ".word 1")  # an image begins with the first byte that is laid
    for _ in range(dice.randrange(20, 60)):
        pair.piece()
    while pair.waiting:
        pair.label()
    pair.say("EQUD &12345678", ".word 0x12345678")
    origin, first = (0x8F00, 0) if dice.random() < 0.5 else (dice.choice((0, 0x8000, 0x1800000)), 4)
    place = "code%" if first == 0 else f"&{origin:X}"
    head = [
        "link=14",
        "DIM code% 20000",
        f"FOR opt%={first} TO {first + 2} STEP 2",
        f"P%={place}:O%=code%",
        "[OPT opt%",
    ]
    return "\n".join([*head, *pair.basic, "]", "NEXT", MACROS]), "\n".join(pair.gnu), origin
