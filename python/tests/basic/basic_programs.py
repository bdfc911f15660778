"""Random programs of nested loops, choices and calls, which add up what they pass through in t%."""

from __future__ import annotations

import random

ROUTINES = [
    "DEF PROCadd(n%)",
    "LOCAL a%",
    "a%=n%*2",
    "t%=(t%*3+a%) AND &FFFFF",
    "IF n%>5 THEN ENDPROC",
    "t%+=1",
    "ENDPROC",
    "DEF FNmix(x%,y%)",
    "LOCAL i%,s%",
    "FOR i%=1 TO 9",
    "s%+=i%*x%",
    "IF s%>y% THEN =s%+i%",
    "NEXT",
    "=s%-y%",
    "DEF PROCback(RETURN r%,v%)",
    "r%=r%+v% MOD 7",
    "ENDPROC",
]


class Writer:
    """Writes the lines of one program."""

    def __init__(self, dice: random.Random) -> None:
        self.dice = dice
        self.lines: list[str] = []
        self.names = 0

    def simple(self) -> str:
        return self.dice.choice(
            (
                f"t%=(t%*2+{self.dice.randrange(99)}) AND &FFFFF",
                "t%+=b%",
                "b%=(b%+3) MOD 11",
                f"PROCadd({self.dice.randrange(10)})",
                "t%=FNmix(b%,t% MOD 50) AND &FFFFF",
                "PROCback(b%,t%)",
                "SWAP t%,b%:t%=t% AND &FFFF:b%=b% MOD 13",
            )
        )

    def condition(self) -> str:
        return self.dice.choice(
            ("b%>5", "(t% AND 1)=0", "t% MOD 3=b% MOD 3", "NOT(b%=2)", "b%<4 OR b%>8", "TRUE", "FALSE")
        )

    def block(self, depth: int) -> None:
        for _ in range(self.dice.randrange(1, 4)):
            self.statement(depth)

    def statement(self, depth: int) -> None:
        dice = self.dice
        choice = dice.randrange(8) if depth > 0 else dice.randrange(2)
        if choice == 0:
            self.lines.append(self.simple())
        elif choice == 1:
            self.lines.append(f"IF {self.condition()} THEN {self.simple()} ELSE {self.simple()}")
        elif choice == 2:
            self.choice(depth)
        elif choice == 3:
            self.case(depth)
        else:
            self.loop(depth, choice)

    def choice(self, depth: int) -> None:
        self.lines.append(f"IF {self.condition()} THEN")
        self.block(depth - 1)
        if self.dice.random() < 0.6:
            self.lines.append("ELSE")
            self.block(depth - 1)
        self.lines.append("ENDIF")

    def case(self, depth: int) -> None:
        self.lines.append("CASE b% MOD 6 OF")
        for value in ("0,3", "1", "4,b%-1"):
            self.lines.append(f"WHEN {value}:{self.simple()}")
            self.block(depth - 1)
        if self.dice.random() < 0.5:
            self.lines.append(f"OTHERWISE {self.simple()}")
        self.lines.append("ENDCASE")

    def loop(self, depth: int, choice: int) -> None:
        self.names += 1
        name = f"n{self.names}%"
        if choice in (4, 5):
            first, last, step = self.dice.choice(
                (("1", "3", ""), ("5", "1", " STEP -2"), ("2", "1", ""), ("0", "4", " STEP 3"))
            )
            self.lines.append(f"FOR {name}={first} TO {last}{step}")
            self.block(depth - 1)
            self.lines.append(self.dice.choice(("NEXT", f"NEXT {name}", f"t%+={name}:NEXT")))
        elif choice == 6:
            self.lines += [f"{name}=0", f"REPEAT {name}+=1"]
            self.block(depth - 1)
            self.lines.append(f"UNTIL {name}>=3 OR {self.condition()}")
        else:
            self.lines += [f"{name}=0", f"WHILE {name}<3 AND ({self.condition()})"]
            self.block(depth - 1)
            self.lines.append(f"{name}+=1:ENDWHILE")


def program(dice: random.Random) -> list[str]:
    """The lines of a program without numbers; the lines behind END are its routines."""
    writer = Writer(dice)
    writer.lines += [f"t%={dice.randrange(1000)}:b%={dice.randrange(11)}"]
    for _ in range(5):
        writer.statement(3)
    return writer.lines
