"""Random instructions of the ARM2, each spelt as BASIC has it and as GNU as has it."""

from __future__ import annotations

import random

CONDITIONS = ("", "EQ", "NE", "CS", "CC", "MI", "PL", "VS", "VC", "HI", "LS", "GE", "LT", "GT", "LE", "AL")
DATA = ("AND", "EOR", "SUB", "RSB", "ADD", "ADC", "SBC", "RSC", "ORR", "BIC")
TESTS = ("TST", "TEQ", "CMP", "CMN")
SHIFTS = ("LSL", "LSR", "ASR", "ROR")
MODES = ("IA", "IB", "DA", "DB", "FD", "FA", "ED", "EA")
ORIGIN = 0x8F00
Pair = tuple[str, str]


def register(dice: random.Random, top: int = 15) -> Pair:
    number = dice.randrange(top + 1)
    names = [f"R{number}", f"r{number}", f"({number})"]
    names += {13: ["SP", "sp"], 14: ["LR", "link", "(link)"], 15: ["PC", "pc"]}.get(number, [])
    return dice.choice(names), f"r{number}"


def spaces(dice: random.Random) -> str:
    return " " * dice.choice((0, 0, 0, 1, 2))


def immediate(dice: random.Random) -> int:
    byte, turn = dice.randrange(256), dice.randrange(16) * 2
    value = (byte >> turn | byte << 32 - turn) & 0xFFFFFFFF
    return value - (1 << 32) if value >> 31 else value


def spelt(dice: random.Random, value: int) -> str:
    """A number as BASIC may have it."""
    forms = [str(value), f"{value}+0", f"({value})"]
    if value >= 0:
        forms += [f"&{value:X}", f"%{value:b}", f"&{value:X} EOR 0", f"{value}<<0"]
    else:
        forms.append(f"NOT {~value}")
    if 32 < value < 127 and value != 34:
        forms.append(f'ASC"{chr(value)}"')
    return dice.choice(forms)


def shift(dice: random.Random) -> Pair:
    """A shift of a register by a number, with the comma before it."""
    if dice.random() < 0.4:
        return "", ""
    if dice.random() < 0.1:
        return ",RRX", ",rrx"
    kind = dice.choice(SHIFTS)
    amount = dice.randrange(1, 33 if kind in ("LSR", "ASR") else 32)
    name = dice.choice((kind, kind.lower(), "ASL" if kind == "LSL" else kind))
    return f",{spaces(dice)}{name}{spaces(dice)}#{spelt(dice, amount)}", f",{kind.lower()} #{amount}"


def operand(dice: random.Random) -> Pair:
    """The second operand of an operation on data."""
    if dice.random() < 0.4:
        value = immediate(dice)
        return f"#{spelt(dice, value)}", f"#{value}"
    basic, gnu = register(dice)
    if dice.random() < 0.2:
        by, by_gnu = register(dice, 14)
        kind = dice.choice(SHIFTS)
        gap = "" if by[0] in "Rr(" and by.lower() != "rrx" else " "
        return f"{basic},{kind}{gap}{by}", f"{gnu},{kind.lower()} {by_gnu}"
    more, more_gnu = shift(dice)
    return basic + more, gnu + more_gnu


def data_operation(dice: random.Random) -> Pair:
    condition, ending = dice.choice(CONDITIONS), dice.choice(("", "S"))
    (target, target_gnu), (last, last_gnu) = register(dice), operand(dice)
    if dice.random() < 0.3:
        name = dice.choice(("MOV", "MVN"))
        return (
            f"{name}{condition}{ending} {target},{last}",
            f"{name}{condition}{ending} {target_gnu},{last_gnu}",
        )
    first, first_gnu = register(dice)
    if dice.random() < 0.3:
        name, p = dice.choice(TESTS), dice.choice(("", "", "P"))
        gap = " " if p or condition else dice.choice((" ", "")) if first[0] in "Rr(" else " "
        return (
            f"{name}{condition}{p}{gap or ' '}{first},{last}",
            f"{name}{condition}{p} {first_gnu},{last_gnu}",
        )
    name, gap = dice.choice(DATA), spaces(dice)
    return (
        f"{name}{condition}{ending} {target},{gap}{first}{gap},{last}",
        f"{name}{condition}{ending} {target_gnu},{first_gnu},{last_gnu}",
    )


def multiply(dice: random.Random) -> Pair:
    condition, ending = dice.choice(CONDITIONS), dice.choice(("", "S"))
    a, b, c, d = dice.sample(range(15), 4)
    if dice.random() < 0.5:
        return f"MUL{condition}{ending} R{a},R{b},R{c}", f"MUL{condition}{ending} r{a},r{b},r{c}"
    return f"MLA{condition}{ending} R{a},R{b},R{c},R{d}", f"MLA{condition}{ending} r{a},r{b},r{c},r{d}"


def transfer(dice: random.Random) -> Pair:
    condition, byte = dice.choice(CONDITIONS), dice.choice(("", "B"))
    name = dice.choice(("LDR", "STR"))
    target, target_gnu = register(dice, 14)
    number = dice.randrange(14)
    base, base_gnu = dice.choice((f"R{number}", f"r{number}", f"({number})")), f"r{number}"
    index = dice.choice([other for other in range(15) if other != number])
    if dice.random() < 0.6:
        distance = dice.randrange(-4095, 4096)
        off, off_gnu = f"#{spelt(dice, distance)}", f"#{distance}"
    else:
        more, more_gnu = shift(dice)
        sign = dice.choice(("", "-", "+"))
        off, off_gnu = f"{sign}R{index}{more}", f"{sign}r{index}{more_gnu}"
    form = dice.randrange(4)
    if form == 0:
        back = dice.choice(("", "!"))
        return (
            f"{name}{condition}{byte} {target},[{base},{off}]{back}",
            f"{name}{condition}{byte} {target_gnu},[{base_gnu},{off_gnu}]{back}",
        )
    if form == 1:
        return (
            f"{name}{condition}{byte} {target},[{base}]",
            f"{name}{condition}{byte} {target_gnu},[{base_gnu}]",
        )
    user = "T" if form == 3 else ""
    return (
        f"{name}{condition}{byte}{user} {target},[{base}],{off}",
        f"{name}{condition}{byte}{user} {target_gnu},[{base_gnu}],{off_gnu}",
    )


def block(dice: random.Random) -> Pair:
    name, condition, mode = dice.choice(("LDM", "STM")), dice.choice(CONDITIONS), dice.choice(MODES)
    number = dice.randrange(14)
    base = dice.choice((f"R{number}", f"({number})", f"r{number} "))
    registers = sorted(dice.sample([r for r in range(16) if r != number], dice.randrange(1, 9)))
    parts = []
    for place in registers:
        parts.append(
            dice.choice((f"R{place}", f"r{place}", f"({place})", "link" if place == 14 else f"R{place}"))
        )
    back, hat = dice.choice(("", "!")), dice.choice(("", "^"))
    if hat and back and not (name == "LDM" and 15 in registers):
        hat = ""
    return (
        f"{name}{condition}{mode} {base}{back},{{{','.join(parts)}}}{hat}",
        f"{name}{condition}{mode} r{number}{back},{{{','.join(f'r{r}' for r in registers)}}}{hat}",
    )


def jump(dice: random.Random, place: int) -> Pair:
    """B, BL and SWI; place is the number of this word."""
    condition = dice.choice(CONDITIONS)
    if dice.random() < 0.3:
        number = dice.randrange(1 << 24)
        return f"SWI{condition} {spelt(dice, number)}", f"SWI{condition} {number}"
    name = dice.choice(("B", "BL"))
    distance = 4 * dice.randrange(-1000, 1000)
    target = ORIGIN + 4 * place + distance
    sign = "+" if distance >= 0 else "-"
    form = dice.choice((f"P%{sign}{abs(distance)}", f"&{target:X}", str(target)))
    return f"{name}{condition} {form}", f"{name}{condition} .{sign}{abs(distance)}"


def instruction(dice: random.Random, place: int) -> Pair:
    """One instruction: BASIC's text and GNU's."""
    choice = dice.randrange(10)
    if choice < 4:
        return data_operation(dice)
    if choice < 5:
        return multiply(dice)
    if choice < 7:
        return transfer(dice)
    if choice < 9:
        return block(dice)
    return jump(dice, place)
