"""The kind `cuts`: a program whose run, cut in two by a budget or a break, ends as in one piece."""
from row_kinds.script import Script, Verdict, fields_of, words_of
from row_kinds.texts import bytes_of

# all that is mapped of a machine of six pages, and what the views show
LOOK = ["REGS", "BANKS", "FRAMES", "AREAS", "MODULES", "FLEX", "HEAP &1800000"]
PAGES = (0x8000, 0x9000, 0x1800000, 0x1C00000, 0x1C01000, 0x1C02000)
LOOK += [f"WORDS &{page:X} 1024" for page in PAGES]


def cuts(row: str, script: Script) -> Verdict:
    """A row of the kind cuts."""
    steps, words, *sources = fields_of(row, "STEPS | WORDS | NAME = SOURCE ..")
    count = int(steps)
    for number, text in enumerate(sources):
        name, _, source = text.partition(" = ")
        origin = "&8000" if number == 0 else "0"
        lines = bytes_of(source).removesuffix("\n")
        script.ask(f"FORGET {name}", f"ASM {name} {origin}", lines, "END")
    start = ["RESET", f"BOOT {sources[0].partition(' = ')[0]}"]
    whole = script.ask(*start, "RUN", f"EXPECT STEPS {count}")
    held = [script.ask(f"WORDS &{word.partition('=')[0]} 1") for word in words.split()]
    end = script.ask(*LOOK)
    ended: dict[str, tuple[int, int]] = {}
    for taken in range(count):
        ran = script.ask(*start, f"STEP {taken}", "RUN", f"EXPECT STEPS {count - taken}")
        ended[f"cut after {taken}"] = ran, script.ask(*LOOK)
    for taken in range(1, count):
        script.ask(*start, f"STEP {taken}", "BREAK PC")
        ran = script.ask(*start, f"REPEAT {count} RUN", "EXPECT ANSWER stop Exit")
        ended[f"broken after {taken}"] = ran, script.ask(*LOOK)
        script.ask(*start, f"STEP {taken}", "UNBREAK PC")

    def judge(answers: list[str]) -> str | None:
        if not answers[whole].endswith("stop Exit\npass\n"):
            return f"in one piece it ends otherwise: {answers[whole]!r}"
        for word, piece in zip(words.split(), held, strict=True):
            if words_of(answers[piece]) != [f"{int(word.partition('=')[2], 16):08X}"]:
                return f"found {' '.join(words_of(answers[piece]))}, wanted {word}"
        for name, (ran, look) in ended.items():
            has_stopped = "broken" not in name or "stop Break" in answers[ran]
            if not (answers[ran].endswith("stop Exit\npass\n") and has_stopped):
                return f"{name} steps it ends otherwise: {answers[ran]!r}"
            if answers[look] != answers[end]:
                return f"{name} steps it leaves another machine"
        return None

    return judge
