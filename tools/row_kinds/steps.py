"""The kind `steps`: a fresh machine, and what is done with it and found."""
import re
from dataclasses import dataclass, field

from row_kinds.script import RowError, Script, Verdict, words_of
from row_kinds.state import State, checked, set_line

ERROR_BLOCK = 0x01C02100
DOINGS = ("run", "step", "call", "look")


@dataclass
class Doing:
    """A step, a call or a look of a row: the pieces of its script, and what should come of it."""

    line: str
    is_step: bool
    before: int
    answer: int
    after: int
    # how it ends; empty where any end will do
    wanted: str
    items: list[str] = field(default_factory=list)
    words: list[tuple[str, int]] = field(default_factory=list)

    def expect(self, items: list[str], script: Script) -> None:
        """Asks for what the items name."""
        self.items += items
        for item in items:
            if item.startswith("["):
                address = item[1 : item.index("]")]
                self.words.append((item, script.ask(f"WORDS &{address} 1")))

    def judge(self, answers: list[str]) -> str | None:
        """Why it fails, if it does."""
        before, after = State.of(answers[self.before]), State.of(answers[self.after])
        found = self.differences_of_end(answers[self.answer], before)
        wanted = State.of(answers[self.before if self.is_step else self.after])
        if self.is_step and not self.wanted:
            wanted.registers["PC"] = wanted.registers["PC"] + 4 & 0x03FFFFFC
        wanted.take(self.items)
        found += after.differences(wanted)
        for item, piece in self.words:
            name, _, value = item.partition("=")
            word = " ".join(words_of(answers[piece]))
            if word != f"{int(value, 16):08X}":
                found.append(f"{name} is {word}, not {int(value, 16):08X}")
        return f"{self.line}: {'; '.join(found)}" if found else None

    def differences_of_end(self, answer: str, before: State) -> list[str]:
        """Whether it ends as it should: a step that goes on is answered with an address."""
        is_halted = self.wanted.startswith("stop ") and self.wanted != "stop Exit"
        wanted = f"{self.wanted} &{before.registers['PC']:X}" if is_halted else self.wanted
        last = answer.rstrip("\n").rpartition("\n")[2]
        is_right = last.endswith(wanted) if wanted else last.startswith("at &")
        return [] if is_right else [f"the answer is {last!r}, not {wanted or 'at ..'!r}"]


def steps(row: str, script: Script) -> Verdict:
    """A row of the kind steps."""
    quiet: list[int] = [script.ask("RESET")]
    doings: list[Doing] = []
    for text in row.partition(";")[0].strip().split(" | "):
        verb, *items = text.split()
        if verb == "set":
            quiet.append(script.ask(*map(set_line, checked(items))))
        elif verb == "has" and doings:
            doings[-1].expect(checked(items), script)
        elif verb in DOINGS:
            doings.append(doing_of(text, script, quiet))
        else:
            raise RowError(f"`{text}` is no field")
    if not doings:
        raise RowError("nothing is done")

    def judge(answers: list[str]) -> str | None:
        for number in quiet:
            if answers[number] not in ("", "reset\n"):
                return f"it can't be set up: {answers[number]!r}"
        return next((why for doing in doings if (why := doing.judge(answers))), None)

    return judge


def doing_of(text: str, script: Script, quiet: list[int]) -> Doing:
    """A step, a call or a look."""
    verb, *words = text.split()
    if verb in ("run", "call") and not (words and re.fullmatch("[0-9A-F]{1,8}", words[0])):
        raise RowError(f"`{text}` has no number")
    number = words.pop(0) if verb in ("run", "call") else ""
    if verb == "run":
        quiet.append(script.ask(f"POKE PC &{number}"))
    before = script.ask("REGS", "BANKS")
    answer = script.ask({"call": f"CALL &{number}", "look": "STEP 0"}.get(verb, "STEP 1"))
    after = script.ask("REGS", "BANKS")
    end = " ".join(words).replace("stops ", "stop ")
    if verb == "call" and not end or verb != "call" and end and not end.startswith("stop "):
        raise RowError(f"`{text}` has no end, or none that it can have")
    doing = Doing(text, verb in ("run", "step"), before, answer, after, end)
    if end == "ok":
        doing.expect(["v"], script)
    elif end.startswith("error "):
        held = f"[{ERROR_BLOCK:X}]={int(end[6:]):X}"
        doing.expect(["V", f"R0={ERROR_BLOCK:X}", held], script)
    return doing
