"""Expressions: read token by token and worked out as they are read.

Levels, the tightest first: unary; `* / :MOD:`; `:LEFT: :RIGHT: :CC:`; shifts and rotations;
`+ - :AND: :OR: :EOR:`; comparisons; `:LAND: :LOR: :LEOR:`. Each goes from the left.
"""

from __future__ import annotations

from typing import TYPE_CHECKING, Callable

from ..messages import SourceError
from .symbols import REGISTERS, Undefined
from .tokens import END, Token, local_parts, tokens_of
from .values import (BINARY, WORD, Distance, RegisterBase, Value, as_number, as_text, as_truth,
                     kind_of, subtract)

if TYPE_CHECKING:
    from .assembler import Assembler

DEEPEST = 100  # parentheses and unary operators within one another


class Expressions:
    """The tokens of a statement's operands, and where the reading stands."""

    def __init__(self, assembler: "Assembler", text: str, strict: bool = False) -> None:
        self.assembler = assembler
        self.tokens = tokens_of(text)
        self.index = 0
        self.strict = strict
        self.depth = 0

    # Tokens.

    def peek(self) -> Token:
        return self.tokens[self.index]

    def next(self) -> Token:
        token = self.tokens[self.index]
        if token is not END:
            self.index += 1
        return token

    def take(self, sign: str) -> bool:
        """Whether the sign stands next; then it is read."""
        token = self.tokens[self.index]
        if token.kind == "sign" and token.text == sign:
            self.index += 1
            return True
        return False

    def need(self, sign: str) -> None:
        """Reads the sign that must stand next."""
        if not self.take(sign):
            raise wanted(sign, self.peek())

    def at_end(self) -> bool:
        return self.tokens[self.index] is END

    def end(self) -> None:
        """Raises where anything is left."""
        if not self.at_end():
            raise SourceError("nothing may follow here", self.peek().text)

    def warn(self, reason: str) -> None:
        self.assembler.warn(reason)

    # Values.

    def value(self) -> Value:
        """The expression that stands next."""
        return self.level(1)

    def number(self) -> int:
        """The expression that stands next, as a number."""
        start = self.index
        value = self.level(1)
        return value if type(value) is int else as_number(value, self.words_from(start))

    def truth(self) -> bool:
        start = self.index
        return as_truth(self.level(1), self.words_from(start))

    def string(self) -> str:
        start = self.index
        return as_text(self.level(1), self.words_from(start))

    def words_from(self, start: int) -> str:
        """The source's words from a place up to where the reading stands."""
        return " ".join(token.text for token in self.tokens[start:self.index])

    def level(self, lowest: int) -> Value:
        """The expression that stands next, with operators of this level and tighter ones."""
        left = self.unary()
        while True:
            token = self.tokens[self.index]
            found = BINARY.get(token.value if token.kind == "operator" else token.text)  # type: ignore
            if found is None or token.kind not in ("sign", "operator") or found[0] < lowest:
                return left
            self.index += 1
            right = self.level(found[0] + 1)
            try:
                left = found[1](left, right)
            except SourceError as error:
                raise SourceError(error.reason, error.word or token.text) from None

    def unary(self) -> Value:
        """An operand with the unary operators before it."""
        token = self.next()
        if token.kind == "number":
            return token.value
        if token.kind == "name":
            return self.named(str(token.value), token.text)
        if token.kind == "text":
            return token.value
        if token.kind == "local":
            return self.assembler.numbered(*local_parts(token.text), token.text)
        self.depth += 1
        if self.depth > DEEPEST:
            raise SourceError("the expression is too deep", token.text)
        try:
            return self.operation(str(token.value)) if token.kind == "operator" else self.signed(token)
        finally:
            self.depth -= 1

    def signed(self, token: Token) -> Value:
        """An operand that begins with a sign."""
        sign = token.text
        if sign == "(":
            value = self.level(1)
            self.need(")")
            return value
        if sign == "-":
            return subtract(0, self.unary())
        if sign == "+":
            return self.unary()
        if sign == "~":
            return ~as_number(self.unary()) & WORD
        if sign == "!":
            return not as_truth(self.unary())
        if sign == ".":
            return self.assembler.here()
        if sign == "@":
            return self.assembler.layout
        if sign == "?":
            return self.size_of()
        if sign == "{":
            return self.builtin()
        raise wanted("a value", token)

    def named(self, name: str, word: str) -> Value:
        """The value of a name: a variable, a symbol, or a register's number."""
        assembler = self.assembler
        variable = assembler.variable(name)
        if variable is not None:
            return variable.value
        symbols = assembler.symbols
        known = symbols.known.get(name)
        if known is None and word[0] != "|":
            number = symbols.registers.get(name, REGISTERS.get(name))
            if number is not None:
                return number
        return self.of_symbol(name, word)

    def of_symbol(self, name: str, word: str) -> Value:
        try:
            return self.assembler.symbols.symbol(name, self.strict).value
        except Undefined as error:
            raise Undefined(error.reason, word) from None

    def size_of(self) -> int:
        """`?name`: how many bytes the name's line has."""
        token = self.next()
        if token.kind != "name":
            raise SourceError("? wants the name of a line", token.text)
        return self.assembler.symbols.symbol(str(token.value), self.strict).size

    def builtin(self) -> Value:
        """`{PC}` and its kin, of which `{` was read."""
        token = self.next()
        if token.kind != "name":
            raise SourceError("a name is wanted behind {", token.text)
        self.need("}")
        return self.assembler.builtin(str(token.value).upper())

    def operation(self, name: str) -> Value:
        """An operand behind a unary operator between colons."""
        if name == ":DEF:":
            return self.defined()
        if name in (":BASE:", ":INDEX:"):
            return self.part_of_distance(name)
        work = UNARY.get(name)
        if work is None:
            raise SourceError("no operator of this name comes before a value", name)
        try:
            return work(self.unary())
        except Undefined:
            raise
        except SourceError as error:
            raise SourceError(error.reason, error.word or name) from None

    def defined(self) -> bool:
        """`:DEF: name`: whether the name has a value before this line."""
        token = self.next()
        if token.kind != "name":
            raise SourceError(":DEF: wants a name", token.text)
        name = str(token.value)
        symbols = self.assembler.symbols
        if self.assembler.variable(name) is not None or name in symbols.registers:
            return True
        try:
            symbols.symbol(name, strict=True)
        except Undefined:
            return False
        return True

    def part_of_distance(self, name: str) -> int:
        """`:BASE:` and `:INDEX:` of a layout's name; the index of a plain number is itself."""
        value = self.unary()
        if isinstance(value, Distance):
            if name == ":INDEX:":
                return value.offset
            if isinstance(value.base, RegisterBase):
                return value.base.number
        elif name == ":INDEX:" and type(value) is int:
            return value
        raise SourceError(f"{name} wants a name of a layout with a register, and this is "
                          f"{kind_of(value)}")


def wanted(what: str, token: Token) -> SourceError:
    """The error of a token in place of what must stand there."""
    return SourceError(f"{what} is wanted " + ("here" if token.text else "at the end"), token.text)


def shown(value: Value) -> Value:
    """`:STR:`: eight digits of a number, T or F of a truth."""
    if isinstance(value, bool):
        return "T" if value else "F"
    return f"{as_number(value):08X}"


UNARY: dict[str, Callable[[Value], Value]] = {
    ":NOT:": lambda value: ~as_number(value) & WORD, ":LNOT:": lambda value: not as_truth(value),
    ":LEN:": lambda value: len(as_text(value)), ":CHR:": lambda value: chr(as_number(value) & 255),
    ":STR:": shown, ":UPPERCASE:": lambda value: as_text(value).upper(),
    ":LOWERCASE:": lambda value: as_text(value).lower()}
