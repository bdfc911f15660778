"""What the tests of listings share."""

from __future__ import annotations

from rosm.basic import Options, assemble_bytes, run_listing
from rosm.basic.interpreter import Basic
from rosm.messages import MessageList
from rosm.program import Program


def value_of(expression: str, before: str = "") -> object:
    """The value of an expression, behind statements that are run."""
    messages = MessageList()
    basic = run_listing("test", before.encode("latin-1"), Options(), messages)
    assert not messages.errors(), [message.text() for message in messages.items]
    return basic.evaluate_text(expression)


def run(text: str, options: Options | None = None) -> tuple[Basic, MessageList]:
    """Runs a listing."""
    messages = MessageList()
    basic = run_listing("test", text.encode("latin-1"), options or Options(), messages)
    assert basic is not None
    return basic, messages


def variables(text: str) -> dict[str, object]:
    """The variables behind a listing that has no error."""
    basic, messages = run(text)
    assert not messages.errors(), "\n".join(message.text() for message in messages.items)
    return basic.variables


def images(text: str | bytes, options: Options | None = None) -> tuple[list[Program], MessageList]:
    """What a listing comes to."""
    messages = MessageList()
    data = text if isinstance(text, bytes) else text.encode("latin-1")
    return assemble_bytes("test", data, options or Options(), messages), messages


def image(text: str | bytes, options: Options | None = None) -> bytes:
    """The bytes of a listing that makes one image and has no error."""
    programs, messages = images(text, options)
    assert not messages.errors(), "\n".join(message.text() for message in messages.items)
    assert len(programs) == 1
    return programs[0].data


def errors(text: str, options: Options | None = None) -> list[str]:
    """The errors of a listing, each as `line: word: reason`."""
    _, messages = images(text, options)
    return [f"{message.position.line}: {message.word}: {message.reason}" for message in messages.errors()]


def warnings(text: str) -> list[str]:
    """The warnings of a listing that has no error."""
    _, messages = images(text)
    assert not messages.errors(), "\n".join(message.text() for message in messages.items)
    return [
        f"{message.position.line}: {message.word}: {message.reason}"
        for message in messages.items
        if message.severity == "warning"
    ]


def assembled(statements: str) -> bytes:
    """The bytes of statements of the assembler, in two passes at &8F00."""
    return image(f"DIM code% 100000\nFOR pass%=0 TO 2 STEP 2\nP%=code%\n[OPT pass%\n{statements}\n]\nNEXT\n")
