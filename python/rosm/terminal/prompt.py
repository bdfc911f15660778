"""Where lines come from: prompt_toolkit with history, completion and the machine in view, or plain input."""

from __future__ import annotations

import os
import shutil
from pathlib import Path
from typing import Any, Callable, Iterator, Protocol

from .colours import STYLES, has_colours
from .talk import Talk
from .view import view_lines
from .words import Known, block_completions, completions

PROMPT, BLOCK_PROMPT = "> ", "| "


class Prompt(Protocol):
    """What reads a line. EOFError: there is none any more. KeyboardInterrupt: it was given up."""

    def __call__(self) -> str: ...


def plain_prompt(talk: Talk) -> Prompt:
    """Lines as the terminal gives them."""
    return lambda: input(BLOCK_PROMPT if talk.is_in_block else PROMPT)


def history_path() -> Path:
    """Where the lines that were typed are kept."""
    state = os.environ.get("XDG_STATE_HOME") or str(Path.home() / ".local/state")
    return Path(state) / "rosm/history"


def kept_history() -> Any:
    """The history of earlier sessions, or one of this session alone where no file can be written."""
    from prompt_toolkit.history import FileHistory, InMemoryHistory
    path = history_path()
    try:
        path.parent.mkdir(parents=True, exist_ok=True)
        with path.open("a"):
            return FileHistory(str(path))
    except OSError:
        return InMemoryHistory()


def label_words(talk: Talk) -> tuple[list[str], list[str]]:
    """The labels and the images of a session, without what is made of no block."""
    labels: list[str] = []
    images: list[str] = []
    for entry in talk.session.entries:
        image = entry.answered.image
        if image:
            images.append(image["name"])
            labels += image.get("labels", {})
    return labels, [*talk.images, *images]


def last_word(talk: Talk, document: Any) -> str:
    """The word before the cursor, which is completed: up to a blank, in a block up to any sign."""
    word: str = document.get_word_before_cursor(WORD=not talk.is_in_block)
    return word


def options_for(talk: Talk, known: Known, before: str) -> list[str]:
    """What completes a line, up to the cursor."""
    if talk.is_in_block:
        return block_completions(before, talk.opened[1:])
    return completions(known, before, *label_words(talk))


def full_prompt(talk: Talk, known: Known) -> Prompt:
    """Lines by prompt_toolkit. ImportError: it isn't there."""
    from prompt_toolkit import PromptSession
    from prompt_toolkit.auto_suggest import AutoSuggestFromHistory
    from prompt_toolkit.completion import Completer, Completion
    from prompt_toolkit.key_binding import KeyBindings
    from prompt_toolkit.styles import Style

    class Words(Completer):
        """Completes the last word."""

        def get_completions(self, document: Any, complete_event: Any) -> Iterator[Any]:
            start = -len(last_word(talk, document))
            for option in options_for(talk, known, document.current_line_before_cursor):
                yield Completion(option, start_position=start)

    keys = KeyBindings()

    @keys.add("tab")
    def complete(event: Any) -> None:
        """A word that can be one alone is there at once; else a list is shown."""
        buffer = event.current_buffer
        options = options_for(talk, known, buffer.document.current_line_before_cursor)
        if len(options) == 1:
            buffer.delete_before_cursor(len(last_word(talk, buffer.document)))
            buffer.insert_text(options[0])
        elif buffer.complete_state:
            buffer.complete_next()
        else:
            buffer.start_completion(insert_common_part=True)

    styles = STYLES if has_colours() else {}
    rules = {name: style for name, style in styles.items() if style} | {"bottom-toolbar": "noreverse"}
    session: Any = PromptSession(history=kept_history(), completer=Words(), complete_while_typing=False, key_bindings=keys,
                                 auto_suggest=AutoSuggestFromHistory(), style=Style.from_dict(rules))
    message = [("class:prompt", PROMPT)], [("class:prompt", BLOCK_PROMPT)]

    def read() -> str:
        text: str = session.prompt(message[talk.is_in_block], bottom_toolbar=toolbar(talk))
        return text

    return read


def toolbar(talk: Talk) -> Callable[[], Any]:
    """The machine below the prompt, where there is room."""
    def pieces() -> Any:
        size = shutil.get_terminal_size()
        lines = view_lines(talk.session.history, size.columns, size.lines)
        return [piece for number, line in enumerate(lines) for piece in [*([("", "\n")] if number else []), *line]]

    return pieces
