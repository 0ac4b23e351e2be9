"""Lines from a terminal, with a history and completion: by prompt_toolkit, or by readline where that isn't installed."""
from __future__ import annotations

from typing import Iterator, List

from .talk import Talk, completions

PROMPT = "> "


def lines_of_terminal(talk: Talk) -> Iterator[str]:
    """The lines that are typed. Ctrl-C drops a line, Ctrl-D ends."""
    try:
        import prompt_toolkit  # noqa: F401
    except ImportError:
        return plain_lines(talk)
    return prompted_lines(talk)


def prompted_lines(talk: Talk) -> Iterator[str]:
    """Lines read by prompt_toolkit."""
    from prompt_toolkit import PromptSession
    from prompt_toolkit.completion import WordCompleter
    from prompt_toolkit.history import InMemoryHistory

    session: PromptSession[str] = PromptSession(
        history=InMemoryHistory(),
        completer=WordCompleter(lambda: completions(talk), WORD=True),
        bottom_toolbar=lambda: " %d events   help  undo  find  refuse  quit" % len(talk.walk.trace),
    )
    while True:
        try:
            yield session.prompt(PROMPT)
        except KeyboardInterrupt:
            continue
        except EOFError:
            return


def plain_lines(talk: Talk) -> Iterator[str]:
    """Lines read by readline."""
    import readline

    def complete(text: str, number: int) -> str | None:
        fitting: List[str] = [word for word in completions(talk) if word.startswith(text)]
        return fitting[number] if number < len(fitting) else None

    readline.set_completer(complete)
    readline.set_completer_delims(" ")
    readline.parse_and_bind("tab: complete")
    while True:
        try:
            yield input(PROMPT)
        except KeyboardInterrupt:
            print()
        except EOFError:
            print()
            return
