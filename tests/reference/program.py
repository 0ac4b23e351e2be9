"""The reference as a program, with the words of cspwatch.

    check SPEC PROCESS [--large]
    print SPEC PROCESS
    tree SPEC
    replay JOURNAL
    show JOURNAL [--rejected] [--coverage] [--format json]

The calls below work on bytes, and answer what the program would write and its exit status.
"""

from __future__ import annotations

import argparse
import os
import sys
import threading
from collections.abc import Callable
from typing import NamedTuple, TypeVar

from . import trees
from .elaboration import read
from .faults import Column, GivesUp, JournalFault, JudgeFault, ScriptFault
from .journal import opened
from .parts import PartFault, opened_parts, replayed_parts
from .printing import printed
from .protocol import COMMAND, EVENT, LINE, Conversation
from .session import Session, replayed
from .showing import shown
from .syntax import parse

DONE, REJECTED, BAD_USE, BAD_SCRIPT, BAD_JOURNAL, LIMIT, NO_OPINION = 0, 1, 2, 3, 4, 6, 99

STACK_BYTES = 512 * 1024 * 1024
DEEPEST_CALLS = 200_000

Result = TypeVar("Result")


class Answer(NamedTuple):
    output: bytes
    errors: bytes
    status: int


def failed(message: str, status: int) -> Answer:
    return Answer(b"", message.encode("latin-1") + b"\n", status)


def process_bytes(word: str) -> bytes:
    """The process that a word of the call is: what is no UTF-8 in it is replaced."""
    return os.fsencode(word).decode("utf-8", "replace").encode()


def refused(fault: ScriptFault, root: bytes, name: str) -> Answer:
    """That the script is refused, or the phrase for the process."""
    whose = root.decode("latin-1") if isinstance(fault.line, Column) else name
    return failed(f"{whose}:{fault}", BAD_SCRIPT)


def print_script(text: bytes, process: str, name: str = "p.csp") -> Answer:
    """What `print` answers for a script."""
    root = process_bytes(process)
    try:
        return Answer(printed(read(text, root)).encode(), b"", DONE)
    except ScriptFault as fault:
        return refused(fault, root, name)


def tree(text: bytes, name: str = "p.csp") -> Answer:
    """The tree of a script as text."""
    try:
        return Answer(trees.shown(parse(text)).encode() + b"\n", b"", DONE)
    except ScriptFault as fault:
        return failed(f"{name}:{fault}", BAD_SCRIPT)


def check(text: bytes, process: str, lines: bytes, large: bool = False, name: str = "p.csp") -> Answer:
    """What `check` answers for a script and the lines of a conversation."""
    root = process_bytes(process)
    try:
        conversation = Conversation(Session(read(text, root), large))
    except ScriptFault as fault:
        return refused(fault, root, name)
    except JudgeFault as fault:
        return failed(f"{name}: {fault}", LIMIT)
    output = "".join(reply + "\n" for reply in conversation.replies(lines)).encode()
    own = {COMMAND, EVENT, LINE}
    if "rejected" in conversation.outcomes:
        return Answer(output, b"", REJECTED)
    if conversation.outcomes - own:
        return Answer(output, b"", LIMIT)
    return Answer(output, b"", BAD_USE if conversation.outcomes else DONE)


def with_session(call: Callable[[], Session], name: str, output: Callable[[Session], str]) -> Answer:
    """What is made of the session of a journal that the call gives, or the fault that the journal has."""
    try:
        session = call()
    except (JournalFault, PartFault) as fault:
        return failed(f"{name}: {fault}", BAD_JOURNAL)
    except ScriptFault as fault:
        what = "root" if isinstance(fault.line, Column) else "script"
        return failed(f"{name}: {what} {fault}", BAD_JOURNAL)
    except JudgeFault as fault:
        return failed(f"{name}: {fault}", LIMIT)
    return Answer(output(session).encode(), b"", REJECTED if session.counts()[3] else DONE)


def with_journal(file: bytes, name: str, output: Callable[[Session], str]) -> Answer:
    """What is made of the session of a journal, or the fault that it has."""
    return with_session(lambda: replayed(opened(file), watches=True), name, output)


def replay(file: bytes, name: str = "j") -> Answer:
    """What `replay` answers for the bytes of a journal."""
    return with_journal(file, name, lambda session: session.summary() + "\n")


def told_after(count: int, name: str) -> bytes:
    """What is reported of so many bytes after the last record; nothing where there are none."""
    what = b"byte" if count == 1 else b"bytes"
    return b"%s: %d %s after the last record\n" % (name.encode(), count, what) if count else b""


def after_last_record(file: bytes, name: str = "j") -> bytes:
    """What `show` reports of the bytes after the last record of a journal; nothing where there are none."""
    return told_after(len(file) - opened(file).length, name)


def show(file: bytes, name: str = "j", rejected: bool = False, coverage: bool = False, as_json: bool = False) -> Answer:
    """What `show` answers for the bytes of a journal."""
    answer = with_journal(file, name, lambda session: shown(session, rejected, coverage, as_json))
    return answer if answer.errors else Answer(answer.output, after_last_record(file, name), answer.status)


def of_parts(files: list[bytes], size: int, output: Callable[[Session], str], name: str = "j") -> Answer:
    """What is made of the session that these files of a journal in parts hold, which are only read."""
    answer = with_session(lambda: replayed_parts(files, size, watches=True), name, output)
    return answer if answer.errors else Answer(answer.output, told_after(opened_parts(files, size).after, name), answer.status)


def with_deep_stack(call: Callable[[], Result]) -> Result:
    """Runs a call with room for deep recursion, since scripts and terms are walked by recursion."""
    results: list[Result] = []
    errors: list[BaseException] = []

    def run() -> None:
        try:
            results.append(call())
        except BaseException as error:
            errors.append(error)

    sys.setrecursionlimit(DEEPEST_CALLS)
    threading.stack_size(STACK_BYTES)
    thread = threading.Thread(target=run)
    thread.start()
    thread.join()
    if errors:
        raise errors[0]
    return results[0]


def words() -> argparse.ArgumentParser:
    parser = argparse.ArgumentParser(prog="reference", description="A second opinion on cspwatch.")
    commands = parser.add_subparsers(dest="command", required=True)
    for command in ("check", "print", "tree"):
        one = commands.add_parser(command)
        one.add_argument("spec")
        if command != "tree":
            one.add_argument("process")
    commands.choices["check"].add_argument("--large", action="store_true")
    for command in ("replay", "show"):
        commands.add_parser(command).add_argument("journal")
    show_words = commands.choices["show"]
    show_words.add_argument("--rejected", action="store_true")
    show_words.add_argument("--coverage", action="store_true")
    show_words.add_argument("--format", choices=["text", "json"], default="text")
    return parser


def answer(given: argparse.Namespace) -> Answer:
    name = given.journal if given.command in ("replay", "show") else given.spec
    with open(name, "rb") as file:
        content = file.read()
    if given.command == "print":
        return print_script(content, given.process, name)
    if given.command == "tree":
        return tree(content, name)
    if given.command == "check":
        return check(content, given.process, sys.stdin.buffer.read(), given.large, name)
    if given.command == "replay":
        return replay(content, name)
    return show(content, name, given.rejected, given.coverage, given.format == "json")


def main() -> int:
    given = words().parse_args()
    try:
        found = with_deep_stack(lambda: answer(given))
    except GivesUp:
        found = failed("no opinion: there is too much to list", NO_OPINION)
    sys.stdout.buffer.write(found.output)
    sys.stdout.flush()
    sys.stderr.buffer.write(found.errors)
    return found.status
