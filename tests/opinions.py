"""Two opinions on scripts, lines and journals: the program's, and the reference's or another one's."""
from __future__ import annotations

import argparse
import contextlib
import functools
import math
import os
import resource
import signal
import subprocess
import sys
import tempfile
from collections.abc import Callable, Iterator
from typing import NamedTuple, TypeVar

from reference import program as reference
from reference.faults import GivesUp
from reference.program import Answer
from reference.terms import forget_terms

HERE = os.path.dirname(os.path.abspath(__file__))
BUILT = os.path.join(os.path.dirname(HERE), "crates", "cspwatch", "out", "cspwatch")
RELEASED = os.path.join(os.path.dirname(HERE), "dist", "cspwatch")

Result = TypeVar("Result")

LONGER = 12
"""How many times as long as it may have the processor a program may take by the clock."""


class Question(NamedTuple):
    """Words of the program, the files that they name, and standard input."""

    words: tuple[str, ...]
    files: dict[str, bytes]
    lines: bytes = b""


def default_program() -> str:
    """The built program, or where there is none the released one."""
    return BUILT if os.access(BUILT, os.X_OK) else RELEASED


def add_options(parser: argparse.ArgumentParser) -> None:
    parser.add_argument("--program", default=default_program(), help="the program, if not the built or the released one")
    parser.add_argument("--reference", metavar="PATH", help="a folder that is a Python package with the same words, in place of tests/reference")
    parser.add_argument("--seconds", type=float, default=20, help="how long the reference may take for a case (20)")


@contextlib.contextmanager
def limited(seconds: float) -> Iterator[None]:
    """Raises a TimeoutError in the body after so many seconds of the processor."""
    def late(number: int, frame: object) -> None:
        raise TimeoutError()

    before = signal.signal(signal.SIGPROF, late)
    signal.setitimer(signal.ITIMER_PROF, seconds)
    try:
        yield
    finally:
        signal.setitimer(signal.ITIMER_PROF, 0)
        signal.signal(signal.SIGPROF, before)


def limit_processor(seconds: float) -> None:
    """Has the system end this process by SIGXCPU once it has had so much of the processor, rounded up to a second."""
    most = math.ceil(seconds)
    resource.setrlimit(resource.RLIMIT_CPU, (most, most + 1))


def ran(command: list[str], question: Question, seconds: float, environment: dict[str, str] | None = None) -> Answer | None:
    """What a program answers; None where it takes more of the processor. A busy machine may take LONGER times as long by the clock."""
    with tempfile.TemporaryDirectory(prefix="compare-") as folder:
        for name, content in question.files.items():
            with open(os.path.join(folder, name), "wb") as file:
                file.write(content)
        try:
            done = subprocess.run(command + list(question.words), cwd=folder, input=question.lines, capture_output=True, timeout=LONGER * seconds,
                                  env=environment, check=False, preexec_fn=functools.partial(limit_processor, seconds))
        except subprocess.TimeoutExpired:
            return None
    return None if done.returncode == -signal.SIGXCPU else Answer(done.stdout, done.stderr, done.returncode)


def of_program(program: str, question: Question, seconds: float) -> Answer | None:
    return ran([os.path.abspath(program)], question, seconds)


def of_reference(call: Callable[[], Result], seconds: float) -> Result | None:
    """What a call of the reference answers; None where it takes longer, or has no opinion."""
    forget_terms()
    sys.setrecursionlimit(reference.DEEPEST_CALLS)
    try:
        with limited(seconds):
            return call()
    except (TimeoutError, GivesUp, MemoryError):
        return None


def of_another(path: str, question: Question, seconds: float) -> Answer | None:
    """What another reference answers, run as a program."""
    folder, name = os.path.split(os.path.abspath(path))
    environment = {**os.environ, "PYTHONPATH": folder}
    return ran([sys.executable, "-m", name], question, seconds, environment)


def second(question: Question, call: Callable[[], Answer], path: str | None, seconds: float) -> Answer | None:
    """The second opinion on a question: that of `call`, or of the package at the path; None where there is none."""
    return of_another(path, question, seconds) if path else of_reference(call, seconds)
