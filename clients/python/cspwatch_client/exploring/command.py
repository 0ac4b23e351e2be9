"""The command `cspwatch-explore`: its words, and a run from them."""
from __future__ import annotations

import argparse
import os
import shutil
import sys
from typing import Optional, Sequence, TextIO

from ..replies import CspwatchError, Fault
from ..running import StartFailed
from .machine import Machine
from .talk import PLAIN_WIDTH, Talk
from .terminal import lines_of_terminal
from .walk import Walk

PROGRAM_FAILED = 5
"""The status where the program can't be started, or ends."""

LIMIT = 6
"""The status where the specification meets a limit before the first event."""

MOST_WIDTH = 120
"""No line on a terminal is longer."""

EPILOG = """exit status: 0 all was done; 1 an event was asked for that may not come; 2 bad use, or a line that says nothing;
3 the script was refused; 5 a file or the program failed; 6 a limit was met. Of several, the first that came."""


def parser() -> argparse.ArgumentParser:
    """The words of the command."""
    found = argparse.ArgumentParser(
        prog="cspwatch-explore",
        description="Walks through a specification by hand: what may come next, and what must.",
        epilog=EPILOG,
    )
    found.add_argument("spec", metavar="SPEC", help="the file of the script")
    found.add_argument("process", metavar="PROCESS", help="the process of the script")
    found.add_argument("--large", action="store_true", help="with the limits for large systems")
    found.add_argument("--program", metavar="FILE", help="the program cspwatch; $CSPWATCH or the one on the PATH where left out")
    return found


def main(words: Optional[Sequence[str]] = None) -> int:
    """Runs the command with these words, and answers its status."""
    options = parser().parse_args(words)
    for stream in (sys.stdin, sys.stdout, sys.stderr):
        stream.reconfigure(errors="backslashreplace")  # type: ignore[attr-defined]
    name = options.program or os.environ.get("CSPWATCH") or "cspwatch"
    program = shutil.which(name)
    if program is None:
        return said("%s: there is no such program; --program FILE or the variable CSPWATCH says where it is" % name, PROGRAM_FAILED)
    try:
        with Machine(options.spec, options.process, program, options.large) as machine:
            return explore(Walk(machine), sys.stdin, sys.stdout)
    except StartFailed as fault:
        status = fault.outcome.exit_status
        return said(str(fault), status if status > 0 else PROGRAM_FAILED)
    except Fault as fault:
        return said("cspwatch-explore: a limit was met before the first event: %s" % fault, LIMIT)
    except BrokenPipeError:
        # Nobody reads any more; the interpreter would fail again when it flushes at its end.
        os.dup2(os.open(os.devnull, os.O_WRONLY), sys.stdout.fileno())
        return PROGRAM_FAILED
    except (CspwatchError, OSError) as fault:
        return said("cspwatch-explore: %s" % fault, PROGRAM_FAILED)


def said(text: str, status: int) -> int:
    """Says what is wrong."""
    print(text, file=sys.stderr)
    return status


def explore(walk: Walk, source: TextIO, out: TextIO) -> int:
    """Reads lines to their end, and answers the status: at a prompt on a terminal, else plain ones."""
    is_terminal = source.isatty() and out.isatty()
    width = min(shutil.get_terminal_size().columns, MOST_WIDTH) if is_terminal else PLAIN_WIDTH
    talk = Talk(walk, width)
    print(talk.here(), file=out, flush=True)
    for line in lines_of_terminal(talk) if is_terminal else source:
        text = talk.say(line)
        if text:
            print(text, file=out, flush=True)
        if talk.ended:
            break
    return 0 if is_terminal else talk.status
