"""What the two commands share: their words, an address, the program, and their end."""
from __future__ import annotations

import argparse
import importlib
import os
import re
import shutil
import signal
import sys
import threading
from typing import Any, Callable, NamedTuple, NoReturn, Optional

from ..logs.program import Program, ProgramFault, program_at

if sys.version_info < (3, 11):
    print("cspwatch-metrics and cspwatch-web need Python 3.11 or later, this is %d.%d" % sys.version_info[:2], file=sys.stderr)
    raise SystemExit(2)

ADDRESS = re.compile(r"(?:\[([0-9A-Fa-f:.]+)\]|([^:\[\]\s/]+)):(\d{1,5})")
"""An address, as `127.0.0.1:9180` or `[::1]:9180`."""

EPILOG = """exit status: 2 bad use; 5 the program, a package of Python or the listener failed. It runs until a signal ends it."""


class Fault(Exception):
    """Why the command can't run. `status` is what it ends with."""

    def __init__(self, text: str, status: int = 5) -> None:
        super().__init__(text)
        self.status = status


class Address(NamedTuple):
    """Where to listen."""

    host: str
    port: int

    def __str__(self) -> str:
        return ("[%s]:%d" if ":" in self.host else "%s:%d") % (self.host, self.port)


def address(text: str) -> Address:
    """The address of a text, or `ValueError`."""
    found = ADDRESS.fullmatch(text)
    if found is None or int(found[3]) > 65535:
        raise ValueError(text)
    return Address(found[1] or found[2], int(found[3]))


def parser(name: str, does: str, listen: str) -> argparse.ArgumentParser:
    """The words of a command."""
    found = argparse.ArgumentParser(prog=name, description=does, epilog=EPILOG)
    found.add_argument("journal", metavar="JOURNAL", help="the journal, of a large one its first file; it need not be there yet")
    found.add_argument("--log", metavar="FILE", help="what `cspwatch serve --log FILE` writes")
    found.add_argument("--listen", metavar="ADDR", type=address, default=address(listen), help="where to listen, HOST:PORT (%s)" % listen)
    found.add_argument("--program", metavar="FILE", help="the program cspwatch; $CSPWATCH or the one on the PATH where left out")
    return found


def program_of(options: argparse.Namespace) -> Program:
    """The program that follows."""
    name = options.program or os.environ.get("CSPWATCH") or "cspwatch"
    path = shutil.which(name)
    if path is None:
        raise Fault("%s: there is no such program; --program FILE or the variable CSPWATCH says where it is" % name)
    try:
        return program_at(path)
    except ProgramFault as fault:
        raise Fault(str(fault)) from None


def package(command: str, name: str, debian: str) -> Any:
    """A package of Python that not everybody has."""
    try:
        return importlib.import_module(name)
    except ImportError:
        raise Fault("%s needs Python's package %s (Debian: %s)" % (command, name, debian)) from None


def sayer(command: str) -> Callable[[str], None]:
    """What tells a line on standard error, where somebody reads that."""

    def say(line: str) -> None:
        try:
            print("%s: %s" % (command, line), file=sys.stderr, flush=True)
        except OSError:
            pass

    return say


def announce(host: str, port: int) -> None:
    """Prints where the command listens, as `cspwatch serve` does."""
    try:
        print("listening " + str(Address(host, port)), flush=True)
    except OSError:
        # Nobody reads it. The interpreter would fail again when it flushes at its end.
        os.dup2(os.open(os.devnull, os.O_WRONLY), sys.stdout.fileno())


class Signals:
    """Waits for a signal that ends the command."""

    def __init__(self) -> None:
        self.number: Optional[int] = None
        self.come = threading.Event()
        for number in (signal.SIGINT, signal.SIGTERM):
            signal.signal(number, self.take)

    def take(self, number: int, _: object) -> None:
        self.number = number
        self.come.set()
        # A second one ends at once.
        signal.signal(number, signal.SIG_DFL)


def end_by(number: int) -> NoReturn:
    """Ends the process by this signal, so that who waits for it sees why."""
    signal.signal(number, signal.SIG_DFL)
    os.kill(os.getpid(), number)
    raise SystemExit(128 + number)


def end_at_once(fault: threading.ExceptHookArgs) -> None:
    """Ends the process where the thread that follows has failed: what it shows would be old for ever, and nobody would see it."""
    sys.__excepthook__(fault.exc_type, fault.exc_value or fault.exc_type(), fault.exc_traceback)
    sys.stderr.flush()
    os._exit(1)


def run(command: Callable[[], int]) -> int:
    """Runs a command, and says why it can't run."""
    threading.excepthook = end_at_once
    for stream in (sys.stdout, sys.stderr):
        if stream is not None:
            stream.reconfigure(errors="backslashreplace")  # type: ignore[attr-defined]
    try:
        return command()
    except Fault as fault:
        print(fault, file=sys.stderr)
        return fault.status
