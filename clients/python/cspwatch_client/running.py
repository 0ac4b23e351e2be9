"""Running the program: a server for a test, or a check without a server."""
from __future__ import annotations

import os
import re
import shutil
import subprocess
import tempfile
import weakref
from dataclasses import dataclass
from types import TracebackType
from typing import IO, BinaryIO, Dict, Iterable, List, Optional, Tuple, Type, Union, cast

from .client import Client
from .replies import BadReply, CspwatchError, NoReply, Status, Verdict, explained, status_of

File = Union[str, "os.PathLike[str]"]

LISTENING = re.compile(r"listening ([0-9.]+:[0-9]+|unix:.+)\n")
"""What a server prints first."""

END_SECONDS = 60
"""How long a server whose connections have all ended may take to end."""

PROGRAM = "CSPWATCH"
"""The variable that names the program, where a call doesn't."""

EXPLAIN = "CSPWATCH_EXPLAIN"
"""The variable by which a program gives its reasons also where nobody is at a terminal."""

MISSING = "%s: there is no such program. Install cspwatch (its dist/README.md says how), or name it: by the variable CSPWATCH, or by program=.."
"""What is said where the program isn't there."""

NO_PROGRAM = 127
"""The exit status that a shell has for a program that isn't there."""

REFUSED = 3
"""The exit status of a script that is refused."""

FAULT = re.compile(r"(?P<file>.*):(?P<line>[0-9]+): (?P<code>[0-9]+) (?P<word>[a-z]+)")
SHOWN = re.compile(r" *[0-9]* \| (.*)")
MARKED = re.compile(r" *\| ( *)\^")
"""The lines of a script's fault: what it is, the line of the script, and the mark below it."""


@dataclass(frozen=True)
class Outcome:
    """How a run of the program ended."""

    exit_status: int
    """0 where all was done and nothing was rejected, 1 where a report was rejected; the README has the others."""

    errors: str
    """What the program wrote on standard error."""

    summary: Optional[Status] = None
    """The counts that a server prints at its end; None where it printed none."""


class StartFailed(CspwatchError):
    """The program ended before it took a report, or isn't there. The text is what it wrote about the reason."""

    def __init__(self, outcome: Outcome) -> None:
        super().__init__(outcome.errors.strip() or "exit status %d" % outcome.exit_status)
        self.outcome = outcome
        """How the program ended."""
        lines = outcome.errors.rstrip("\n").split("\n")
        fault = FAULT.fullmatch(lines[0])
        self.line: Optional[int] = int(fault["line"]) if fault else None
        """The number of the script's line that is at fault, from 1; None where the script isn't, as for all that follows."""
        self.code: Optional[int] = int(fault["code"]) if fault else None
        """The number of the fault, as `docs/LANGUAGE.md` has it."""
        shown = next((found for found in map(SHOWN.fullmatch, lines[1:2]) if found), None)
        marked = next((found for found in map(MARKED.fullmatch, lines[2:3]) if found), None)
        self.text: Optional[str] = shown[1] if fault and shown else None
        """The line of the script."""
        self.mark: Optional[int] = len(marked[1]) if fault and marked else None
        """How many characters of it stand before what is at fault."""
        words = [line.strip() for line in lines[1:] if not SHOWN.fullmatch(line) and not MARKED.fullmatch(line)]
        self.words: Optional[str] = "\n".join(words) if fault and words else None
        """What is wrong, in words."""


class Server:
    """A server of its own: `cspwatch serve SPEC PROCESS JOURNAL`, on a free port of this machine.

    A server takes a number of connections, and ends once all of them have ended. Or it is a service, which takes
    connections without end, gives seats by number, and ends once none is there any more. As a context manager it is
    waited for at the end of the block where all connections were made, of a service one at least, and ended by force
    otherwise.
    """

    def __init__(
        self,
        spec: File,
        process: str,
        journal: File,
        connections: Optional[int] = 1,
        program: Optional[File] = None,
        listen: str = "127.0.0.1:0",
        large: bool = False,
    ) -> None:
        """Starts the server and waits until it listens. Where it ends before that, `StartFailed` is raised.

        spec -- the file of the script.
        process -- the process of the script to judge by.
        journal -- the file of the journal; the server creates it where there is none.
        connections -- how many connections the server takes, 1 to 64; None for a service.
        program -- the program `cspwatch`; where it is left out the one that the variable CSPWATCH names, else the one on the PATH.
        listen -- the address to listen on; port 0 is any free port, and `unix:PATH` a socket in the file system.
        large -- whether it has the limits for large systems, and a history without an end.
        """
        self.connections = connections
        self._made = 0
        self._outcome: Optional[Outcome] = None
        extent = ["--until-idle"] if connections is None else ["--connections", str(connections)]
        extent += ["--large"] if large else []
        path = program_at(program)
        self._process, self._errors = started([path, "serve", os.fspath(spec), process, os.fspath(journal), "--listen", listen] + extent)
        first = os.fsdecode(stream(self._process.stdout).readline())
        found = LISTENING.fullmatch(first)
        if found is None:
            raise StartFailed(with_reason(self.wait(), path, spec, process))
        self.address: str = found[1]
        """Where the server listens, such as `127.0.0.1:40513` or `unix:socket`."""

    def client(self, timeout: Optional[float] = None, seat: Optional[int] = None, reasons: bool = False) -> Client:
        """A client of this server, on a connection of its own; of a service as the seat with a number, where one is given."""
        client = Client(self.address, timeout, seat, reasons)
        self._made += 1
        return client

    def wait(self, timeout: Optional[float] = None) -> Outcome:
        """Waits until the server has ended; all its connections have to be made and closed for that."""
        if self._outcome is not None:
            return self._outcome
        out, _ = self._process.communicate(timeout=timeout)
        try:
            summary: Optional[Status] = status_of(out.rstrip(b"\n"))
        except BadReply:
            summary = None
        self._outcome = Outcome(self._process.returncode, text_of(self._errors), summary)
        return self._outcome

    def stop(self) -> Outcome:
        """Ends the server by force. The journal has every report that was answered."""
        self._process.kill()
        return self.wait()

    def __enter__(self) -> Server:
        return self

    def __exit__(
        self,
        kind: Optional[Type[BaseException]],
        error: Optional[BaseException],
        trace: Optional[TracebackType],
    ) -> None:
        if self._process.returncode is not None:
            return
        if kind is None and self._made >= (self.connections or 1):
            try:
                self.wait(END_SECONDS)
                return
            except subprocess.TimeoutExpired:
                pass
        self.stop()


class Alone(Client):
    """The one client of a history: what may come after a report was rejected is what could have come in its place."""

    def _report(self, line: bytes) -> Verdict:
        verdict = super()._report(line)
        if verdict.accepted:
            return verdict
        try:
            return explained(verdict, self.next(), Status(verdict.place, 0, 0, 0, False))
        except CspwatchError:
            return verdict


class Checker:
    """A run of `cspwatch check SPEC PROCESS` with its one client: no port, and no journal that stays.

        checker = Checker("p.csp", "P")
        assert checker.event("a")

    It ends by `close`, or with the Python process. As a context manager it ends with the block, and is its client:

        with Checker("p.csp", "P") as client:
            assert client.event("a")

    The verdict on a rejected report has what was `expected`. There are no timeouts: each call waits for the program.
    """

    def __init__(self, spec: File, process: str, program: Optional[File] = None, large: bool = False) -> None:
        """Starts the program, with the limits for large systems or without. Where it ends before it has answered anything,
        or isn't there, `StartFailed` is raised. The program is found as by `Server`."""
        path = program_at(program)
        self._process, self._errors = started([path, "check", os.fspath(spec), process] + (["--large"] if large else []))
        reader, writer = stream(self._process.stdout), stream(self._process.stdin)
        self.client: Client = Alone.over(cast(BinaryIO, reader), cast(BinaryIO, writer))
        """The client."""
        self._outcome: Optional[Outcome] = None
        weakref.finalize(self, self._errors.close)
        self._end = weakref.finalize(self, ended, self._process, self.client)
        try:
            self.client.status()
        except NoReply as error:
            raise StartFailed(with_reason(self.close(), path, spec, process)) from error

    def event(self, name: str) -> Verdict:
        """Reports that the event happened, as `Client.event` does."""
        return self.client.event(name)

    def refusal(self, names: Iterable[str] = ()) -> Verdict:
        """Reports that the system refuses all of these events now, as `Client.refusal` does."""
        return self.client.refusal(names)

    def status(self) -> Status:
        """How many reports were judged so far, and how."""
        return self.client.status()

    def next(self) -> Tuple[str, ...]:
        """The events that may come next, in the order of the script's channels, `_tick` last."""
        return self.client.next()

    def close(self) -> Outcome:
        """Closes the client, and answers how the program ended. A second call answers the same."""
        if self._outcome is None:
            self._end()
            self._outcome = Outcome(self._process.returncode, text_of(self._errors))
        return self._outcome

    def __enter__(self) -> Client:
        return self.client

    def __exit__(
        self,
        kind: Optional[Type[BaseException]],
        error: Optional[BaseException],
        trace: Optional[TracebackType],
    ) -> None:
        self.close()


def ended(process: subprocess.Popen[bytes], client: Client) -> None:
    """Closes the client, by which the program ends, and waits for it."""
    client.close()
    process.wait()


def program_at(program: Optional[File]) -> str:
    """The path of the program: the given one, the one that the variable CSPWATCH names, or the one on the PATH. `StartFailed` where there is none."""
    name = os.fspath(program) if program is not None else os.environ.get(PROGRAM) or "cspwatch"
    path = shutil.which(name)
    if path is None:
        raise StartFailed(Outcome(NO_PROGRAM, MISSING % name))
    return path


def explaining() -> Dict[str, str]:
    """The environment of a program that is to give its reasons."""
    return {**os.environ, EXPLAIN: "1"}


def started(words: List[str]) -> Tuple[subprocess.Popen[bytes], IO[bytes]]:
    """The program, with pipes for its input and output; and the file that gets its standard error, so that it never waits for a reader."""
    errors = tempfile.TemporaryFile()
    try:
        return subprocess.Popen(words, stdin=subprocess.PIPE, stdout=subprocess.PIPE, stderr=errors, env=explaining()), errors
    except OSError as error:
        errors.close()
        raise StartFailed(Outcome(NO_PROGRAM, "%s: %s" % (words[0], error.strerror))) from None


def with_reason(outcome: Outcome, program: str, spec: File, process: str) -> Outcome:
    """The outcome with what is wrong with the script, in words: `serve` of 0.6.3 and before tells these on a terminal alone, `check` also by `--explain`."""
    if outcome.exit_status != REFUSED or "\n" in outcome.errors.strip():
        return outcome
    words = [program, "check", "--explain", os.fspath(spec), process]
    asked = subprocess.run(words, stdin=subprocess.DEVNULL, stdout=subprocess.DEVNULL, stderr=subprocess.PIPE)
    told = asked.stderr.decode("utf-8", "replace")
    return Outcome(REFUSED, told) if asked.returncode == REFUSED and told.startswith(outcome.errors.strip()) else outcome


def text_of(errors: IO[bytes]) -> str:
    """What was written on standard error. The file is closed then."""
    with errors:
        errors.seek(0)
        return errors.read().decode("utf-8", "replace")


def stream(end: Optional[IO[bytes]]) -> IO[bytes]:
    """A stream that was opened as a pipe."""
    assert end is not None
    return end
