"""The command `cspwatch-logs`: its words, and a run from them."""
from __future__ import annotations

import argparse
import os
import resource
import shutil
import signal
import sys
from typing import Callable, List, NoReturn, Optional, Sequence, TextIO

from .. import __version__
from ..client import place_of
from ..reconnecting import PATIENCE

if sys.version_info < (3, 11):
    print("cspwatch-logs needs Python 3.11 or later, this is %d.%d" % sys.version_info[:2], file=sys.stderr)
    raise SystemExit(2)

from .following import Followed, sources_of
from .junit import JUnit, suite_of
from .links import UNJUDGED, Check, Connection, Link, Lost, connected_patiently
from .looking import look
from .mapping import Rules
from .maps import Map, MapFault, Specification, read_map
from .merging import Timeline
from .program import Program, ProgramFault, check_events, events_of, program_at
from .packed import LogFault
from .reading import Source
from .record import Record, RecordFault
from .running import Run, Wanted
from .showing import Printer, printable
from .state import Keeper, StateFault, StateFile
from .streams import Stream, StreamFault, partition
from .ticking import clock_of

LOOK_SECONDS = 0.2
"""How often a followed file is looked at."""

MOST_SEATS = 1000
"""The greatest number of a seat that a component may ask for."""

EPILOG = """exit status: 0 all reports were accepted; 1 one was rejected; 2 bad use, or a line that wasn't judged; 3 the map or the
script was refused; 4 the server couldn't write its journal; 5 a file, the program or the connection failed;
6 a limit was met. Of several, the first of 4, 5, 1, 6, 2, 0."""


class BadUse(Exception):
    """Words that don't fit together, or not with the map."""


def parser() -> argparse.ArgumentParser:
    """The words of the command."""
    found = Parser(
        prog="cspwatch-logs", description="Maps the lines of logs to reports, and has them judged by cspwatch.", epilog=EPILOG
    )
    found.add_argument("map", metavar="MAP", help="the map, a file of TOML")
    found.add_argument("logs", metavar="LOG", nargs="*", help="the logs, one after the other; standard input where there is none")
    found.add_argument("--follow", action="store_true", help="wait for more lines, also after a log was rotated or cut")
    found.add_argument("--server", metavar="ADDR", help="report to the server at HOST:PORT or unix:PATH, in place of a check of its own")
    found.add_argument("--seat", metavar="N", type=seat, help="be seat N of the server, and go on after its last report (1 to 1000)")
    found.add_argument("--patience", metavar="SECONDS", type=seconds, help="how long a server that has ended is tried again (60 with --follow and --seat)")
    found.add_argument("--state", metavar="FILE", help="keep in FILE how far the logs were read, and go on there")
    found.add_argument("--min-reports", metavar="N", type=count, default=1, help="how many reports have to be judged, 1 where left out")
    found.add_argument("--strict", action="store_true", help="a line that no rule takes is a fault")
    found.add_argument("--quiet", action="store_true", help="print the rejected reports alone, without their lines and the counts")
    found.add_argument("--first", action="store_true", help="end at the first rejected report")
    found.add_argument("--coverage", action="store_true", help="print which events never came, and which rules took no line")
    found.add_argument("--junit", metavar="FILE", help="write the verdicts to FILE as test cases")
    found.add_argument("--annotations", action="store_true", help="print rejected reports as annotations of GitHub too")
    found.add_argument("--record", metavar="FILE", help="write each verdict to FILE, and go on with what stands in it")
    found.add_argument("--stream", metavar="URL", help="read a stream of Redis, redis://HOST:PORT/NAME, in place of logs")
    found.add_argument("--partition", metavar="K/N", type=partition, help="read partition K of N streams, which is NAME:K")
    found.add_argument("--program", metavar="FILE", help="the program cspwatch; $CSPWATCH or the one on the PATH where left out")
    found.add_argument("--version", action="version", version="cspwatch-logs " + __version__)
    return found


class Parser(argparse.ArgumentParser):
    """A parser that shows what a terminal would obey."""

    def error(self, message: str) -> NoReturn:
        super().error(printable(message))


def count(text: str) -> int:
    number = int(text)
    if number < 0:
        raise ValueError(text)
    return number


def seconds(text: str) -> float:
    number = float(text)
    if not 0 <= number < float("inf"):
        raise ValueError(text)
    return number


def seat(text: str) -> int:
    number = int(text)
    if not 1 <= number <= MOST_SEATS:
        raise ValueError(text)
    return number


def main(words: Optional[Sequence[str]] = None) -> int:
    """Runs the command with these words, and answers its status."""
    options = parser().parse_args(words)
    for stream in (sys.stdout, sys.stderr):
        stream.reconfigure(errors="backslashreplace")  # type: ignore[attr-defined]
    try:
        return run(options, sys.stdout, sys.stderr)
    except BadUse as fault:
        return said("cspwatch-logs: %s" % fault, 2)
    except ProgramFault as fault:
        return said(fault, fault.status, "\n")
    except (MapFault, Lost, LogFault, RecordFault, StateFault, StreamFault) as fault:
        return said(fault, fault.status)
    except BrokenPipeError:
        # Nobody reads the verdicts any more; the interpreter would fail again when it flushes at its end.
        os.dup2(os.open(os.devnull, os.O_WRONLY), sys.stdout.fileno())
        return 5
    except OSError as fault:
        return said("%s: %s" % (fault.filename or "cspwatch-logs", fault.strerror or fault), 5)


def said(fault: object, status: int, between: str = "") -> int:
    """Says what is wrong.

    between -- what stands between its lines, where it may have several.
    """
    lines = str(fault).split(between) if between else [str(fault)]
    print("\n".join(printable(line) for line in lines), file=sys.stderr)
    return status


def run(options: argparse.Namespace, out: TextIO, errors: TextIO) -> int:
    """The whole run."""
    found = read_map(options.map)
    check_use(options, found)
    if found.sessions is not None:
        raise_limit()
    program = program_for(options, found)
    rules = Rules(found, events_for(found, program))
    look(found, options.logs, options.follow)
    state = StateFile(options.state, options.seat, options.map) if options.state is not None else None
    start, skip = judge_of(options, found, program)
    sources = sources_for(options, state)
    junit = JUnit(options.junit, suite_of(options.map)) if options.junit is not None else None
    record = Record(options.record) if options.record is not None else None
    printer = Printer(out, errors, options.quiet, options.annotations)
    wanted = Wanted(options.strict, options.first, options.coverage, options.min_reports, skip, junit, record, come_back_of(options))
    wanted.clock, wanted.is_served = clock_of(found.time, options.server is not None), options.server is not None
    running = Run(rules, start, printer, wanted)
    if found.time is not None:
        running.timeline = Timeline(found, rules, sources, options.follow, printer, running.counts, running.watch)
    try:
        keeper = begun(state, running, sources) if state is not None else None
        with running.watch:
            is_whole = read_all(running, sources, options.follow, keeper)
        running.finish()
        if keeper is not None and not running.stopped:
            keeper.write()
    except (Lost, LogFault, StreamFault, RecordFault, StateFault) as fault:
        printer.flush()
        running.problem(str(fault), fault.status)
        running.abandon()
        running.close(sources, is_whole=False)
        return fault.status
    is_whole = is_whole and not running.stopped
    if running.counts.earlier < wanted.skip and is_whole:
        running.problem("cspwatch-logs: %d reports of the seat stand in the history, and the log has %d" % (wanted.skip, running.counts.earlier), 2)
    running.close(sources, is_whole)
    return running.counts.status()


def begun(state: StateFile, running: Run, sources: Sequence[Source]) -> Keeper:
    """What keeps how far the run is, after it has taken what an earlier one kept."""
    earlier = state.earlier
    wanted = running.wanted
    if earlier is not None:
        if wanted.skip < earlier.judged:
            raise state.fault("it has %d reports of the seat, and the history %d: that is another history" % (earlier.judged, wanted.skip))
        wanted.skip -= earlier.judged
        running.counts.kept = earlier.judged
        running.restore(earlier.numbers, earlier.gap)
        if wanted.skip and len(sources) > 1:
            text = "cspwatch-logs: of which of the logs %d reports are, which stand in the history since %s was written, isn't known"
            running.problem(text % (wanted.skip, printable(state.path)), UNJUDGED)
    keeper = Keeper(state, running, sources)
    if earlier is None:
        keeper.write()
    return keeper


def come_back_of(options: argparse.Namespace) -> Optional[Callable[[Callable[[], bool]], Connection]]:
    """What opens a connection again that was lost; None where that isn't wanted."""
    patience = patience_of(options)
    if not patience:
        return None
    return lambda is_asked: connected_patiently(options.server, options.seat, patience, is_asked)


def patience_of(options: argparse.Namespace) -> float:
    """For how many seconds the server is tried."""
    if options.patience is not None:
        return float(options.patience)
    return PATIENCE if options.follow and options.seat is not None else 0.0


def sources_for(options: argparse.Namespace, state: Optional[StateFile]) -> List[Source]:
    """What is read."""
    if options.stream is None:
        marks = None if state is None else state.earlier.logs if state.earlier is not None else {}
        return sources_of(options.logs, options.follow, marks)
    try:
        return [Stream(options.stream, options.partition, options.follow)]
    except ValueError as error:
        raise BadUse(str(error)) from None


def check_use(options: argparse.Namespace, found: Map) -> None:
    """Finds words that don't fit together, or not with the map."""
    if options.server is None and options.seat is not None:
        raise BadUse("--seat goes with --server")
    if options.patience is not None and options.seat is None:
        raise BadUse("--patience goes with --seat, by which the server knows what it has judged")
    if options.state is not None and found.time is not None and len(options.logs) > 1:
        raise BadUse("--state goes with one log where the map has [time], since lines of several wait for one another")
    if options.state is not None and (options.seat is None or not options.follow or not options.logs):
        raise BadUse("--state goes with --follow, --seat and logs")
    if options.stream is not None and options.logs:
        raise BadUse("--stream is read in place of logs")
    if options.partition is not None and options.stream is None:
        raise BadUse("--partition goes with --stream")
    if options.record is not None and options.server is not None:
        raise BadUse("--record goes with a check; a server has its journal")
    if options.server is not None:
        if found.sessions is not None:
            raise BadUse("a map with [sessions] starts a check for each; it can't go with --server, which has one history")
        try:
            place_of(options.server)
        except ValueError as error:
            raise BadUse(str(error)) from None
    if found.specification is None:
        for word, given in (("--seat", options.seat is not None), ("--coverage", options.coverage), ("a run without --server", options.server is None)):
            if given:
                raise found.fault(("specification",), "this table is missing, and %s needs it" % word)


def raise_limit() -> None:
    """Allows as many open descriptors as the system lets: each session has three."""
    soft, hard = resource.getrlimit(resource.RLIMIT_NOFILE)
    if soft != hard:
        resource.setrlimit(resource.RLIMIT_NOFILE, (hard, hard))


def program_for(options: argparse.Namespace, found: Map) -> Optional[Program]:
    """The program, where the map says what it is to judge by. A map that asks for more than it has is at fault."""
    if found.specification is None:
        return None
    name = options.program or os.environ.get("CSPWATCH") or "cspwatch"
    path = shutil.which(name)
    if path is None:
        raise ProgramFault("%s: there is no such program; --program FILE or the variable CSPWATCH says where it is" % printable(name), 5)
    program = program_at(path)
    if found.specification.large and not program.is_large and options.server is None:
        reason = "this needs `check --large`, which came after cspwatch 0.5.1; %s is %s" % (path, program.version)
        raise found.fault(("specification", "large"), reason)
    return program


def events_for(found: Map, program: Optional[Program]) -> Optional[Sequence[str]]:
    """The events of the script, where it is known. A map that names others is at fault."""
    if program is None or found.specification is None:
        return None
    events = events_of(program, found.specification)
    check_events(found, events)
    return events


def judge_of(options: argparse.Namespace, found: Map, program: Optional[Program]) -> tuple[Callable[[], Link], int]:
    """What starts the judge of a session, and how many reports stand in the history."""
    if options.server is not None:
        connection = connected_patiently(options.server, options.seat, patience_of(options))
        return lambda: connection, connection.reported
    specification: Optional[Specification] = found.specification
    assert program is not None and specification is not None
    checker, judged = program, specification
    return lambda: Check(checker.check(judged), checker.explains), 0


class Stop:
    """Whether a signal has asked for the end. A second one ends at once."""

    def __init__(self) -> None:
        self.asked = False
        for number in (signal.SIGINT, signal.SIGTERM):
            signal.signal(number, self.ask)

    def ask(self, number: int, _: object) -> None:
        self.asked = True
        signal.signal(number, signal.SIG_DFL)


def tell_unread(source: Source, printer: Printer) -> None:
    """Says once of a log that it has bytes which are no text."""
    splitter = source.splitter
    if splitter.first_unread and not splitter.is_told:
        splitter.is_told = True
        printer.problem("%s:%d: bytes that are no text (UTF-8 without NUL); they are read as \\xff" % (printable(source.name), splitter.first_unread))


def tell_lost(source: Source, running: Run) -> None:
    """Says what can't be known of a log that was rotated or cut."""
    if not isinstance(source, Followed) or not source.lost:
        return
    for text in source.lost:
        running.problem(text, UNJUDGED)
    source.lost.clear()
    left = running.wanted.skip - running.counts.earlier
    if left > 0:
        # They may be of lines that aren't there any more, and no line of another file stands for them.
        running.problem("cspwatch-logs: %d reports that stand in the history are of lines that aren't known" % left, UNJUDGED)
        running.wanted.skip = running.counts.earlier


def read_all(running: Run, sources: List[Source], follow: bool, keeper: Optional[Keeper]) -> bool:
    """Reads the logs: one after the other, or side by side where they are followed. Answers whether it was to their ends."""
    stop = Stop()
    running.is_asked = lambda: stop.asked
    for source in sources:
        tell_lost(source, running)
    while not (stop.asked or running.stopped or all(source.ended for source in sources)):
        open_ones = [source for source in sources if not source.ended]
        timeline = running.timeline
        current = timeline.wanted(open_ones) if timeline is not None else open_ones if follow else open_ones[:1]
        came = False
        for source in current:
            if source.is_ready():
                lines = source.read()
                came = came or bool(lines) or source.ended
                tell_lost(source, running)
                running.take_from(source, lines)
                tell_unread(source, running.printer)
        running.take_ready()
        if not came:
            ends = [end for end in (source.waits_on() for source in current) if end is not None]
            running.pump(LOOK_SECONDS, ends)
        if keeper is not None:
            keeper.look(came)
        running.printer.flush()
    is_whole = all(source.ended for source in sources)
    for source in sources:
        if not source.ended:
            running.take_from(source, source.close())
    running.take_ready()
    return is_whole
