"""What is printed: the shortest failing run, the counts, and a progress line on a terminal."""
from __future__ import annotations

import time
from typing import Sequence, TextIO

from ..logs.showing import printable
from .results import Finding, Result, Stopped

REDRAW_SECONDS = 0.1
"""How often the progress line changes at most."""

CLEAR = "\r\x1b[K"


class Progress:
    """A line on a terminal that shows how far the campaign is. On anything else nothing is shown."""

    def __init__(self, stream: TextIO) -> None:
        self._stream = stream
        self._is_terminal = stream.isatty()
        self._drawn = 0.0
        self._shown = False

    def show(self, result: Result, attempts: int) -> None:
        """Shows what came so far, and in how many runs the failing one was made shorter."""
        now = time.monotonic()
        if not self._is_terminal or now - self._drawn < REDRAW_SECONDS:
            return
        self._drawn, self._shown = now, True
        found = ", 1 found, made shorter: %d runs" % attempts if attempts else ""
        text = "%d runs, %d steps, %s%s" % (result.runs, result.steps, result.coverage.short(), found)
        self._stream.write(CLEAR + text)
        self._stream.flush()

    def end(self) -> None:
        """Removes the line."""
        if self._shown:
            self._stream.write(CLEAR)
            self._stream.flush()


def print_run(lines: Sequence[str], out: TextIO) -> None:
    """Prints the reports of a run."""
    for line in lines:
        print("    " + printable(line), file=out)


def print_finding(finding: Finding, out: TextIO) -> None:
    """Prints what is wrong, why, and the run that shows it."""
    print(printable(finding.text()), file=out)
    print_run(finding.reports, out)


def print_stopped(stopped: Stopped, errors: TextIO) -> None:
    """Prints why the runs couldn't go on."""
    for line in stopped.text.splitlines():
        print(printable(line), file=errors)
    if stopped.lines:
        print("the run so far:", file=errors)
        print_run(stopped.lines, errors)


def print_result(result: Result, out: TextIO, errors: TextIO, quiet: bool) -> None:
    """Prints what came of a campaign: what was found on one stream, what went wrong on the other, and the counts unless it is
    to be quiet."""
    finding, stopped = result.finding, result.stopped
    if finding is not None:
        print_finding(finding, out)
        if finding.flaky:
            print("the system is flaky: this run failed, and passed when it was replayed", file=out)
        elif not quiet:
            print("found in run %d, and made shorter in %d further runs" % (result.runs, finding.attempts), file=out)
    if stopped is not None:
        print_stopped(stopped, errors)
    elif finding is None and result.not_judged():
        print(result.not_judged(), file=errors)
    if not quiet and (result.runs or stopped is None):
        print(counts_of(result), file=out)


def counts_of(result: Result) -> str:
    """The last line."""
    parts = "%d runs, %d steps, %d reports" % (result.runs, result.steps, result.reports)
    rejected = "%d failed" % (result.finding is not None)
    end = "; interrupted" if result.interrupted else ""
    return "%s: %s; %s; seed %d%s" % (parts, rejected, result.coverage.text(), result.seed, end)
