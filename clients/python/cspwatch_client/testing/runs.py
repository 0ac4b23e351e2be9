"""One run of the system under test: inputs are done, outputs are seen, and each report is judged at once."""
from __future__ import annotations

import time
from typing import Iterable, List, NamedTuple, Set, Tuple

from .adapters import Adapter, AdapterFault, Refused, TERMINATION, channel_of
from .calls import Calls, Hung
from .judging import Judge, Next, is_accepted

MOST_OUTPUTS = 100
"""After so many outputs in a row the next input is done, although the system isn't quiet."""

POLL_SECONDS = 0.01
"""How long is waited before `observe` is called again, where it comes back earlier than it was asked to."""

MAY, MUST, TAKEN, REFUSED = "may", "must", "taken", "refused"
"""The kinds of failures: an output, quiet, an input that was taken, an input that was refused."""

MEANINGS = {
    MAY: "the system did %s, and the specification doesn't allow it here",
    MUST: "the system does nothing, and the specification says that it must",
    TAKEN: "the system took %s, and the specification says that it must refuse it",
    REFUSED: "the system refused %s, and the specification says that it must take it",
}


class Failure(AssertionError):
    """A report of the system was rejected."""

    def __init__(self, kind: str, event: str, reports: Tuple[str, ...], reason: str = "") -> None:
        self.kind, self.event = kind, event
        self.reports = reports
        """The run as lines for `cspwatch check`, of which the last is rejected."""
        self.meaning = MEANINGS[kind] % event if event else MEANINGS[kind]
        """What is wrong, in words."""
        super().__init__("\n".join([self.meaning + (": " + reason if reason else ""), *reports]))


class Report(NamedTuple):
    """A report that is to be judged, and what it means where it is rejected."""

    line: str
    kind: str
    event: str
    """The event of which it speaks; empty where that is all outputs."""


class Run:
    """A run from the system's beginning. The reports of a step are judged in one turn, at its end."""

    def __init__(self, judge: Judge, adapter: Adapter, calls: Calls) -> None:
        self._judge, self._adapter, self._calls = judge, adapter, calls
        self._pending: List[Report] = []
        self._is_quiet = False
        self.lines: List[str] = []
        """All reports so far, but for accepted ones that the system is quiet, which change nothing."""
        self.events: List[str] = []
        """The accepted events."""
        self.tried: List[str] = []
        """The inputs that were done, or refused by the system."""
        self.refused = 0
        """How many of them were refused."""
        self.outputs = 0
        """How many outputs were seen."""
        self.reports = 0
        """How many reports were judged."""
        self.next: Next = ()
        """What may come next."""

    def begin(self) -> None:
        """Has the system begin anew, and takes what it does by itself."""
        self._calls("reset()", self._adapter.reset)
        self._settle()

    def allowed(self) -> Set[str]:
        """The inputs that the specification allows here."""
        return self._adapter.inputs.keys() & self.next

    def do(self, event: str) -> None:
        """Does an input, and takes what comes of it. `Failure` where the specification rules any of it out."""
        self.tried.append(event)
        try:
            self._calls(event, self._adapter.inputs[event].call)
        except Refused:
            self.refused += 1
            # A system that is quiet refuses the input together with all outputs, in one state.
            names = (event, *self._adapter.outputs) if self._is_quiet else (event,)
            self._pending.append(Report("R " + " ".join(names), REFUSED, event))
        else:
            self._is_quiet = False
            self._pending.append(Report("E " + event, TAKEN, event))
        self._settle()

    def _settle(self) -> None:
        """Takes the outputs until the system is quiet, and has everything judged."""
        try:
            if self._adapter.outputs:
                self._take_outputs()
        except (AdapterFault, Hung):
            self._judge_pending()
            raise
        self._offer(self._judge_pending())

    def _take_outputs(self) -> None:
        quiet, begun, seen = self._adapter.quiet, time.monotonic(), 0
        while seen < MOST_OUTPUTS:
            left = max(0.0, quiet - (time.monotonic() - begun))
            outputs = self._observed(left)
            if outputs:
                self._is_quiet = False
                self._pending += [Report("E " + output, MAY, output) for output in outputs]
                begun, seen = time.monotonic(), seen + len(outputs)
            elif time.monotonic() - begun < quiet:
                time.sleep(min(POLL_SECONDS, left))
            else:
                if not self._is_quiet:
                    self._pending.append(Report(self._adapter.rest, MUST, ""))
                self._is_quiet = True
                return

    def _observed(self, wait: float) -> List[str]:
        seen = self._calls("observe()", lambda: self._adapter.observe(wait), wait)
        if seen is None:
            return []
        if isinstance(seen, (str, bytes)) or not isinstance(seen, Iterable):
            raise AdapterFault("%s: observe() gives a list of events, not %r" % (self._adapter.name, seen))
        outputs = list(seen)
        for output in outputs:
            if output not in self._adapter.outputs:
                raise AdapterFault("%s: observe() gives %r, which is no event of its outputs" % (self._adapter.name, output))
        return outputs

    # What may come after all that was reported.
    def _judge_pending(self) -> Next:
        pending, self._pending = self._pending, []
        replies, offered = self._judge.answers([report.line for report in pending])
        for report, reply in zip(pending, replies):
            accepted = is_accepted(reply)
            self.reports += 1
            self.outputs += report.kind == MAY
            if not accepted:
                raise Failure(report.kind, report.event, (*self.lines, report.line))
            if report.kind != MUST:
                self.lines.append(report.line)
            if report.kind in (MAY, TAKEN):
                self.events.append(report.event)
        return offered

    def _offer(self, offered: Next) -> None:
        self.next = offered
        for event in offered:
            if channel_of(event) not in self._adapter.channels and event != TERMINATION:
                reason = "%s may come, which is neither an input nor an output; where nobody sees it, hide it in the process: \\ {| %s |}"
                raise AdapterFault("%s: %s" % (self._adapter.name, reason % (event, channel_of(event))))
