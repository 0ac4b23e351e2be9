"""What a specification says after a trace, as the program answers it."""
from __future__ import annotations

from dataclasses import dataclass
from functools import partial
from typing import Dict, FrozenSet, Iterable, List, Optional, Tuple

from ..client import LINE_LIMIT, line_of_event
from ..replies import CspwatchError, Fault, FaultCode
from ..running import Checker, File
from .acceptances import MOST_SETS, minimal_acceptances

Trace = Tuple[str, ...]

KEPT_STATES = 10_000
"""How many answers are remembered. Beyond that they are forgotten, and asked for again."""

MOST_JUDGED = 500_000
"""After so many reports the program is started anew, so that no history is full."""

REFUSAL_BYTES = len(b"R")
"""What the line of a refusal has beside its names, each of which has a blank in front of it."""


class Unknown(CspwatchError):
    """The script has no event of this name."""

    def __init__(self, event: str) -> None:
        super().__init__("the script has no event '%s'" % event)
        self.event = event


class NotPossible(CspwatchError):
    """The specification doesn't have the event after the trace."""

    def __init__(self, event: str, after: Trace) -> None:
        super().__init__("%s may not come after %s" % (event, " ".join(after) or "the beginning"))
        self.event = event


@dataclass(frozen=True)
class State:
    """What the specification says after a trace."""

    may: Tuple[str, ...]
    """The events that may come next, in the order of the alphabet, `_tick` last."""

    must: Optional[Tuple[FrozenSet[str], ...]]
    """The minimal acceptances, `MOST_SETS` at most: whenever the process comes to rest it offers all of one of these sets. It
    is empty where it never comes to rest, and has the empty set alone where everything may be refused. None where it can't be
    asked: the names of all that may come don't go into one line."""

    @property
    def is_cut(self) -> bool:
        """Whether there may be further minimal acceptances."""
        return self.must is not None and len(self.must) == MOST_SETS


class Machine:
    """A specification that answers after any trace, through `cspwatch check`.

    The program goes forward alone, so for a trace that doesn't begin with the one where it is, it is started anew.
    A machine is for one thread at a time. As a context manager it ends the program.
    """

    def __init__(self, spec: File, process: str, program: File = "cspwatch", large: bool = False) -> None:
        """Starts the program. `StartFailed` where it ends before it has answered anything."""
        self._start = partial(Checker, spec, process, program, large)
        self._checker = self._start()
        self._at: Trace = ()
        self._states: Dict[Trace, State] = {}

    def close(self) -> None:
        """Ends the program."""
        self._checker.close()

    def __enter__(self) -> Machine:
        return self

    def __exit__(self, *_: object) -> None:
        self.close()

    def after(self, trace: Trace) -> State:
        """What the specification says after the trace.

        `NotPossible` where it isn't a trace of it, `Fault` where a limit was met on the way.
        """
        found = self._states.get(trace)
        if found is None:
            found = self._looked(trace)
            if len(self._states) >= KEPT_STATES:
                self._states.clear()
            self._states[trace] = found
        return found

    def may(self, trace: Trace) -> Tuple[str, ...]:
        """The events that may come after the trace. Raises as `after` does."""
        found = self._states.get(trace)
        if found is not None:
            return found.may
        self._go(trace)
        return self._checker.client.next()

    def refuses(self, trace: Trace, events: Iterable[str]) -> bool:
        """Whether all of these events may be refused together after the trace. Raises as `after` does."""
        self._go(trace)
        return bool(self._checker.client.refusal(events))

    def check(self, event: str) -> None:
        """`Unknown` where the script has no such event."""
        try:
            self._checker.client.refusal((event,))
        except (Fault, ValueError) as fault:
            if isinstance(fault, Fault) and fault.code != FaultCode.EVENT:
                raise
            raise Unknown(event) from None

    def _go(self, trace: Trace) -> None:
        """Brings the program to the end of the trace."""
        if trace[: len(self._at)] != self._at or self._checker.client.judged > MOST_JUDGED:
            self._checker.close()
            self._checker = self._start()
            self._at = ()
        for event in trace[len(self._at) :]:
            if not self._checker.client.event(event):
                raise NotPossible(event, self._at)
            self._at += (event,)

    def _looked(self, trace: Trace) -> State:
        self._go(trace)
        client = self._checker.client
        may = client.next()
        if REFUSAL_BYTES + sum(len(name.encode("utf-8")) + 1 for name in may) > LINE_LIMIT:
            return State(may, None)
        return State(may, minimal_acceptances(may, lambda events: bool(client.refusal(events))))


def report_lines(trace: Trace) -> List[str]:
    """The trace as lines for `cspwatch check`."""
    return [line_of_event(event).decode("utf-8") for event in trace]
