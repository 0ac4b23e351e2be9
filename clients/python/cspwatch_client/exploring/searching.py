"""Looking for what lies some steps ahead: an event that may come, or one that may be refused."""
from __future__ import annotations

import time
from collections import deque
from dataclasses import dataclass
from typing import Callable, Deque, Optional

from ..replies import Fault
from .machine import Machine, Trace

STEPS = 8
"""How many steps ahead is looked where nothing else is said."""

MOST_STEPS = 100
"""How many steps ahead may be asked for."""

SECONDS = 10.0
"""How long a search may take."""


@dataclass(frozen=True)
class Found:
    """How a search ended."""

    trace: Optional[Trace]
    """A shortest way, from where it began; None where none was found."""

    looked: int
    """How many traces were looked at."""

    depth: int
    """All traces of so many steps were looked at, but for those behind a limit."""

    limits: int
    """How many traces met a limit, so that nothing behind them was looked at."""

    is_out_of_time: bool
    """Whether the search ended because it took too long."""


def may_come(machine: Machine, event: str) -> Callable[[Trace], bool]:
    """Whether the event may come after a trace."""
    return lambda trace: event in machine.may(trace)


def may_be_refused(machine: Machine, event: str) -> Callable[[Trace], bool]:
    """Whether the event may be refused after a trace."""
    return lambda trace: machine.refuses(trace, (event,))


def nearest(machine: Machine, begin: Trace, is_wanted: Callable[[Trace], bool], steps: int = STEPS, seconds: float = SECONDS) -> Found:
    """Looks for a shortest trace that begins with `begin`, has at most so many steps more, and is wanted.

    Traces are looked at by their length, those of one length in the order of the alphabet. Two traces that lead to the same
    state are looked at both, since the program doesn't say that they do.
    """
    until = time.monotonic() + seconds
    waiting: Deque[Trace] = deque([begin])
    looked = limits = depth = 0
    while waiting:
        trace = waiting.popleft()
        depth = len(trace) - len(begin)
        if time.monotonic() > until:
            return Found(None, looked, depth - 1, limits, True)
        try:
            if is_wanted(trace):
                return Found(trace[len(begin) :], looked + 1, depth, limits, False)
            further = machine.may(trace) if depth < steps else ()
        except Fault:
            limits += 1
            continue
        looked += 1
        waiting.extend(trace + (event,) for event in further)
    return Found(None, looked, steps, limits, False)
