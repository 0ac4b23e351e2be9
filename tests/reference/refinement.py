"""Whether one process refines another, by its definition: a search over all traces up to a length, and over all refusals.

No set of processes is remembered here, so each trace is gone through by itself: alphabets of a few events, and lengths of a
few events alone. A counterexample that is found is a shortest one; after one trace a refusal is told before an event.
"""

from __future__ import annotations

from collections.abc import Callable, Iterator
from dataclasses import dataclass
from itertools import product

from .states import Judge
from .terms import Spec

Trace = tuple[int, ...]


@dataclass(frozen=True)
class Broken:
    """What shows that an assertion doesn't hold: a trace, and then an event, or a set of events that is refused."""

    trace: Trace
    event: int | None = None
    refused: int | None = None


class Process:
    """A process of which any trace can be asked."""

    def __init__(self, spec: Spec, large: bool = False) -> None:
        self.judge = Judge(spec, large)
        self.first = self.judge.states
        self.tick = spec.alphabet.tick

    def go(self, trace: Trace) -> bool:
        """Whether it is a trace. If so, what is asked next is asked after it."""
        self.judge.states = self.first
        for event in trace:
            accepted, self.judge.states = self.judge.judge_event(event)
            if not accepted:
                return False
        return True

    def takes(self, event: int) -> bool:
        states = self.judge.states
        accepted, _ = self.judge.judge_event(event)
        self.judge.states = states
        return accepted

    def refusals(self) -> Iterator[int]:
        """All sets of events, tick among them, that are refused."""
        return (refused for refused in range(1 << self.tick + 1) if self.judge.refuses(refused))


def traces_up_to(process: Process, length: int) -> Iterator[Trace]:
    """The traces of a process with so many events at most, the shorter ones first."""
    for count in range(length + 1):
        yield from (trace for trace in product(range(process.tick + 1), repeat=count) if process.go(trace))


def first_of(process: Process, length: int, found: Callable[[Trace], Broken | None]) -> Broken | None:
    """What is found after the first trace after which something is."""
    return next(filter(None, map(found, traces_up_to(process, length))), None)


def counterexample(spec: Spec, made: Spec, with_failures: bool, length: int, large: bool = False) -> Broken | None:
    """What shows that `made` doesn't refine `spec`, after a trace of so many events at most."""
    one, other = Process(spec, large), Process(made, large)

    def after(trace: Trace) -> Broken | None:
        if not one.go(trace):
            return None
        if with_failures:
            for refused in other.refusals():
                if not one.judge.refuses(refused):
                    return Broken(trace, refused=refused)
        for event in range(other.tick + 1):
            if other.takes(event) and not one.takes(event):
                return Broken(trace, event=event)
        return None

    return first_of(other, length, after)


def deadlock(spec: Spec, length: int, large: bool = False) -> Broken | None:
    """A trace of so many events at most, without termination, after which all may be refused, tick too."""
    process = Process(spec, large)
    everything = (1 << process.tick + 1) - 1

    def after(trace: Trace) -> Broken | None:
        return Broken(trace) if process.tick not in trace and process.judge.refuses(everything) else None

    return first_of(process, length, after)


def choice(spec: Spec, length: int, large: bool = False) -> Broken | None:
    """A trace of so many events at most, and an event that may be taken after it, and may be refused."""
    process = Process(spec, large)

    def after(trace: Trace) -> Broken | None:
        return next((Broken(trace, event=event) for event in range(process.tick + 1)
                     if process.takes(event) and process.judge.refuses(1 << event)), None)

    return first_of(process, length, after)
