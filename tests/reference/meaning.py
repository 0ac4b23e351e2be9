"""Traces and failures by their definition (`docs/SEMANTICS.md`, sections 3 to 5), for small processes.

The judge works with steps. Here the same is said without them, so that one can be held against the other. Names are
unfolded so many times; a process without names has finitely many traces, and all of them are listed.
"""

from __future__ import annotations

from collections.abc import Iterator
from functools import lru_cache
from itertools import product

from .terms import Spec, Term

Trace = tuple[int, ...]
Failure = tuple[Trace, int]


class Meaning:
    """The traces and the failures of processes of a specification, with names unfolded `unfoldings` times."""

    def __init__(self, spec: Spec, unfoldings: int) -> None:
        self.spec = spec
        self.tick = spec.alphabet.tick
        self.every = range(1 << self.tick + 1)
        """All refusals, as masks."""
        self.unfoldings = unfoldings
        self.traces = lru_cache(maxsize=None)(self.find_traces)
        self.failures = lru_cache(maxsize=None)(self.find_failures)

    def is_free(self, trace: Trace) -> bool:
        return self.tick not in trace

    # ---- pairs of traces

    def merges(self, left: Trace, right: Trace, shared: int) -> Iterator[Trace]:
        """All merges of two traces: shared events and termination are taken from both at once."""
        if not left and not right:
            yield ()
        together = shared | 1 << self.tick
        if left and right and left[0] == right[0] and together >> left[0] & 1:
            for rest in self.merges(left[1:], right[1:], shared):
                yield (left[0],) + rest
        if left and not together >> left[0] & 1:
            for rest in self.merges(left[1:], right, shared):
                yield (left[0],) + rest
        if right and not together >> right[0] & 1:
            for rest in self.merges(left, right[1:], shared):
                yield (right[0],) + rest

    def images(self, event: int, pairs: tuple[tuple[int, int], ...]) -> list[int]:
        return [right for left, right in pairs if left == event] or [event]

    def related(self, trace: Trace, pairs: tuple[tuple[int, int], ...]) -> Iterator[Trace]:
        return product(*(self.images(event, pairs) for event in trace))

    def without(self, trace: Trace, hidden: int) -> Trace:
        return tuple(event for event in trace if not hidden >> event & 1)

    # ---- traces

    def find_traces(self, term: Term, left: int) -> frozenset[Trace]:
        """The traces of a process whose names may be unfolded so many times more."""
        form, parts = term.form, term.parts
        if form == "name":
            return self.traces(self.spec.bodies[term.number], left - 1) if left else frozenset([()])
        if form == "stop":
            return frozenset([()])
        if form == "skip":
            return frozenset([(), (self.tick,)])
        first = self.traces(parts[0], left)
        if form == "prefix":
            return frozenset([()]) | {(term.event,) + trace for trace in first}
        if form == "hiding":
            return frozenset(self.without(trace, term.events) for trace in first)
        if form == "renaming":
            return frozenset(image for trace in first for image in self.related(trace, term.pairs))
        second = self.traces(parts[1], left)
        if form in ("external", "internal"):
            return first | second
        free = {trace for trace in first if self.is_free(trace)}
        if form == "sequence":
            ended = {trace[:-1] for trace in first if not self.is_free(trace)}
            return frozenset(free | {one + other for one in ended for other in second})
        if form == "interrupt":
            return first | {one + other for one in free for other in second}
        return frozenset(merged for one in first for other in second for merged in self.merges(one, other, term.events))

    # ---- failures

    def find_failures(self, term: Term, left: int) -> frozenset[Failure]:
        """The failures of a process whose names may be unfolded so many times more."""
        form, parts, tick = term.form, term.parts, 1 << self.tick
        if form == "name":
            return self.failures(self.spec.bodies[term.number], left - 1) if left else frozenset()
        if form == "stop":
            return frozenset(((), refused) for refused in self.every)
        if form == "skip":
            return frozenset([((), refused) for refused in self.every if not refused & tick] + [((self.tick,), refused) for refused in self.every])
        first = self.failures(parts[0], left)
        if form == "prefix":
            here = {((), refused) for refused in self.every if not refused >> term.event & 1}
            return frozenset(here | {((term.event,) + trace, refused) for trace, refused in first})
        if form == "hiding":
            return frozenset((self.without(trace, term.events), refused) for trace, more in first for refused in self.every
                             if refused | term.events == more)
        if form == "renaming":
            return frozenset((image, refused) for refused in self.every for trace, more in first
                             if more == self.sources(refused, term.pairs) for image in self.related(trace, term.pairs))
        return self.of_two(term, left, first, self.failures(parts[1], left))

    def sources(self, refused: int, pairs: tuple[tuple[int, int], ...]) -> int:
        """All events that are related to some event of a set."""
        return sum(1 << event for event in range(self.tick + 1) if any(refused >> image & 1 for image in self.images(event, pairs)))

    def of_two(self, term: Term, left: int, first: frozenset[Failure], second: frozenset[Failure]) -> frozenset[Failure]:
        form, tick = term.form, 1 << self.tick
        firsts, seconds = (self.traces(part, left) for part in term.parts)
        may_end = (self.tick,) in firsts or (self.tick,) in seconds
        at_end = {((), refused) for refused in self.every if may_end and not refused & tick}
        if form == "internal":
            return first | second
        if form == "external":
            later = {failure for failure in first | second if failure[0]}
            return frozenset(later | at_end | {failure for failure in first & second if not failure[0]})
        ended = {trace[:-1] for trace in firsts if not self.is_free(trace)}
        if form == "sequence":
            going = {(trace, refused & ~tick) for trace, refused in first if self.is_free(trace) and refused & tick}
            going |= {(trace, refused | tick) for trace, refused in going}
            return frozenset(going | {(one + other, refused) for one in ended for other, refused in second})
        if form == "interrupt":
            return self.interrupted(first, second, ended, (self.tick,) in seconds, firsts)
        together = term.events | tick
        return frozenset((merged, one | other) for trace, one in first for after, other in second if not (one ^ other) & ~together
                         for merged in self.merges(trace, after, term.events))

    def interrupted(self, first: frozenset[Failure], second: frozenset[Failure], ended: set[Trace], may_end: bool,
                    firsts: frozenset[Trace]) -> frozenset[Failure]:
        free = {trace for trace in firsts if self.is_free(trace)}
        at_rest = {refused for trace, refused in second if not trace}
        without_tick = [refused for refused in self.every if not refused >> self.tick & 1]
        found = {(trace, refused) for trace, refused in first if self.is_free(trace) and refused in at_rest}
        found |= {(trace, refused) for trace in ended for refused in without_tick}
        found |= {(trace + (self.tick,), refused) for trace in ended for refused in self.every}
        found |= {(one + other, refused) for one in free for other, refused in second if other}
        if may_end:
            found |= {(trace, refused) for trace in free for refused in without_tick}
        return frozenset(found)

    # ---- the answers

    def accepts(self, trace: Trace, event: int) -> bool:
        return trace + (event,) in self.traces(self.spec.bodies[0], self.unfoldings)

    def refuses(self, trace: Trace, refused: int) -> bool:
        return (trace, refused) in self.failures(self.spec.bodies[0], self.unfoldings)
