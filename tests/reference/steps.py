"""What a process can do next: its hidden steps, its events, and whether it can terminate."""

from __future__ import annotations

from collections.abc import Iterable

from . import terms
from .alphabet import members
from .faults import GivesUp
from .terms import SKIP, STOP, Spec, Term

MOST_TARGETS = 200_000
"""How many targets of one step this plain judge lists before it gives up."""


def is_in(event: int, mask: int) -> bool:
    return bool(mask >> event & 1)


class Steps:
    """The steps of the processes of one specification. What is found of a process is remembered."""

    def __init__(self, spec: Spec) -> None:
        self.spec = spec
        self.tick = spec.alphabet.tick
        self.ticking: dict[Term, bool] = {}
        self.offers: dict[Term, int] = {}
        self.by_hidden: dict[Term, frozenset[Term]] = {}
        self.by_event: dict[tuple[Term, int], frozenset[Term]] = {}

    # ---- termination

    def ticks(self, term: Term) -> bool:
        """Whether a process can terminate."""
        if term not in self.ticking:
            self.ticking[term] = self.find_ticks(term)
        return self.ticking[term]

    def find_ticks(self, term: Term) -> bool:
        if term.form in ("external", "interrupt"):
            return any(self.ticks(part) for part in term.parts)
        if term.form in ("hiding", "renaming"):
            return self.ticks(term.parts[0])
        if term.form == "parallel":
            return all(part is SKIP for part in term.parts)
        return term is SKIP

    # ---- events

    def offered(self, term: Term) -> int:
        """The events that a process can do at once, as a mask, without termination."""
        if term not in self.offers:
            self.offers[term] = self.find_offered(term)
        return self.offers[term]

    def find_offered(self, term: Term) -> int:
        form, parts = term.form, term.parts
        if form == "prefix":
            return 1 << term.event
        if form in ("external", "interrupt"):
            return self.offered(parts[0]) | self.offered(parts[1])
        if form == "sequence":
            return self.offered(parts[0])
        if form == "parallel":
            left, right = self.offered(parts[0]), self.offered(parts[1])
            return (left | right) & ~term.events | left & right & term.events
        if form == "hiding":
            return self.offered(parts[0]) & ~term.events
        if form == "renaming":
            mask = 0
            for event in members(self.offered(parts[0])):
                for image in self.images(term, event):
                    mask |= 1 << image
            return mask
        return 0

    @staticmethod
    def images(term: Term, event: int) -> list[int]:
        """The events to which a renaming relates an event."""
        return [right for left, right in term.pairs if left == event] or [event]

    def after(self, term: Term, event: int) -> frozenset[Term]:
        """The targets of an event, or of termination."""
        if event == self.tick:
            return frozenset([STOP]) if self.ticks(term) else frozenset()
        if not is_in(event, self.offered(term)):
            return frozenset()
        if (term, event) not in self.by_event:
            self.by_event[term, event] = self.listed(self.find_after(term, event))
        return self.by_event[term, event]

    @staticmethod
    def listed(targets: Iterable[Term]) -> frozenset[Term]:
        found: set[Term] = set()
        for target in targets:
            found.add(target)
            if len(found) > MOST_TARGETS:
                raise GivesUp()
        return frozenset(found)

    def find_after(self, term: Term, event: int) -> Iterable[Term]:
        form, parts = term.form, term.parts
        if form == "prefix":
            return [parts[0]]
        if form == "external":
            return self.after(parts[0], event) | self.after(parts[1], event)
        if form == "interrupt":
            interrupted = {terms.interrupt(target, parts[1]) for target in self.after(parts[0], event)}
            return interrupted | self.after(parts[1], event)
        if form == "sequence":
            return (terms.sequence(target, parts[1]) for target in self.after(parts[0], event))
        if form == "parallel":
            return self.after_in_parallel(term, event)
        if form == "hiding":
            return (terms.hiding(term.events, target) for target in self.after(parts[0], event))
        sources = [source for source in members(self.offered(parts[0])) if event in self.images(term, source)]
        return (terms.renaming(term.pairs, target) for source in sources for target in self.after(parts[0], source))

    def after_in_parallel(self, term: Term, event: int) -> Iterable[Term]:
        shared, (left, right) = term.events, term.parts
        lefts, rights = self.after(left, event), self.after(right, event)
        if is_in(event, shared):
            return (terms.parallel(shared, one, other) for one in lefts for other in rights)
        by_left = {terms.parallel(shared, target, right) for target in lefts}
        return by_left | {terms.parallel(shared, left, target) for target in rights}

    # ---- hidden steps

    def hidden(self, term: Term) -> frozenset[Term]:
        """The targets of hidden steps."""
        if term not in self.by_hidden:
            self.by_hidden[term] = self.listed(self.find_hidden(term))
        return self.by_hidden[term]

    def find_hidden(self, term: Term) -> Iterable[Term]:
        form, parts = term.form, term.parts
        if form == "internal":
            return parts
        if form == "name":
            return [self.spec.bodies[term.number]]
        if form == "sequence":
            made = {terms.sequence(target, parts[1]) for target in self.hidden(parts[0])}
            return made | {parts[1]} if self.ticks(parts[0]) else made
        if form == "renaming":
            return (terms.renaming(term.pairs, target) for target in self.hidden(parts[0]))
        if form == "hiding":
            inner = set(self.hidden(parts[0]))
            for event in members(self.offered(parts[0]) & term.events):
                inner |= self.after(parts[0], event)
            return (terms.hiding(term.events, target) for target in inner)
        if form in ("external", "interrupt", "parallel"):
            return self.hidden_of_either(term)
        return []

    def hidden_of_either(self, term: Term) -> Iterable[Term]:
        left, right = term.parts
        lefts, rights = set(self.hidden(left)), set(self.hidden(right))
        if term.form == "parallel":
            lefts |= {SKIP} if left is not SKIP and self.ticks(left) else set()
            rights |= {SKIP} if right is not SKIP and self.ticks(right) else set()
        made = {terms.term(term.form, (target, right), 0, term.events) for target in lefts}
        return made | {terms.term(term.form, (left, target), 0, term.events) for target in rights}

    # ---- at rest

    def refuses(self, term: Term, refused: int) -> bool:
        """Whether a process refuses a set: at rest it offers nothing of it; or it can terminate, and that isn't in the set."""
        if self.ticks(term):
            return not is_in(self.tick, refused)
        return not self.offered(term) & refused and not self.hidden(term)

    def possible(self, term: Term) -> int:
        """The events that it can do, and termination, as a mask."""
        return self.offered(term) | self.ticks(term) << self.tick

    def acceptance(self, term: Term) -> int | None:
        """What a process offers at rest, as a mask; termination alone where it can terminate; None where it isn't at rest."""
        if self.ticks(term):
            return 1 << self.tick
        return None if self.hidden(term) else self.offered(term)


def least(masks: set[int]) -> list[int]:
    """The sets that contain no other one. Of two, that comes first which has the first event that only one of them has."""
    found = [mask for mask in masks if not any(other != mask and other & mask == other for other in masks)]
    events = max(masks, default=0).bit_length()
    return sorted(found, key=lambda mask: [-(mask >> event & 1) for event in range(events)])
