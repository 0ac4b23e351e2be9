"""The processes that are reached by a trace, and the limits."""

from __future__ import annotations

from collections.abc import Iterable, Set

from . import terms
from .faults import TOO_DEEP_STATE, TOO_MANY_STATES, JudgeFault
from .keeping import Keeper
from .steps import Steps, least
from .terms import Spec, Term

LARGEST_DEPTH = 1_000
MOST_STATES = 4_096


class Judge:
    """Judges reports by a specification. `states` has all processes that the accepted events can have led to, by runs with
    hidden steps anywhere, also at the end. Where `large`, names are kept as their bodies."""

    def __init__(self, spec: Spec, large: bool = False) -> None:
        self.spec = spec
        self.steps = Steps(spec)
        self.keeper = Keeper(spec) if large else None
        self.known: dict[tuple[frozenset[Term], int], frozenset[Term] | None | JudgeFault] = {}
        self.states = self.closed([{terms.name(0)}])

    # ---- sets of processes

    def closed(self, lists: Iterable[Set[Term]]) -> frozenset[Term]:
        """The targets in these lists, and all that hidden steps make of them. Level 0 are the targets themselves, and each
        further level adds the targets of the hidden steps of its members; at the first level at which a limit is met, that
        limit is raised."""
        found: set[Term] = set()
        new = self.level(lists, found)
        while new:
            found |= new
            new = self.level([self.steps.hidden(term) for term in new], found)
        return frozenset(found)

    def level(self, lists: Iterable[Set[Term]], found: set[Term]) -> set[Term]:
        """The members that a level adds to those that were found before."""
        new: set[Term] = set()
        broad = False
        for targets in lists:
            broad |= len(targets) > MOST_STATES
            new |= targets if self.keeper is None else {self.keeper.kept(term) for term in targets}
        new -= found
        deep = any(term.depth > LARGEST_DEPTH for term in new)
        many = len(found) + len(new) > MOST_STATES
        if self.keeper is None:
            if deep or many:
                raise JudgeFault(TOO_DEEP_STATE if deep else TOO_MANY_STATES)
        elif deep or many or broad:
            raise JudgeFault(TOO_MANY_STATES if many or broad else TOO_DEEP_STATE)
        return new

    def after(self, event: int) -> frozenset[Term] | None:
        """The processes that are reached with one event more; None where the event isn't possible."""
        key = (self.states, event)
        if key not in self.known:
            self.known[key] = self.find_after(event)
        found = self.known[key]
        if isinstance(found, JudgeFault):
            raise found
        return found

    def find_after(self, event: int) -> frozenset[Term] | None | JudgeFault:
        lists = [self.steps.after(term, event) for term in self.states]
        try:
            return self.closed(lists) if any(lists) else None
        except JudgeFault as fault:
            return fault

    # ---- reports

    def judge_event(self, event: int) -> tuple[bool, frozenset[Term]]:
        """Whether the event is accepted, and the processes that are reached then."""
        following = self.after(event)
        return (False, self.states) if following is None else (True, following)

    def refuses(self, refused: int) -> bool:
        return any(self.steps.refuses(term, refused) for term in self.states)

    def possible(self) -> int:
        """The events that may come next, and termination, as a mask."""
        mask = 0
        for term in self.states:
            mask |= self.steps.possible(term)
        return mask

    def acceptances(self) -> list[int]:
        """The least sets of events that the process may offer when it comes to rest."""
        offers = {self.steps.acceptance(term) for term in self.states}
        return least({mask for mask in offers if mask is not None})
