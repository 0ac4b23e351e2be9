"""Minimal acceptances, found by asking which sets of events are refused."""
from __future__ import annotations

from typing import Callable, FrozenSet, Iterable, List, Sequence, Tuple

MOST_SETS = 32
"""How many minimal acceptances are looked for."""

MOST_TRANSVERSALS = 4_096
"""How many sets are asked for at most before the search for a further acceptance ends."""

Names = FrozenSet[str]
IsRefused = Callable[[Iterable[str]], bool]


def minimal_acceptances(may: Sequence[str], is_refused: IsRefused) -> Tuple[Names, ...]:
    """The least sets of which a process offers one whenever it comes to rest, `MOST_SETS` at most.

    may -- the events that may come. What can't come is always refused.
    is_refused -- whether the process may refuse all of these events together.

    A set is refused just where it meets not all of the acceptances. So a refusal that can't grow leaves a minimal
    acceptance; and where all are found, no set that meets each of them is refused.
    """
    found: List[Names] = []
    if not is_refused(()):
        return ()
    if is_refused(may):
        return (frozenset(),)
    hitting: List[Names] = [frozenset()]
    while hitting and len(found) < MOST_SETS:
        start = next((one for one in hitting if is_refused(sorted(one))), None)
        if start is None:
            break
        acceptance = frozenset(may) - grown(start, may, is_refused)
        found.append(acceptance)
        hitting = transversals(hitting, acceptance)
    return tuple(sorted(found, key=lambda one: sorted(may.index(name) for name in one)))


def grown(refused: Names, may: Sequence[str], is_refused: IsRefused) -> Names:
    """The refusal with each further event, in order, that can be refused beside those that are in it."""
    for event in may:
        if event not in refused and is_refused(sorted(refused | {event})):
            refused = refused | {event}
    return refused


def transversals(hitting: Sequence[Names], acceptance: Names) -> List[Names]:
    """The least sets that meet what `hitting` met, and the acceptance too."""
    hit = [one for one in hitting if one & acceptance]
    longer = {one | {name} for one in hitting if not one & acceptance for name in acceptance}
    least = [one for one in longer if not any(other < one for other in longer) and not any(other <= one for other in hit)]
    return sorted(hit + least, key=lambda one: (len(one), sorted(one)))[:MOST_TRANSVERSALS]
