"""Time as an event: how many ticks are due."""
from __future__ import annotations

from typing import Optional

from .mapping import Report
from .sessions import Session
from .times import TimeForm

MOST_TICKS = 10_000_000
"""The most ticks of one silence that are reported."""

SLICE = 100_000
"""How many ticks are reported at once; then their replies are waited for."""


class Clock:
    """The ticks of a map. Tick number n is at n times its length, counted from the beginning of 1970."""

    def __init__(self, length: int, event: str, longest: Optional[int]) -> None:
        self.length = length
        """In nanoseconds."""
        self.longest = longest
        """After so many ticks in a row a further one changes nothing; None where that isn't known."""
        self.report = Report("E " + event, event)

    def due(self, session: Session, time: int) -> int:
        """How many ticks the session has to be told of before a line of this time. They count as told. At its first line it is none."""
        number = time // self.length
        before, session.ticked = session.ticked, number if session.ticked is None else max(number, session.ticked)
        count = 0 if before is None else max(0, number - before)
        if self.longest is not None:
            # One more than it counts: where that is accepted, so are all that follow.
            count = min(count, max(0, self.longest + 1 - session.quiet))
        return count


def clock_of(form: Optional[TimeForm], is_served: bool) -> Optional[Clock]:
    """The clock of a map; None where it has no ticks.

    is_served -- whether a server judges: others may report to it in a silence, so nothing is known of how long the process counts.
    """
    if form is None or form.tick is None or form.event is None:
        return None
    return Clock(form.tick, form.event, None if is_served else form.longest)
