"""A limit of time for each line: a regular expression may go back and try again for ever."""
from __future__ import annotations

import signal
from types import FrameType
from typing import Optional

from .maps import Rule

LOOK_SECONDS = 0.5
"""Of the processor's time of this process, how much is between two looks."""

LOOKS = 3
"""The look that finds the same line again for the last time: it has taken a second at least."""


class TooLong(Exception):
    """A line takes too long."""

    def __init__(self, rule: Optional[Rule]) -> None:
        told = " in the rule of line %d of the map" % rule.line if rule is not None else ""
        super().__init__("a regular expression%s takes more than a second for this line" % told)


class Watch:
    """Ends what takes more than a second for one line."""

    def __init__(self) -> None:
        self.at: object = None
        """The line that is looked at now; None where none is."""
        self.before: object = None
        """The line of the last look."""
        self.looks = 0
        """How many looks have found this one."""

    def __enter__(self) -> None:
        """Looks from now on. Python looks for signals while an expression is searched for."""
        signal.signal(signal.SIGVTALRM, self.look)
        signal.setitimer(signal.ITIMER_VIRTUAL, LOOK_SECONDS, LOOK_SECONDS)

    def __exit__(self, *_: object) -> None:
        """Looks no more. At its end the interpreter lets go of what a signal calls, and would be ended by the next one."""
        signal.setitimer(signal.ITIMER_VIRTUAL, 0)

    def look(self, number: int, frame: Optional[FrameType]) -> None:
        """Raises `TooLong` in what goes on, where it is still at the line of some looks before."""
        self.looks = self.looks + 1 if self.at is self.before else 1
        self.before = self.at
        if self.at is not None and self.looks >= LOOKS:
            self.at = None
            rule = frame.f_locals.get("rule") if frame is not None else None
            raise TooLong(rule if isinstance(rule, Rule) else None)
