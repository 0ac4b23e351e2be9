"""What a campaign has reached of the specification."""
from __future__ import annotations

from collections import Counter
from typing import Dict, List, Sequence

from ..logs.running import by_channel

MOST_NAMES = 20
"""How many of the events that never came are named."""


class Coverage:
    """Which events came, and how often.

    A run is added as a whole, with its accepted events in their order: that is what decides where in the specification it was.
    """

    def __init__(self, events: Sequence[str]) -> None:
        """events -- those that can come."""
        self.events = events
        self.came: Counter[str] = Counter()

    def add(self, trace: Sequence[str]) -> None:
        """Adds the accepted events of a run."""
        self.came.update(trace)

    def merge(self, other: Coverage) -> None:
        """Adds what another part of the campaign has reached."""
        self.events = self.events or other.events
        self.came.update(other.came)

    def never(self) -> List[str]:
        """The events that never came; one word for all of a channel of which none came."""
        return by_channel(self.events, set(self.came))

    def short(self) -> str:
        """How much was reached."""
        return "%d of %d events came" % (sum(1 for event in self.events if self.came[event]), len(self.events))

    def text(self) -> str:
        """The same, with what wasn't reached."""
        never = self.never()
        named = " ".join(never[:MOST_NAMES]) + (" and %d more" % (len(never) - MOST_NAMES) if len(never) > MOST_NAMES else "")
        return self.short() + (", never " + named if never else "")

    def as_json(self) -> Dict[str, object]:
        """The same for other programs."""
        return {"events": {event: self.came[event] for event in self.events}}
