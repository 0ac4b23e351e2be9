"""Channels, their events, and sets of events.

An event is a number: its place in alphabet order, counted from 0. A set of events is a mask: the sum of `1 << event` of
its members. Termination comes after the last event.
"""

from __future__ import annotations

from collections.abc import Iterable
from dataclasses import dataclass, field
from itertools import product

Value = int | str
"""A number or a constant."""

Values = tuple[Value, ...]

MOST_EVENTS = 256
TERMINATION = "_tick"


def in_order(values: frozenset[Value]) -> Values:
    """Numbers by their size, then constants by the bytes of their names."""
    return tuple(sorted(values, key=lambda value: (isinstance(value, str), value if isinstance(value, int) else 0, str(value))))


@dataclass
class Channel:
    """A channel: the values of each field in order, and the number of its first event."""

    name: str
    fields: list[Values]
    first: int

    def size(self) -> int:
        size = 1
        for values in self.fields:
            size *= len(values)
        return size


@dataclass
class Alphabet:
    """All channels in the order of their declaration."""

    channels: dict[str, Channel] = field(default_factory=dict)
    texts: list[str] = field(default_factory=list)
    numbers: dict[str, int] = field(default_factory=dict)
    parts: list[tuple[str, Values]] = field(default_factory=list)

    def has_room(self, fields: list[Values]) -> bool:
        return len(self.texts) + Channel("", fields, 0).size() <= MOST_EVENTS

    def declare(self, name: str, fields: list[Values]) -> None:
        self.channels[name] = Channel(name, fields, len(self.texts))
        if not all(fields):
            return
        for values in product(*fields):
            text = ".".join([name] + [str(value) for value in values])
            self.numbers[text] = len(self.texts)
            self.texts.append(text)
            self.parts.append((name, values))

    @property
    def tick(self) -> int:
        return len(self.texts)

    @property
    def sigma(self) -> int:
        """The set of all events, without termination."""
        return (1 << len(self.texts)) - 1

    def text(self, event: int) -> str:
        return self.texts[event] if event < len(self.texts) else TERMINATION

    def named(self, text: str) -> int | None:
        """The event, or termination, with exactly this text."""
        return self.tick if text == TERMINATION else self.numbers.get(text)

    def event(self, channel: str, values: Values) -> int | None:
        found = self.numbers.get(".".join([channel] + [str(value) for value in values]))
        return found if found is not None and self.parts[found] == (channel, values) else None

    def beginning(self, channel: str, values: Values) -> list[int]:
        """The events of a channel whose first fields have these values."""
        first, count = self.channels[channel].first, self.channels[channel].size()
        return [event for event in range(first, first + count) if self.parts[event][1][:len(values)] == values]

    def listed(self, mask: int) -> list[str]:
        """The texts of a set's members in alphabet order."""
        return [self.text(event) for event in members(mask)]


def set_of(events: Iterable[int]) -> int:
    mask = 0
    for event in events:
        mask |= 1 << event
    return mask


def members(mask: int) -> list[int]:
    """The members of a set in alphabet order."""
    found = []
    while mask:
        lowest = mask & -mask
        found.append(lowest.bit_length() - 1)
        mask ^= lowest
    return found
