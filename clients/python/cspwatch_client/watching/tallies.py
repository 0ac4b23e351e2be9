"""What the entries of a journal come to: counts, and the newest of them. However many there are, little of them is kept."""
from __future__ import annotations

import re
from collections import Counter, OrderedDict, deque
from typing import Deque, Dict, List, NamedTuple, Optional, Tuple

from ..shown import Entry, Wrong, entry_of, fields_of

ENTRY = re.compile(
    rb'^\{"place":\d+,"seat":(\d+),"number":\d+,"report":"(event|refusal)","events":\[([^\]\n]*)\],"verdict":"(OK|NO)"[^\n]*\}$',
    re.MULTILINE,
)
"""An entry's line, with its seat, kind, events and verdict. Names of events have no quotes and no brackets."""

REJECTED = re.compile(rb'^[^\n]*"verdict":"NO"[^\n]*$', re.MULTILINE)

NEWEST = 50
"""How many of the newest entries are kept."""

REJECTIONS = 200
"""How many of the newest rejected entries are kept."""

NAMED_SEATS = 1000
"""Up to this number a seat is one that said who it is."""

UNNAMED = 100
"""How many of the other seats are kept: those that reported last."""

KINDS = ("event", "refusal")
VERDICTS = ("accepted", "rejected")

OTHER = 0
"""The number under which the other seats are counted together."""


class Seen(NamedTuple):
    """A seat's newest report."""

    line: bytes
    at: Optional[float]
    """When it was seen to come, in seconds since 1970; None where it was there before."""


class Key(NamedTuple):
    """What reports are counted by."""

    seat: int
    """`OTHER` for seats without a name."""
    kind: str
    verdict: str


class Tally:
    """The counts of the entries so far, in the order of their places."""

    def __init__(self) -> None:
        self.total = 0
        self.rejected = 0
        self.counts: Counter[Key] = Counter()
        self.accepted_events: Counter[str] = Counter()
        self.rejected_events: Counter[str] = Counter()
        self.newest: Deque[bytes] = deque(maxlen=NEWEST)
        self.rejections: Deque[bytes] = deque(maxlen=REJECTIONS)
        self.named: Dict[int, Seen] = {}
        self.unnamed: OrderedDict[int, Seen] = OrderedDict()
        self.unnamed_gone = 0
        """How many seats without a name aren't kept any more, where one that comes again counts again."""

    def take(self, data: bytes, at: Optional[float]) -> List[bytes]:
        """Counts these whole lines, which come next and were seen at this time, and answers the accepted events in their order. `Wrong`
        where they aren't the next entries."""
        lines = data.count(b"\n")
        found = ENTRY.findall(data)
        if not lines:
            return []
        first, last = entry_at(data[: data.index(b"\n")]), entry_at(data[data.rfind(b"\n", 0, -1) + 1 : -1])
        if len(found) != lines or (first.place, last.place) != (self.total + 1, self.total + lines):
            raise Wrong("the lines after place %d aren't the next entries" % self.total)
        self.total += lines
        for (seat, kind, events, verdict), count in Counter(found).items():
            self.add(int(seat), kind.decode(), events, verdict.decode(), count)
        for seat in {each[0] for each in found}:
            self.see(int(seat), Seen(last_line_of(data, seat), at))
        self.newest.extend(data[:-1].rsplit(b"\n", NEWEST)[-NEWEST:])
        self.rejections.extend(REJECTED.findall(data)[-REJECTIONS:])
        return [events[1:-1] for _, kind, events, verdict in found if kind == b"event" and verdict == b"OK"]

    def add(self, seat: int, kind: str, events: bytes, verdict: str, count: int) -> None:
        """Counts so many reports of this form."""
        is_accepted = verdict == "OK"
        self.counts[Key(seat if seat <= NAMED_SEATS else OTHER, kind, "accepted" if is_accepted else "rejected")] += count
        self.rejected += 0 if is_accepted else count
        if kind == "event":
            (self.accepted_events if is_accepted else self.rejected_events)[events[1:-1].decode("ascii", "replace")] += count

    def see(self, seat: int, seen: Seen) -> None:
        """Keeps a seat's newest report."""
        if seat <= NAMED_SEATS:
            self.named[seat] = seen
            return
        self.unnamed[seat] = seen
        self.unnamed.move_to_end(seat)
        if len(self.unnamed) > UNNAMED:
            self.unnamed.popitem(last=False)
            self.unnamed_gone += 1

    def of(self, kind: Optional[str] = None, verdict: Optional[str] = None) -> int:
        """How many reports have this kind and verdict."""
        return sum(count for key, count in self.counts.items() if kind in (None, key.kind) and verdict in (None, key.verdict))

    def never_seen(self, events: Tuple[str, ...]) -> List[str]:
        """Those of these events of which no report was accepted."""
        return [event for event in events if not self.accepted_events[event]]


def entry_at(line: bytes) -> Entry:
    """The entry of a line, or `Wrong`."""
    return entry_of(fields_of(line.decode("utf-8", "replace")))


def last_line_of(data: bytes, seat: bytes) -> bytes:
    """The last line of this seat."""
    place = data.rfind(b',"seat":%s,' % seat)
    return data[data.rfind(b"\n", 0, place) + 1 : data.index(b"\n", place)]
