"""What `cspwatch show --format json` prints, and how its lines are read. `docs/JOURNAL.md` of the project describes them."""
from __future__ import annotations

import json
import re
from dataclasses import dataclass
from typing import Dict, Iterable, List, Optional, Tuple

from .replies import CspwatchError, Status

Names = Tuple[str, ...]
Fields = Dict[str, object]

NAME = re.compile(r"[!-~]+")
"""An event's name."""


@dataclass(frozen=True)
class Entry:
    """A report of the journal, with its verdict."""

    place: int
    """Its place in the history, counted from 1."""

    seat: int
    """The seat that reported it."""

    number: int
    """Its number among the reports of the seat, counted from 1."""

    refusal: bool
    """Whether a refusal was reported. Otherwise it was an event."""

    events: Names
    """The event that happened, or the events that were refused."""

    accepted: bool
    """Whether the specification allows what was reported."""

    expected: Names = ()
    """Of a rejected event: the events that could have come instead."""

    acceptances: Tuple[Names, ...] = ()
    """Of a rejected refusal: the least sets of events that the process may come to rest on."""

    line: str = ""
    """Where the line stands in a log that reported it; empty where that isn't known, and then so is all that follows."""

    time: Optional[str] = None
    """The time in that line."""

    text: str = ""
    """The line. What was expected isn't known of such an entry."""


@dataclass(frozen=True)
class Count:
    """How often an event was reported, and how often it could have come."""

    event: str
    accepted: int
    rejected: int
    possible: int
    """Before how many entries it could have come."""


@dataclass(frozen=True)
class Coverage:
    """Which events of the alphabet came."""

    counts: Tuple[Count, ...]
    never_came: Names
    could_never_come: Names


@dataclass(frozen=True)
class Shown:
    """All that was printed of a journal."""

    entries: Tuple[Entry, ...]
    """All entries in the order of their places, or the rejected ones alone."""

    coverage: Optional[Coverage]
    """None where it wasn't asked for."""

    summary: Status
    """The counts of the whole journal."""


class BadLine(CspwatchError):
    """A line isn't what `cspwatch show --format json` prints, or isn't in its place."""

    def __init__(self, line: int, reason: str) -> None:
        super().__init__("line %d: %s" % (line, reason))
        self.line = line
        """The number of the line, counted from 1."""
        self.reason = reason
        """What is wrong with it."""


class Wrong(Exception):
    """What is wrong with a line whose number isn't known here."""


def read(lines: Iterable[str]) -> Shown:
    """What the lines show of a journal, or `BadLine`."""
    reader = Reader()
    number = 0
    for number, line in enumerate(lines, 1):
        try:
            reader.take(line)
        except Wrong as wrong:
            raise BadLine(number, str(wrong)) from None
    if reader.summary is None:
        raise BadLine(number + 1, "the summary is missing")
    return Shown(tuple(reader.entries), reader.coverage, reader.summary)


class Reader:
    """What was read so far. The lines come in this order: entries, counts of events, events that never came, summary."""

    def __init__(self) -> None:
        self.entries: List[Entry] = []
        self.counts: List[Count] = []
        self.coverage: Optional[Coverage] = None
        self.summary: Optional[Status] = None

    def take(self, line: str) -> None:
        """Reads the next line."""
        fields = fields_of(line)
        if self.summary is not None:
            raise Wrong("nothing comes after the summary")
        if "place" in fields:
            self.take_entry(fields)
        elif "event" in fields:
            self.take_count(fields)
        elif "never_came" in fields:
            self.take_coverage(fields)
        elif "judged" in fields:
            self.take_summary(fields)
        else:
            raise Wrong("this is no entry, no count of an event and no summary")

    def take_entry(self, fields: Fields) -> None:
        if self.counts or self.coverage is not None:
            raise Wrong("an entry comes after the coverage")
        entry = entry_of(fields)
        if self.entries and entry.place <= self.entries[-1].place:
            raise Wrong("place %d comes after place %d" % (entry.place, self.entries[-1].place))
        self.entries.append(entry)

    def take_count(self, fields: Fields) -> None:
        if self.coverage is not None:
            raise Wrong("the count of an event comes after the end of the coverage")
        check_fields(fields, "event", "accepted", "rejected", "possible")
        name = fields["event"]
        if not is_name(name):
            raise Wrong("`event` isn't an event's name")
        accepted, rejected, possible = (whole(fields, field) for field in ("accepted", "rejected", "possible"))
        self.counts.append(Count(str(name), accepted, rejected, possible))

    def take_coverage(self, fields: Fields) -> None:
        if self.coverage is not None:
            raise Wrong("the end of the coverage comes twice")
        check_fields(fields, "never_came", "could_never_come")
        self.coverage = Coverage(tuple(self.counts), names(fields, "never_came"), names(fields, "could_never_come"))

    def take_summary(self, fields: Fields) -> None:
        if self.counts and self.coverage is None:
            raise Wrong("the line with `never_came` is missing before the summary")
        check_fields(fields, "judged", "events", "refusals", "rejected", "closed")
        judged, events, refusals, rejected = (whole(fields, field) for field in ("judged", "events", "refusals", "rejected"))
        closed = fields["closed"]
        if not isinstance(closed, bool):
            raise Wrong("`closed` isn't true or false")
        if self.entries and self.entries[-1].place > judged:
            raise Wrong("`judged` is %d, but there is an entry at place %d" % (judged, self.entries[-1].place))
        self.summary = Status(judged, events, refusals, rejected, closed)


def fields_of(line: str) -> Fields:
    """The fields of the JSON object that the line is."""
    try:
        found = json.loads(line, object_pairs_hook=once_each)
    except (ValueError, RecursionError):
        raise Wrong("this isn't JSON") from None
    if not isinstance(found, dict):
        raise Wrong("this isn't a JSON object")
    return found


def once_each(pairs: List[Tuple[str, object]]) -> Fields:
    """The fields of an object, of which none may come twice."""
    fields = dict(pairs)
    if len(fields) < len(pairs):
        raise Wrong("a field comes twice")
    return fields


def entry_of(fields: Fields) -> Entry:
    """The entry with these fields."""
    report, verdict = fields.get("report"), fields.get("verdict")
    reason = {("event", "NO"): ["expected"], ("refusal", "NO"): ["acceptances"]}.get((str(report), str(verdict)), [])
    check_fields(fields, "place", "seat", "number", "report", "events", "verdict", *reason)
    if report not in ("event", "refusal"):
        raise Wrong("`report` isn't \"event\" or \"refusal\"")
    if verdict not in ("OK", "NO"):
        raise Wrong("`verdict` isn't \"OK\" or \"NO\"")
    place, seat, number = (whole(fields, field, 1) for field in ("place", "seat", "number"))
    events = names(fields, "events")
    if report == "event" and len(events) != 1:
        raise Wrong("`events` of an event has %d names, and not one" % len(events))
    return Entry(
        place,
        seat,
        number,
        report == "refusal",
        events,
        verdict == "OK",
        names(fields, "expected") if "expected" in reason else (),
        sets(fields, "acceptances") if "acceptances" in reason else (),
    )


def check_fields(fields: Fields, *wanted: str) -> None:
    """Raises `Wrong` where these aren't the fields."""
    for field in wanted:
        if field not in fields:
            raise Wrong("the field `%s` is missing" % field)
    for field in fields:
        if field not in wanted:
            raise Wrong("the field %s doesn't belong here" % ascii(field)[:80])


def whole(fields: Fields, field: str, least: int = 0) -> int:
    """The number in the field."""
    found = fields[field]
    # A bool is an int too.
    if type(found) is not int or found < least:
        raise Wrong("`%s` isn't a whole number from %d on" % (field, least))
    return found


def is_name(found: object) -> bool:
    return isinstance(found, str) and NAME.fullmatch(found) is not None


def names(fields: Fields, field: str) -> Names:
    """The names in the field."""
    found = fields[field]
    if not (isinstance(found, list) and all(is_name(name) for name in found)):
        raise Wrong("`%s` isn't a list of events' names" % field)
    return tuple(found)


def sets(fields: Fields, field: str) -> Tuple[Names, ...]:
    """The lists of names in the field."""
    found = fields[field]
    if not (isinstance(found, list) and all(isinstance(one, list) and all(is_name(name) for name in one) for one in found)):
        raise Wrong("`%s` isn't a list of lists of events' names" % field)
    return tuple(tuple(one) for one in found)
