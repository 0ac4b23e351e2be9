"""What the page shows, as sections of plain data: each is a function of what is known, and `page.js` has a function of the same name
that shows it. So a further section (a drawing of the specification, say) is one function here and one there."""
from __future__ import annotations

import os
from typing import Callable, Dict, List, NamedTuple, Optional, Sequence, Tuple

from ..shown import Entry, Wrong
from .following import View
from .service_logs import ServiceLog
from .tallies import KINDS, NAMED_SEATS, Key, Seen, Tally, entry_at

Data = Dict[str, object]

MOST_NAMES = 24
"""How many names of one list are shown."""

MOST_SETS = 12
"""How many sets of names are shown."""

MOST_SEATS = 200
"""How many seats are shown."""


class Known(NamedTuple):
    """What the sections are made of. The follower's lock is held meanwhile."""

    path: str
    view: View
    log: Optional[ServiceLog]
    tally: Tally


def state(known: Known) -> Data:
    """How it stands: the first thing to see."""
    view, log, tally = known.view, known.log, known.tally
    return {
        "journal": os.fsencode(known.path).decode("utf-8", "backslashreplace"),
        "process": view.header.root.decode("utf-8", "backslashreplace")[:200] if view.header else "",
        "phase": view.phase,
        "reason": view.reason,
        "open": view.is_open,
        "failed": log is not None and log.failed,
        "last": view.extent.grown,
        "entries": tally.total,
        "in_files": view.extent.records,
        "events": tally.of("event", "accepted"),
        "refusals": tally.of("refusal", "accepted"),
        "rejected": tally.rejected,
        "parts": view.extent.parts,
        "bytes": view.extent.bytes,
        "log": log is not None,
        "not_judged": sum(log.not_judged.values()) if log is not None else None,
        "codes": dict(sorted(log.not_judged.items())) if log is not None else {},
        "connections": log.connections if log is not None else None,
    }


def next_events(known: Known) -> Data:
    """What may come, and what must."""
    found = known.view.next
    if found is None or known.view.tally is None:
        return {"known": False, "reason": known.view.next_reason}
    must = None if found.must is None else sets_of(found.must)
    return {"known": True, "may": list(found.may), "must": must}


def rejections(known: Known) -> Data:
    """The newest rejected entries with their reasons, the newest first, and how many came before them."""
    found = [entry for entry in map(entry_of, reversed(known.tally.rejections)) if entry is not None]
    rows: List[Data] = [{**row_of(entry), **reason_of(entry)} for entry in found]
    return {"rows": rows, "earlier": known.tally.rejected - len(rows)}


def newest(known: Known) -> Data:
    """The newest entries, the newest first."""
    return {"rows": [row_of(entry) for entry in map(entry_of, reversed(known.tally.newest)) if entry is not None]}


def seats(known: Known) -> Data:
    """Each seat with its newest report."""
    tally = known.tally
    all_seats = [*sorted(tally.named.items()), *reversed(tally.unnamed.items())]
    rows = [row for row in (seat_row(tally, seat, seen) for seat, seen in all_seats[:MOST_SEATS]) if row is not None]
    return {"rows": rows, "more": len(all_seats) - len(rows) + tally.unnamed_gone, "since": known.view.since or None}


def coverage(known: Known) -> Data:
    """How often each event of the script was reported."""
    events, tally = known.view.events, known.tally
    if events is None:
        return {"known": False}
    # Termination is left out where it never came: most processes have none.
    shown = [event for event in events if event != events[-1] or tally.accepted_events[event] or tally.rejected_events[event]]
    rows = [[event, tally.accepted_events[event], tally.rejected_events[event]] for event in shown]
    return {"known": True, "rows": rows, "never": tally.never_seen(tuple(shown))}


SECTIONS: Dict[str, Callable[[Known], Data]] = {
    "state": state,
    "next": next_events,
    "rejections": rejections,
    "newest": newest,
    "seats": seats,
    "coverage": coverage,
}
"""The sections by the names that the page knows them by."""


def entry_of(line: bytes) -> Optional[Entry]:
    """The entry of a line that was counted; None where that can't be read after all."""
    try:
        return entry_at(line)
    except Wrong:
        return None


def row_of(entry: Entry) -> Data:
    """An entry, with as many of its events as are shown."""
    return {
        "place": entry.place,
        "seat": entry.seat,
        "refusal": entry.refusal,
        "events": list(entry.events[:MOST_NAMES]),
        "more": max(0, len(entry.events) - MOST_NAMES),
        "ok": entry.accepted,
    }


def reason_of(entry: Entry) -> Data:
    """Why an entry was rejected."""
    if entry.refusal:
        return {"acceptances": sets_of(entry.acceptances)}
    return {"expected": names_of(entry.expected)}


def names_of(names: Sequence[str]) -> Data:
    """As many of the names as are shown, and how many more there are."""
    return {"names": list(names[:MOST_NAMES]), "more": max(0, len(names) - MOST_NAMES)}


def sets_of(sets: Tuple[Tuple[str, ...], ...]) -> Data:
    """As many of the sets as are shown, and how many more there are."""
    return {"sets": [names_of(one) for one in sets[:MOST_SETS]], "more": max(0, len(sets) - MOST_SETS)}


def seat_row(tally: Tally, seat: int, seen: Seen) -> Optional[Data]:
    """A seat with its newest report; of one without a name its rejected reports aren't counted by themselves."""
    entry = entry_of(seen.line)
    if entry is None:
        return None
    rejected = sum(tally.counts[Key(seat, kind, "rejected")] for kind in KINDS) if seat <= NAMED_SEATS else None
    return {**row_of(entry), "number": entry.number, "at": seen.at, "rejected": rejected}
