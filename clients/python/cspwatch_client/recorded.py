"""What a record of `cspwatch-logs --record` has, beside the log that it is of, as the entries of a picture."""
from __future__ import annotations

import json
import re
from typing import Dict, Iterable, Iterator, List, Mapping, Optional, Set

from .logs.packed import pieces_of
from .logs.reading import Splitter
from .replies import Status
from .shown import BadLine, Entry, Shown

CLOCK = r"\d\d:\d\d:\d\d(?:[.,]\d+)?"
TIME = re.compile(r"\d{4}-\d\d-\d\d[T ]%s(?:Z|[+-]\d\d:?\d\d)?|\b[A-Z][a-z]{2} [ \d]\d %s|\b%s|^\d{10}(?:\.\d+)?\b" % (CLOCK, CLOCK, CLOCK))
"""What is a time in a line of a log."""


def read(record: Iterable[str], log: str) -> Shown:
    """The entries of a record, each with its line of the log in the file of this name. `BadLine` where a line is none of a record.

    Sessions are shown as seats, in the order in which they come. Reports that weren't judged are left out, as they have no entry.
    """
    found = list(objects(record))
    lines = texts_of(log, {int(str(one.get("line"))) for one in found})
    seats: Dict[str, int] = {}
    counts: Dict[int, int] = {}
    entries: List[Entry] = []
    for one in found:
        if "verdict" not in one:
            continue
        session = str(one.get("session", ""))
        seat = seats.setdefault(session, len(seats) + 1)
        counts[seat] = counts.get(seat, 0) + 1
        kind, *names = str(one["report"]).split(" ")
        at = int(str(one["line"]))
        text = lines.get(at, "")
        entries.append(
            Entry(
                place=len(entries) + 1,
                seat=seat,
                number=counts[seat],
                refusal=kind == "R",
                events=tuple(names),
                accepted=one["verdict"] == "OK",
                line="%s%s:%d" % (session + ": " if session else "", log, at),
                time=time_of(text),
                text=text,
            )
        )
    return Shown(tuple(entries), None, summary_of(entries))


def objects(record: Iterable[str]) -> Iterator[Mapping[str, object]]:
    """The objects of the record. A last line without its end, as a run that was killed leaves, is none."""
    for number, line in enumerate(record, 1):
        if not line.endswith("\n"):
            return
        try:
            one = json.loads(line)
            is_one = isinstance(one, dict) and isinstance(one.get("line"), int) and str(one.get("report", " "))[:1] in ("E", "R", "")
        except ValueError:
            is_one = False
        if not is_one:
            raise BadLine(number, "this is no line of a record of cspwatch-logs")
        yield one


def texts_of(log: str, wanted: Set[int]) -> Dict[int, str]:
    """The lines of the log with these numbers, as `cspwatch-logs` reads them."""
    splitter = Splitter(log)
    found: Dict[int, str] = {}
    for piece in pieces_of(log):
        found.update((line.number, line.text) for line in splitter.take(piece) if line.number in wanted)
    found.update((line.number, line.text) for line in splitter.end() if line.number in wanted)
    return found


def time_of(text: str) -> Optional[str]:
    """The first time in the line; None where there is none."""
    found = TIME.search(text)
    return found[0] if found is not None else None


def summary_of(entries: List[Entry]) -> Status:
    """The counts of the entries."""
    events = sum(entry.accepted and not entry.refusal for entry in entries)
    refusals = sum(entry.accepted and entry.refusal for entry in entries)
    return Status(len(entries), events, refusals, len(entries) - events - refusals, closed=False)
