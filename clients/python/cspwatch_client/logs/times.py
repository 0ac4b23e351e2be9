"""Times of lines: the table `[time]`, and how a stamp is read."""
from __future__ import annotations

import re
from dataclasses import dataclass
from datetime import date
from typing import Dict, List, Mapping, Optional, Sequence, Tuple

from .jsonlines import JsonForm
from .keys import Path
from .tables import Pattern, Positions, Table

SECOND = 1_000_000_000
"""Times are numbers of nanoseconds."""

UNITS = {"us": SECOND // 1_000_000, "ms": SECOND // 1000, "s": SECOND, "min": 60 * SECOND, "h": 3600 * SECOND}

DURATION = re.compile(r"(\d{1,9})(%s)" % "|".join(UNITS))

WINDOW = SECOND
"""How long a followed log is waited for, where the map doesn't say it."""

GROUP = "time"
"""The group of a pattern that is the stamp; without it the whole match is."""

SINCE_1970 = {"unix": SECOND, "unix-ms": SECOND // 1000, "unix-us": SECOND // 1_000_000, "unix-ns": 1}
"""Formats that count from the beginning of 1970, with the length of what they count."""

ISO = "iso"

MONTHS = ("jan", "feb", "mar", "apr", "may", "jun", "jul", "aug", "sep", "oct", "nov", "dec")

DIRECTIVES = {
    "Y": r"(?P<Y>\d{4})",
    "m": r"(?P<m>\d\d?)",
    "b": r"(?P<b>[A-Za-z]{3})",
    "d": r" ?(?P<d>\d\d?)",
    "H": r" ?(?P<H>\d\d?)",
    "M": r"(?P<M>\d\d)",
    "S": r"(?P<S>\d\d)",
    "f": r"(?P<f>\d{1,9})",
    "z": r"(?P<zone>Z|[+-]\d\d(?::?\d\d)?)",
    "Z": r"(?P<zone>[A-Za-z]{1,9}|[+-]\d\d(?::?\d\d)?)",
    "a": r"[A-Za-z]{3}",
    "%": "%",
}
"""What a letter after a percent sign in a format stands for."""

ISO_FORM = r"(?P<Y>\d{4})-(?P<m>\d\d)-(?P<d>\d\d)[T ](?P<H>\d\d):(?P<M>\d\d):(?P<S>\d\d)(?:[.,](?P<f>\d{1,9}))?(?P<zone>Z|[+-]\d\d(?::?\d\d)?)?"

OFFSET = re.compile(r"([+-])(\d\d):?(\d\d)?")

YEAR_WITHOUT = 2000
"""The year of a stamp that has none; a leap year."""

MOST_DAYS = 1000
"""Of so many days it is kept when they began."""


@dataclass(frozen=True)
class Stamp:
    """A time, and the zone that was written beside it."""

    time: int
    """Nanoseconds since 1970, by the clock of the zone Greenwich where the zone's distance from it is known."""
    zone: str
    """Empty where none is written."""


class StampFormat:
    """A format of stamps."""

    def __init__(self, source: str) -> None:
        """`ValueError` where there is no such format."""
        self.source = source
        self.unit = SINCE_1970.get(source)
        self.form = re.compile("" if self.unit else ISO_FORM if source == ISO else form_of(source))
        if not self.unit and not {"H", "M"} <= set(self.form.groupindex):
            raise ValueError("a format needs hours and minutes (%H and %M)")
        self.days: Dict[Tuple[str, ...], int] = {}

    def read(self, text: str) -> Stamp:
        """The time. `ValueError` where it hasn't the format."""
        if self.unit is not None:
            return Stamp(decimal(text, self.unit), "")
        found = self.form.fullmatch(text)
        if found is None:
            raise ValueError("it isn't of the format %s" % self.source)
        parts = found.groupdict()
        zone = parts.get("zone") or ""
        hour, minute, second = int(parts["H"]), int(parts["M"]), int(parts.get("S") or 0)
        if hour > 23 or minute > 59 or second > 60:
            raise ValueError("there is no such time of a day")
        fraction = int((parts.get("f") or "0").ljust(9, "0"))
        return Stamp(self.day(parts) + (hour * 3600 + minute * 60 + second) * SECOND + fraction - offset(zone), zone)

    def day(self, parts: Mapping[str, Optional[str]]) -> int:
        """When the day began."""
        key = (parts.get("Y") or "", parts.get("m") or parts.get("b") or "", parts.get("d") or "")
        found = self.days.get(key)
        if found is None:
            year, month, day = key
            number = MONTHS.index(month.lower()) + 1 if month.isalpha() else int(month or 1)
            found = (date(int(year or YEAR_WITHOUT), number, int(day or 1)) - date(1970, 1, 1)).days * 24 * 3600 * SECOND
            if len(self.days) >= MOST_DAYS:
                self.days.clear()
            self.days[key] = found
        return found


@dataclass(frozen=True)
class LogForm:
    """How the lines of some logs have their times."""

    file: Optional[str]
    """Which logs, as a pattern of names; None for all."""
    pattern: Optional[Pattern]
    field: Optional[str]
    """The field of a line of JSON, in place of a pattern."""
    format: StampFormat
    path: Path
    """Where it stands in the map."""

    def text(self, line: str, json: Optional[JsonForm]) -> Optional[str]:
        """The stamp of a line, as it stands there; None where there is none."""
        if self.pattern is None:
            records = json.records(line) if json is not None else []
            return records[0][self.field or ""] if records else None
        match = self.pattern.search(line)
        if match is None:
            return None
        return match[GROUP] if GROUP in self.pattern.groupindex else match[0]


@dataclass(frozen=True)
class TimeForm:
    """The table `[time]`."""

    logs: Tuple[LogForm, ...]
    """The first that fits a log's name counts."""
    tick: Optional[int]
    event: Optional[str]
    """The event that is reported at each tick."""
    longest: Optional[int]
    """How many ticks at most the process counts, where nothing but ticks happens; None where the map doesn't say it."""
    window: int
    any_zone: bool


KEYS = ("pattern", "field", "format", "tick", "event", "longest", "window", "zones", "log")
LOG_KEYS = ("file", "pattern", "field", "format")
ZONES = ("same", "any")


def read_time(place: Positions, table: Table, json: Optional[JsonForm]) -> TimeForm:
    """The table `[time]`."""
    logs = [log_form(each, json) for each in table.tables("log", LOG_KEYS)]
    if "pattern" in table or "field" in table or not logs:
        logs.append(log_form(table, json))
    for one, other in (("tick", "event"), ("event", "tick"), ("longest", "tick")):
        if one in table and other not in table:
            raise table.fault(one, "`%s` goes with `%s`" % (one, other))
    tick = duration(table, "tick") if "tick" in table else None
    longest = None
    if "longest" in table and tick is not None:
        longest = -(-duration(table, "longest") // tick)
    event = table.text("event") if "event" in table else None
    window = duration(table, "window") if "window" in table else WINDOW
    return TimeForm(tuple(logs), tick, event, longest, window, table.choice("zones", ZONES) == "any")


def log_form(table: Table, json: Optional[JsonForm]) -> LogForm:
    """How some logs have their times."""
    table.one_of("pattern", "field")
    if json is None and "field" in table:
        raise table.fault("field", "there is no table [json]; write `pattern`")
    if json is not None and "pattern" in table:
        raise table.fault("pattern", "this map reads JSON; write `field`, one of [json.fields]")
    field = None if json is None else table.text("field")
    if json is not None and field not in json.fields:
        raise table.fault("field", "json.fields has no %r" % field)
    pattern = table.pattern("pattern") if json is None else None
    form = table.made("format", StampFormat, table.text("format"))
    return LogForm(table.text("file") if "file" in table else None, pattern, field, form, table.path)


def duration(table: Table, key: str) -> int:
    """A duration such as `100ms`, in nanoseconds."""
    text = table.text(key)
    found = DURATION.fullmatch(text)
    if found is None or int(found[1]) == 0:
        raise table.fault(key, "a number above 0 with one of %s is wanted, such as \"100ms\", not %r" % (", ".join(UNITS), text))
    return int(found[1]) * UNITS[found[2]]


def form_of(source: str) -> str:
    """The regular expression of a format."""
    pieces: List[str] = []
    at = 0
    while at < len(source):
        if source[at] != "%":
            pieces.append(re.escape(source[at]))
        else:
            at += 1
            letter = source[at : at + 1]
            if letter not in DIRECTIVES:
                raise ValueError("there is no %%%s; there are %s" % (letter, ", ".join("%" + known for known in DIRECTIVES)))
            pieces.append(DIRECTIVES[letter])
        at += 1
    return "".join(pieces)


def decimal(text: str, unit: int) -> int:
    """A number with or without a fraction, times the unit, in nanoseconds. `ValueError` where it is none."""
    whole, _, fraction = text.strip().partition(".")
    if not whole.isdecimal() or (fraction and not fraction.isdecimal()):
        raise ValueError("it isn't a number")
    return int(whole) * unit + int(fraction or "0") * unit // int(10 ** len(fraction))


def offset(zone: str) -> int:
    """How far the zone is ahead of Greenwich; 0 where that isn't known."""
    found = OFFSET.fullmatch(zone)
    if found is None:
        return 0
    ahead = (int(found[2]) * 3600 + int(found[3] or 0) * 60) * SECOND
    return -ahead if found[1] == "-" else ahead


def same_zones(zones: Sequence[str]) -> bool:
    """Whether these zones are one, by their distances from Greenwich or by their names."""
    return len({str(offset(zone)) if zone[:1] in ("+", "-") else "0" if zone.upper() in ("Z", "UTC", "GMT") else zone for zone in zones}) <= 1


def shown(time: int) -> str:
    """A time of day, to the millisecond."""
    of_day = time // (SECOND // 1000) % (24 * 3600 * 1000)
    return "%02d:%02d:%02d.%03d" % (of_day // 3600000, of_day // 60000 % 60, of_day // 1000 % 60, of_day % 1000)
