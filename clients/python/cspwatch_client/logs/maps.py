"""Maps: which lines of a log are which reports. A map is a file of TOML; the manual page has its form."""
from __future__ import annotations

import os
import re
import tomllib
from dataclasses import dataclass, replace
from typing import Any, Dict, List, Mapping, Optional, Protocol, Sequence, Tuple

from .jsonlines import JsonForm, read_fields, read_json
from .keys import Path, dotted, line_of, lines_of_keys
from .tables import MapFault as MapFault
from .tables import Pattern, Positions, Table
from .templates import Template
from .times import KEYS as TIME_KEYS
from .times import TimeForm, read_time

MOST_PLACES = 256
"""The most places of a kind: a script has at most so many events."""

KEYS = {
    "specification": ("script", "process", "large"),
    "time": TIME_KEYS,
    "order": ("rules",),
    "json": ("each", "fields"),
    "places": ("size", "of", "take", "free"),
    "rule": ("name", "file", "match", "event", "events", "refusal", "free_by"),
    "names": (),
    "ignore": ("file", "match"),
    "join": ("file", "begin", "begin_event", "end", "line"),
    "sessions": ("key", "begin", "end", "after_no", "skip_until"),
}
"""The tables of a map, with the keys of each; those of `names` are the user's own."""

GO_ON, STOP = "go on", "stop"
"""What is done after the first rejected report of a session."""


class Found(Protocol):
    """A line that matches."""

    def groupdict(self) -> Dict[str, Optional[str]]:
        """The texts of the groups."""


class Searcher(Protocol):
    """What is searched for in lines: a regular expression, or one for each of some fields of JSON."""

    @property
    def groupindex(self) -> Mapping[str, int]:
        """The names of the groups."""

    def search(self, subject: Any, /) -> Optional[Found]:
        """The match; None where there is none."""


@dataclass(frozen=True)
class Specification:
    """The process to judge by."""

    script: str
    """The file of the script."""
    process: str
    large: bool
    """Whether the program is to be called with `--large`."""


@dataclass(frozen=True)
class PlaceKind:
    """A kind of names that get numbers: 0 to `size` - 1, the lowest that is free."""

    name: str
    size: int
    of: Optional[Template]
    """What has places of its own; None where all names share them."""
    take: Tuple[Template, ...]
    """The events by which a name becomes that of somebody else, who has no number yet."""
    free: Tuple[Template, ...]
    """The events after which a name gives its number back."""


@dataclass(frozen=True)
class Reported:
    """What a rule reports: an event, or a refusal."""

    key: str
    """The key of the map that says it."""
    event: Optional[Template]
    """None for a refusal."""
    refused: Tuple[Template, ...]

    def templates(self) -> Tuple[Template, ...]:
        return self.refused if self.event is None else (self.event,)


@dataclass(frozen=True)
class Rule:
    """A line that matches is these reports."""

    number: int
    """Its number among the rules, from 0."""
    path: Path
    """Where it stands in the map."""
    line: int
    """Its line in the map."""
    pattern: Searcher
    reports: Tuple[Reported, ...]
    """In their order; none where the line only frees places."""
    frees: Tuple[str, ...]
    """The kinds of places that the names in its groups give back."""
    name: Optional[str]
    file: Optional[str]
    """The logs whose lines it takes, as a pattern of names; None for all."""


@dataclass(frozen=True)
class Ignored:
    """A line that matches is no report, and is no fault either."""

    line: int
    """Its line in the map."""
    pattern: Searcher
    file: Optional[str]


@dataclass(frozen=True)
class Join:
    """Two lines that belong together and become one."""

    begin: Pattern
    end: Pattern
    line: Template
    shared: Tuple[str, ...]
    """The groups that both have: their texts are the same in both lines."""
    rule: Optional[Rule]
    """What the first line reports when it comes."""
    file: Optional[str]


@dataclass(frozen=True)
class Sessions:
    """One session for each key."""

    key: Template
    begin: Optional[Template]
    end: Tuple[Template, ...]


@dataclass(frozen=True)
class Map:
    """A whole map."""

    file: str
    specification: Optional[Specification]
    time: Optional[TimeForm]
    order: Tuple[int, ...]
    """The numbers of the rules whose lines come first of those that have one time."""
    json: Optional[JsonForm]
    """How lines of JSON are read; None where lines are text."""
    places: Mapping[str, PlaceKind]
    names: Mapping[str, Mapping[str, str]]
    rules: Tuple[Rule, ...]
    """Those that are tried with each line, and after them those of the first lines of joins."""
    ignored: Tuple[Ignored, ...]
    joins: Tuple[Join, ...]
    sessions: Optional[Sessions]
    """None where the whole log is one session."""
    after_no: str
    """What is done after the first rejected report of a session: `GO_ON` or `STOP`."""
    skip_until: Optional[int]
    """The number of the rule whose line is the first of a session that is judged; None where the first line is."""
    lines: Mapping[Path, int]

    def fault(self, path: Path, reason: str) -> MapFault:
        """A fault of what is at this path."""
        return MapFault(self.file, line_of(dict(self.lines), path), dotted(path), reason)

    def may_report(self, template: Template) -> bool:
        """Whether a rule may report an event that the template can be."""
        events = (reported.event for rule in self.rules for reported in rule.reports)
        return any(template.may_equal(event) for event in events if event is not None)


def read_map(file: str) -> Map:
    """The map in the file. `MapFault` says what is wrong with it, `OSError` that it can't be read."""
    with open(file, "rb") as opened:
        data = opened.read()
    try:
        text = data.decode("utf-8")
        table = tomllib.loads(text)
    except UnicodeDecodeError as error:
        raise MapFault(file, data.count(b"\n", 0, error.start) + 1, "", "this isn't UTF-8") from None
    except tomllib.TOMLDecodeError as error:
        reason = str(error)
        at = re.search(r" \(at (?:line (\d+), column \d+|end of document)\)$", reason)
        line = int(at[1]) if at and at[1] else text.count("\n") + 1
        raise MapFault(file, line, "", "this isn't TOML: " + (reason[: at.start()] if at else reason)) from None
    found = Reader(Positions(file, lines_of_keys(text)), table).map()
    check_templates(found)
    return found


class Reader:
    """Reads the tables of a map."""

    def __init__(self, positions: Positions, table: Dict[str, object]) -> None:
        self.positions = positions
        self.top = Table(positions, (), table, tuple(KEYS))
        form = self.table("json")
        self.json = read_json(positions, form) if form is not None else None
        """How lines of JSON are read."""

    def fault(self, path: Path, reason: str) -> MapFault:
        return self.positions.fault(path, reason)

    def line(self, path: Path) -> int:
        return line_of(self.positions.lines, path)

    def map(self) -> Map:
        names = {name: self.names_of(table) for name, table in self.named("names")}
        places = {name: self.place(name, table) for name, table in self.named("places")}
        for name in places:
            if name in names:
                raise self.fault(("names", name), "these names have places already")
        rules = [self.rule(number, table) for number, table in enumerate(self.top.tables("rule", KEYS["rule"]))]
        if not rules:
            raise self.fault(("rule",), "there is no rule")
        named = named_rules(self, rules)
        joins = [self.join(len(rules) + number, table) for number, table in enumerate(self.top.tables("join", KEYS["join"]))]
        rules = [*rules, *(join.rule for join in joins if join.rule is not None)]
        ignored = [self.ignore(table) for table in self.top.tables("ignore", KEYS["ignore"])]
        time, sessions = self.table("time"), self.table("sessions")
        return Map(
            file=self.positions.file,
            specification=self.specification(),
            time=read_time(self.positions, time, self.json) if time is not None else None,
            order=self.order(named),
            json=self.json,
            places=places,
            names=names,
            rules=tuple(replace(rule, number=number) for number, rule in enumerate(rules)),
            ignored=tuple(ignored),
            joins=tuple(joins),
            sessions=self.sessions(sessions) if sessions is not None else None,
            after_no=sessions.choice("after_no", (GO_ON, STOP)) if sessions is not None else GO_ON,
            skip_until=number_of(sessions, named) if sessions is not None and "skip_until" in sessions else None,
            lines=self.positions.lines,
        )

    def table(self, key: str) -> Optional[Table]:
        """The table with this key; None where there is none."""
        return Table(self.positions, (key,), self.top.found[key], KEYS[key]) if key in self.top else None

    def named(self, key: str) -> List[Tuple[str, Table]]:
        """The tables below this key, with their names."""
        if key not in self.top:
            return []
        tables = Table(self.positions, (key,), self.top.found[key], ()).found
        return [(name, Table(self.positions, (key, name), table, KEYS[key])) for name, table in tables.items()]

    def specification(self) -> Optional[Specification]:
        table = self.table("specification")
        if table is None:
            return None
        large = "large" in table and table.value("large", bool, "true or false") is True
        script = os.path.join(os.path.dirname(self.positions.file), table.text("script"))
        return Specification(script, table.text("process"), large)

    def order(self, named: Mapping[str, int]) -> Tuple[int, ...]:
        table = self.table("order")
        if table is None:
            return ()
        if "time" not in self.top:
            raise self.fault(("order",), "lines are put in order by their times, and there is no table [time]")
        return tuple(rule_named(table, "rules", name, named) for name in table.texts("rules"))

    def names_of(self, table: Table) -> Dict[str, str]:
        for name, value in table.found.items():
            if type(value) not in (int, str):
                raise table.fault(name, "a number or a text is wanted, not %r" % (value,))
        return {name: str(value) for name, value in table.found.items()}

    def place(self, name: str, table: Table) -> PlaceKind:
        size = table.value("size", int, "a number")
        assert isinstance(size, int)
        if not 1 <= size <= MOST_PLACES:
            raise table.fault("size", "a number from 1 to %d is wanted, not %d" % (MOST_PLACES, size))
        of = table.template("of") if "of" in table else None
        if of is not None and name in of.fields:
            raise table.fault("of", "these places can't be of themselves")
        take = table.templates("take")
        for template in take:
            if name not in template.fields:
                raise table.fault("take", "%r doesn't name {%s}" % (template.source, name))
        return PlaceKind(name, size, of, take, table.templates("free"))

    def pattern(self, table: Table) -> Searcher:
        """What is searched for in the lines of a rule."""
        given = table.found.get("match")
        if self.json is None:
            if isinstance(given, dict):
                raise table.fault("match", "there is no table [json]; write a regular expression")
            return table.pattern("match")
        if isinstance(given, str):
            raise table.fault("match", "this map reads JSON: write a table with a regular expression for each field")
        return read_fields(self.positions, table.path + ("match",), table.value("match", dict, "a table"), self.json)

    def rule(self, number: int, table: Table) -> Rule:
        pattern = self.pattern(table)
        table.one_of("event", "events")
        reports: List[Reported] = []
        if "event" in table:
            reports.append(Reported("event", table.template("event"), ()))
        reports += [Reported("events", template, ()) for template in table.templates("events")]
        if "refusal" in table:
            reports.append(Reported("refusal", None, table.templates("refusal")))
        if not reports and "free_by" not in table:
            raise self.fault(table.path, "a rule has `event`, `events`, `refusal` or `free_by`")
        for reported in reports:
            for template in reported.templates():
                table.need(reported.key, template, list(pattern.groupindex), "`match` has no")
        frees = tuple(table.texts("free_by"))
        return Rule(number, table.path, self.line(table.path), pattern, tuple(reports), frees, self.text_in(table, "name"), self.text_in(table, "file"))

    def text_in(self, table: Table, key: str) -> Optional[str]:
        return table.text(key) if key in table else None

    def ignore(self, table: Table) -> Ignored:
        return Ignored(self.line(table.path), self.pattern(table), self.text_in(table, "file"))

    def join(self, number: int, table: Table) -> Join:
        """number -- the number of the rule for its first line."""
        if self.json is not None:
            raise self.fault(table.path, "lines of JSON aren't joined")
        begin, end, line = table.pattern("begin"), table.pattern("end"), table.template("line")
        shared = tuple(name for name in begin.groupindex if name in end.groupindex)
        if not shared:
            raise table.fault("end", "`begin` and `end` have no group in common, by which lines belong together")
        table.need("line", line, [*begin.groupindex, *end.groupindex], "neither `begin` nor `end` has a")
        file, rule = self.text_in(table, "file"), None
        if "begin_event" in table:
            event = table.template("begin_event")
            table.need("begin_event", event, list(begin.groupindex), "`begin` has no")
            rule = Rule(number, table.path, self.line(table.path), begin, (Reported("begin_event", event, ()),), (), None, file)
        return Join(begin, end, line, shared, rule, file)

    def sessions(self, table: Table) -> Optional[Sessions]:
        if "key" not in table:
            for key in ("begin", "end"):
                if key in table:
                    raise table.fault(key, "`%s` goes with `key`; without a key the whole log is one session" % key)
            return None
        begin = table.template("begin") if "begin" in table else None
        return Sessions(table.template("key"), begin, table.templates("end"))


def named_rules(reader: Reader, rules: Sequence[Rule]) -> Dict[str, int]:
    """The numbers of the rules that have names, by these."""
    found: Dict[str, int] = {}
    for rule in rules:
        if rule.name is not None and rule.name in found:
            raise reader.fault(rule.path + ("name",), "another rule has the name %r" % rule.name)
        if rule.name is not None:
            found[rule.name] = rule.number
    return found


def rule_named(table: Table, key: str, name: str, named: Mapping[str, int]) -> int:
    """The number of the rule with this name."""
    if name not in named:
        raise table.fault(key, "no rule has `name = \"%s\"`" % name)
    return named[name]


def number_of(sessions: Table, named: Mapping[str, int]) -> int:
    return rule_named(sessions, "skip_until", sessions.text("skip_until"), named)


def check_templates(found: Map) -> None:
    """Finds what names events that no rule reports, and groups that rules don't have."""
    named: List[Tuple[Path, Template]] = []
    for kind in found.places.values():
        named += [(("places", kind.name, "take"), take) for take in kind.take]
        named += [(("places", kind.name, "free"), free) for free in kind.free]
    if found.sessions is not None:
        named += [(("sessions", "begin"), found.sessions.begin)] if found.sessions.begin is not None else []
        named += [(("sessions", "end"), end) for end in found.sessions.end]
    for path, template in named:
        if not found.may_report(template):
            raise found.fault(path, "no rule reports %r" % template.source)
    for rule in found.rules:
        check_groups(found, rule)


def check_groups(found: Map, rule: Rule) -> None:
    """Finds what a rule has no group for: the key of sessions, what a place is of, and what it frees."""
    groups = rule.pattern.groupindex
    match = "begin" if rule.path[0] == "join" else "match"
    for field in found.sessions.key.fields if found.sessions is not None else ():
        if field not in groups:
            raise found.fault(rule.path + (match,), "there is no group %r, which sessions.key asks for" % field)
    used = [(reported.key, field) for reported in rule.reports for template in reported.templates() for field in template.fields]
    for name in rule.frees:
        if name not in found.places:
            raise found.fault(rule.path + ("free_by",), "there is no table [places.%s]" % name)
        if name not in groups:
            raise found.fault(rule.path + ("free_by",), "`match` has no group %r" % name)
        used.append(("free_by", name))
    for key, kind in [(key, found.places[field]) for key, field in used if field in found.places]:
        for field in kind.of.fields if kind.of is not None else ():
            if field not in groups:
                raise found.fault(rule.path + (key,), "`%s` has no group %r, which places.%s.of asks for" % (match, field, kind.name))
