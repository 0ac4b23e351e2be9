"""What a map makes of lines: which report a line is, and of which session."""
from __future__ import annotations

import os
import re
from fnmatch import fnmatchcase
from typing import Any, Callable, Dict, List, Mapping, NamedTuple, Optional, Sequence, Tuple, Union

from ..client import LINE_LIMIT
from .jsonlines import Fields
from .maps import Found, Ignored, Join, Map, Reported, Rule
from .needles import needles
from .places import Groups, NoPlace, Places
from .templates import Template

EVENT = re.compile(r"[!-~]+")
"""What an event's name can be."""

MOST_BEGUN = 1000
"""The most lines of one join that wait for their ends. Of more, the oldest is let go."""


class Unmapped(Exception):
    """Why a line that a rule takes is no report."""


class Report(NamedTuple):
    """What a line reports."""

    line: str
    """The line of the protocol, as `E a` or `R a b`, without its LF."""
    event: Optional[str]
    """The event; None for a refusal."""


class Joiner:
    """Makes one line of two that belong together."""

    def __init__(self, joins: Tuple[Join, ...]) -> None:
        self.joins = joins
        self.begun: List[Dict[Tuple[Optional[str], ...], Dict[str, Optional[str]]]] = [{} for _ in joins]
        self.lost = 0
        """How many beginnings were let go without an end."""

    def line(self, text: str, file: str = "") -> Union[str, Tuple[Join, re.Match[str]]]:
        """The line itself, the joined one where this is the second of two, or the join and its match where it is the first."""
        for join, begun in zip(self.joins, self.begun):
            if join.file is not None and not is_named(file, join.file):
                continue
            first = join.begin.search(text)
            if first is not None:
                key = tuple(first[name] for name in join.shared)
                self.lost += begun.pop(key, None) is not None
                begun[key] = first.groupdict()
                if len(begun) > MOST_BEGUN:
                    del begun[next(iter(begun))]
                    self.lost += 1
                return join, first
            last = join.end.search(text)
            if last is not None:
                groups = begun.pop(tuple(last[name] for name in join.shared), None)
                if groups is not None:
                    both = {**groups, **last.groupdict()}
                    return join.line.filled(lambda field: both[field] or "")
        return text

    def kept(self) -> Any:
        """The lines that wait, as they are kept in a file."""
        return [self.lost, [[[list(key), groups] for key, groups in begun.items()] for begun in self.begun]]

    def restore(self, kept: Any) -> None:
        """Takes lines that were kept."""
        self.lost = kept[0]
        self.begun = [{tuple(key): groups for key, groups in begun} for begun in kept[1]]

    def waiting(self) -> int:
        """How many beginnings have no end: those that wait, and those that were let go."""
        return self.lost + sum(len(begun) for begun in self.begun)


Tried = Tuple[str, Callable[[Any], Optional[Found]], Optional[Rule]]
"""What is tried with a line: a text that it needs to have, the search, and the rule; None for what ignores the line."""


class Rules:
    """The rules of a map, with how each field gets its text."""

    def __init__(self, found: Map, events: Optional[Sequence[str]]) -> None:
        """events -- all events of the script and termination, in their order; None where they aren't known."""
        self.map = found
        tried = [rule for rule in found.rules if rule.path[0] == "rule"]
        self.all: List[Union[Rule, Ignored]] = sorted([*tried, *found.ignored], key=lambda one: one.line)
        """What is tried with a line, in the order of the map."""
        self.tables: Dict[str, List[Tried]] = {}
        """The same by the names of logs, only what is for them."""
        self.by_file = any(one.file is not None for one in self.all)
        self.table = self.table_of("")
        """The same for each log, where it is."""
        self.events = events or ()
        self.alphabet = None if events is None else frozenset(events)
        self.fixed: Dict[int, Report] = {}
        """What reports without fields are, which is always the same, by the identity of what the map has."""
        self.used = [False] * len(found.rules)
        """Which rules have taken a line."""

    def table_of(self, file: str) -> List[Tried]:
        """What is tried with the lines of a log."""
        fitting = [one for one in self.all if not self.by_file or one.file is None or is_named(file, one.file)]
        patterns = [one.pattern for one in fitting if isinstance(one.pattern, re.Pattern)]
        texts = needles(patterns) if len(patterns) == len(fitting) else [""] * len(fitting)
        return [(text, one.pattern.search, one if isinstance(one, Rule) else None) for text, one in zip(texts, fitting)]

    def match(self, line: str, file: str = "") -> Optional[Tuple[Optional[Rule], Found]]:
        """The first rule that takes the line, with its match; the rule is None where the line is to be ignored."""
        table = self.table
        if self.by_file:
            if file not in self.tables:
                self.tables[file] = self.table_of(file)
            table = self.tables[file]
        for text, search, rule in table:
            if text in line:
                found = search(line)
                if found is not None:
                    if rule is not None:
                        self.used[rule.number] = True
                    return rule, found
        return None

    def plain(self) -> Dict[int, Report]:
        """What the lines of the rules always are whose one report has no fields, and which end nothing, by the rules' numbers."""
        found: Dict[int, Report] = {}
        for rule in self.map.rules:
            if len(rule.reports) == 1 and not any(template.fields for template in rule.reports[0].templates()):
                try:
                    found[rule.number] = self.report(rule.reports[0], {}, Places({}))
                except Unmapped:
                    # That is said of each of its lines.
                    continue
        return found

    def match_fields(self, fields: Fields, file: str) -> Optional[Tuple[Optional[Rule], Found]]:
        """The same for a line of JSON."""
        for one in self.all:
            found = one.pattern.search(fields) if one.file is None or is_named(file, one.file) else None
            if found is not None:
                if not isinstance(one, Rule):
                    return None, found
                self.used[one.number] = True
                return one, found
        return None

    def report(self, reported: Reported, groups: Groups, places: Places) -> Report:
        """What is reported of a line with these groups. `Unmapped` says why it is nothing that can be sent."""
        found = self.fixed.get(id(reported))
        if found is not None:
            return found
        found = self.made(reported, groups, places)
        if not any(template.fields for template in reported.templates()):
            self.fixed[id(reported)] = found
        return found

    def made(self, reported: Reported, groups: Groups, places: Places) -> Report:
        """The report, put together."""
        if reported.event is not None:
            held = places.held(groups)
            event = self.name(reported.event, groups, places)
            if held and places.taken_anew(held, event, groups):
                event = self.name(reported.event, groups, places)
            return Report("E " + event, event)
        try:
            # What is refused hasn't happened: a name that has no number yet gets none that it keeps.
            names = [self.name(template, groups, places, lend=True) for template in reported.refused]
        finally:
            places.take_back(groups)
        line = " ".join(["R"] + names)
        if len(line) > LINE_LIMIT:
            raise Unmapped("the report has %d bytes, and may have %d" % (len(line), LINE_LIMIT))
        return Report(line, None)

    def name(self, template: Template, groups: Groups, places: Places, lend: bool = False) -> str:
        """The event that the template is."""
        name = template.literals[0]
        for field, literal in zip(template.fields, template.literals[1:]):
            name += self.value(field, groups, places, lend) + literal
        if self.alphabet is not None:
            if name not in self.alphabet:
                raise Unmapped("the script has no event %r" % shortened(name))
        elif EVENT.fullmatch(name) is None or len(name) + 2 > LINE_LIMIT:
            raise Unmapped("%r can't be an event's name" % shortened(name))
        return name

    def value(self, field: str, groups: Groups, places: Places, lend: bool) -> str:
        """The text of a field: a number of a place, a constant by a table of names, or the group's own text."""
        text = groups[field]
        if text is None:
            raise Unmapped("the group %r took no part in the match" % field)
        kind = self.map.places.get(field)
        if kind is not None:
            try:
                return str(places.number(kind, groups, lend))
            except NoPlace as error:
                raise Unmapped(str(error)) from None
        names: Optional[Mapping[str, str]] = self.map.names.get(field)
        if names is None:
            return text
        if text not in names:
            raise Unmapped("names.%s has no %r" % (field, shortened(text)))
        return names[text]


def shortened(text: str) -> str:
    """The text, or its beginning where it is long."""
    return text if len(text) <= 100 else text[:100] + "…"


def is_named(file: str, pattern: str) -> bool:
    """Whether a log has such a name, with or without its folder."""
    return fnmatchcase(file, pattern) or fnmatchcase(os.path.basename(file), pattern)
