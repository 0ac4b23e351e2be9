"""Lines that are JSON: the fields of a map by their paths, and what is searched in them."""
from __future__ import annotations

import json
from dataclasses import dataclass
from typing import Dict, Iterator, List, Mapping, Optional, Tuple

from .keys import Path
from .tables import Pattern, Positions, Table

STEP = "."
"""What parts the steps of a path that is one text."""

Steps = Tuple[str, ...]
Fields = Mapping[str, Optional[str]]
"""The texts of the fields of a line; None for a field that it hasn't."""


@dataclass(frozen=True)
class JsonForm:
    """Which fields a line has, and where they are."""

    each: Steps
    """The way to the objects that are lines of their own; empty where the line's object is one itself."""
    fields: Mapping[str, Steps]

    def records(self, text: str) -> List[Fields]:
        """The fields of each object of the line; none where it isn't an object of JSON."""
        try:
            whole = json.loads(text)
        except (ValueError, RecursionError):
            return []
        if not isinstance(whole, dict):
            return []
        return [{name: found(around, steps) for name, steps in self.fields.items()} for around in objects(whole, self.each, ())]


class FieldsFound:
    """A line that `FieldsPattern` matches."""

    def __init__(self, groups: Dict[str, Optional[str]]) -> None:
        self.groups = groups

    def groupdict(self) -> Dict[str, Optional[str]]:
        return self.groups


class FieldsPattern:
    """Expressions, each for a field; all have to be found. Its groups are the fields of the map and those of the expressions."""

    def __init__(self, fields: Mapping[str, Steps], patterns: Mapping[str, Pattern]) -> None:
        self.patterns = tuple(patterns.items())
        names = [*fields, *(group for pattern in patterns.values() for group in pattern.groupindex)]
        self.groupindex: Mapping[str, int] = {name: number for number, name in enumerate(names, 1)}

    def search(self, fields: Fields) -> Optional[FieldsFound]:
        groups = dict(fields)
        for name, pattern in self.patterns:
            text = fields[name]
            match = None if text is None else pattern.search(text)
            if match is None:
                return None
            if pattern.groupindex:
                groups.update(match.groupdict())
        return FieldsFound(groups)


def read_json(place: Positions, table: Table) -> JsonForm:
    """The table `[json]`."""
    each = steps_of(table, "each") if "each" in table else ()
    named = Table(place, table.path + ("fields",), table.value("fields", dict, "a table"), ())
    return JsonForm(each, {name: steps_of(named, name) for name in named.found})


def read_fields(place: Positions, path: Path, found: object, form: JsonForm) -> FieldsPattern:
    """A `match` that is a table: an expression for each field."""
    table = Table(place, path, found, tuple(form.fields))
    patterns = {name: table.pattern(name) for name in table.found}
    taken = set(form.fields)
    for name, pattern in patterns.items():
        for group in pattern.groupindex:
            if group in taken:
                raise table.fault(name, "there is a field or a group %r already" % group)
            taken.add(group)
    return FieldsPattern(form.fields, patterns)


def steps_of(table: Table, key: str) -> Steps:
    """A path: a text whose steps are parted by dots, or a list of steps."""
    given = table.found[key]
    steps = given.split(STEP) if isinstance(given, str) else table.texts(key)
    if not steps or "" in steps:
        raise table.fault(key, "a path is wanted, such as \"a.b\" or [\"a\", \"b.c\"], not %r" % (given,))
    return tuple(steps)


def objects(value: object, steps: Steps, around: Tuple[object, ...]) -> Iterator[Tuple[object, ...]]:
    """The objects at the end of the steps, in lists and lists of lists, each after those that it is in, the innermost first."""
    if isinstance(value, list):
        for each in value:
            yield from objects(each, steps, around)
    elif isinstance(value, dict):
        if not steps:
            yield (value, *around)
        elif steps[0] in value:
            yield from objects(value[steps[0]], steps[1:], (value, *around))


def found(around: Tuple[object, ...], steps: Steps) -> Optional[str]:
    """The text at the end of the steps, from the innermost object that has it."""
    for value in around:
        text = text_of(at(value, steps))
        if text is not None:
            return text
    return None


def at(value: object, steps: Steps) -> object:
    """What is at the end of the steps; None where nothing is. A list of attributes, objects with `key` and `value`, is gone into by
    the key."""
    for step in steps:
        if isinstance(value, dict):
            value = value.get(step)
        elif isinstance(value, list):
            value = item_of(value, step)
        else:
            return None
    return value


def item_of(items: List[object], step: str) -> object:
    if step.isdecimal():
        return items[int(step)] if int(step) < len(items) else None
    return next((item.get("value") for item in items if isinstance(item, dict) and item.get("key") == step), None)


def text_of(value: object) -> Optional[str]:
    """A value as a text: a text itself, the bytes of a list of numbers, what is in an attribute's value, else as JSON has it."""
    if value is None or isinstance(value, str):
        return value
    if isinstance(value, dict) and len(value) == 1:
        ((name, inner),) = value.items()
        if name.endswith("Value"):
            return text_of(inner)
    if isinstance(value, list) and value and all(type(item) is int and 0 <= item < 256 for item in value):
        return bytes(value).decode("utf-8", "backslashreplace")
    return json.dumps(value, separators=(",", ":"))
