"""Tables of a map as they are read: each fault says file, line and key."""
from __future__ import annotations

import re
from typing import Callable, Dict, List, Sequence, Tuple, TypeVar

from .keys import Path, dotted, line_of
from .templates import Template

Pattern = re.Pattern[str]
Made = TypeVar("Made")


class MapFault(Exception):
    """What is wrong with a map: `FILE:LINE: KEY: reason`."""

    status = 3

    def __init__(self, file: str, line: int, key: str, reason: str) -> None:
        super().__init__("%s:%d: %s%s" % (file, line, key + ": " if key else "", reason))
        self.line = line
        """The line of the key, counted from 1."""
        self.key = key
        """The key, such as `rule.event`; empty where the file isn't TOML."""
        self.reason = reason
        """What is wrong."""


class Positions:
    """A file of a map, and on which line each of its keys stands."""

    def __init__(self, file: str, lines: Dict[Path, int]) -> None:
        self.file, self.lines = file, lines

    def fault(self, path: Path, reason: str) -> MapFault:
        """A fault of what is at this path."""
        return MapFault(self.file, line_of(self.lines, path), dotted(path), reason)


class Table:
    """A table of the map, with the path to it."""

    def __init__(self, place: Positions, path: Path, found: object, keys: Sequence[str]) -> None:
        """keys -- the keys that it may have; any where there is none."""
        self.place, self.path = place, path
        if not isinstance(found, dict):
            raise place.fault(path, "a table is wanted here")
        self.found: Dict[str, object] = found
        for key in found:
            if keys and key not in keys:
                raise place.fault(path + (key,), "there is no such key; there are %s" % ", ".join(keys))

    def __contains__(self, key: str) -> bool:
        return key in self.found

    def fault(self, key: str, reason: str) -> MapFault:
        return self.place.fault(self.path + (key,), reason)

    def one_of(self, *keys: str) -> None:
        """A fault where the table has more than one of these keys, which are forms of the same."""
        given = [key for key in keys if key in self]
        if len(given) > 1:
            raise self.fault(given[1], "write either `%s` or `%s`" % (given[0], given[1]))

    def tables(self, key: str, keys: Sequence[str]) -> List[Table]:
        """The tables of an array of tables."""
        found = self.found.get(key, [])
        if not isinstance(found, list):
            raise self.fault(key, "write [[%s]], since there may be several" % dotted(self.path + (key,)))
        return [Table(self.place, self.path + (key, number), table, keys) for number, table in enumerate(found)]

    def value(self, key: str, kind: type, called: str) -> object:
        if key not in self.found:
            raise self.fault(key, "this key is missing")
        found = self.found[key]
        if type(found) is not kind:
            raise self.fault(key, "%s is wanted, not %r" % (called, found))
        return found

    def text(self, key: str) -> str:
        return str(self.value(key, str, "a text"))

    def texts(self, key: str) -> List[str]:
        """A text, or a list of texts."""
        found = self.found.get(key, [])
        texts = [found] if isinstance(found, str) else found
        if not (isinstance(texts, list) and all(isinstance(text, str) for text in texts)):
            raise self.fault(key, "a text or a list of texts is wanted, not %r" % (found,))
        return texts

    def choice(self, key: str, choices: Sequence[str]) -> str:
        """One of these texts, the first of them where the key is missing."""
        found = self.text(key) if key in self else choices[0]
        if found not in choices:
            raise self.fault(key, "%s is wanted, not %r" % (" or ".join("%r" % choice for choice in choices), found))
        return found

    def made(self, key: str, make: Callable[[str], Made], text: str) -> Made:
        """What is made of the text, which is a value of this key."""
        try:
            return make(text)
        except (ValueError, re.error) as error:
            raise self.fault(key, "%s: %s" % (text, error)) from None

    def pattern(self, key: str) -> Pattern:
        return self.made(key, re.compile, self.text(key))

    def template(self, key: str) -> Template:
        return self.made(key, Template, self.text(key))

    def templates(self, key: str) -> Tuple[Template, ...]:
        return tuple(self.made(key, Template, text) for text in self.texts(key))

    def need(self, key: str, template: Template, groups: Sequence[str], whose: str) -> None:
        """A fault where the template has a field that isn't one of these groups."""
        for field in template.fields:
            if field not in groups:
                raise self.fault(key, "%s group %r, which %r asks for" % (whose, field, template.source))
