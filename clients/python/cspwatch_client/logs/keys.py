"""On which line of a file of TOML each key stands, which Python's own reader doesn't tell."""
from __future__ import annotations

import re
from typing import Dict, List, Tuple, Union

Path = Tuple[Union[str, int], ...]
"""The way to a value: keys, and for an array of tables the number of the table, from 0."""

PART = r"(?:\"(?:[^\"\\]|\\.)*\"|'[^']*'|[A-Za-z0-9_-]+)"
NAME = r"%s(?:\s*\.\s*%s)*" % (PART, PART)
TABLES = re.compile(r"\s*\[\[\s*(%s)\s*\]\]" % NAME)
TABLE = re.compile(r"\s*\[\s*(%s)\s*\]" % NAME)
KEY = re.compile(r"\s*(%s)\s*=" % NAME)

PIECE = re.compile(r'"""|\'\'\'|"(?:[^"\\]|\\.)*"|\'[^\']*\'|[\[\]{}]|#.*')
"""What matters in a value: the beginning of a long text, a short text, brackets, a comment."""


def lines_of_keys(text: str) -> Dict[Path, int]:
    """The line of each key and each table of a text that is TOML, counted from 1."""
    found: Dict[Path, int] = {}
    counts: Dict[Path, int] = {}
    table: Path = ()
    value = Value()
    for number, line in enumerate(text.splitlines(), 1):
        if value.is_open():
            value.take(line)
            continue
        many, one, key = TABLES.match(line), TABLE.match(line), KEY.match(line)
        if many:
            name = parts_of(many[1])
            counts[name] = counts.get(name, -1) + 1
            table = name + (counts[name],)
            found[table] = number
        elif one:
            table = parts_of(one[1])
            found[table] = number
        elif key:
            found[table + parts_of(key[1])] = number
            value.take(line[key.end() :])
    return found


def parts_of(name: str) -> Path:
    """The parts of a dotted key, without their quotes."""
    return tuple(part[1:-1] if part[0] in "\"'" else part for part in re.findall(PART, name))


class Value:
    """How far a value has been read: whether a text or a bracket is still open."""

    def __init__(self) -> None:
        self.depth = 0
        self.quotes = ""

    def is_open(self) -> bool:
        return self.depth > 0 or self.quotes != ""

    def take(self, line: str) -> None:
        """Reads the next line of the value."""
        at = 0
        while True:
            if self.quotes:
                end = line.find(self.quotes, at)
                if end < 0:
                    return
                at, self.quotes = end + 3, ""
            piece = PIECE.search(line, at)
            if piece is None:
                return
            at = piece.end()
            if piece[0] in ('"""', "'''"):
                self.quotes = piece[0]
            else:
                self.depth += {"[": 1, "{": 1, "]": -1, "}": -1}.get(piece[0], 0)


def line_of(lines: Dict[Path, int], path: Path) -> int:
    """The line of what is at this path, or of the nearest that holds it; 1 where there is none."""
    for length in range(len(path), 0, -1):
        if path[:length] in lines:
            return lines[path[:length]]
    return 1


def dotted(path: Path) -> str:
    """The path as a user writes it: without the numbers of tables."""
    parts: List[str] = [part for part in path if isinstance(part, str)]
    return ".".join(parts)
