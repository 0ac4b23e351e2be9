"""Texts that a line needs to have before a regular expression can match: looking for them costs less than the expression."""
from __future__ import annotations

import importlib
import re
from typing import Any, Iterable, List, Sequence, Tuple

Pattern = re.Pattern[str]

IGNORES_CASE = re.IGNORECASE


def needles(patterns: Sequence[Pattern]) -> List[str]:
    """For each pattern a text that each line has in which the pattern is found; empty where none is known. Of several it is the one
    that the fewest other patterns have as well."""
    all_of = [needed(pattern) for pattern in patterns]
    return [best(own, [other for other in all_of if other is not own]) for own in all_of]


def best(own: Sequence[str], others: Iterable[Sequence[str]]) -> str:
    """The text that tells a pattern best from others; the longest of several."""
    around = list(others)
    return min(own, key=lambda text: (sum(any(text in one for one in other) for other in around), -len(text)), default="")


def needed(pattern: Pattern) -> List[str]:
    """All texts that are in each line in which the pattern is found, as far as they are known."""
    if pattern.flags & IGNORES_CASE:
        return []
    try:
        parser: Any = importlib.import_module("re._parser")
        parsed = parser.parse(pattern.pattern, pattern.flags)
    except (ImportError, re.error):
        # Python's own parser isn't a public module; without it each expression is tried.
        return []
    runs: List[str] = []
    collect(parsed, runs)
    return [run for run in runs if run]


def collect(parsed: Any, runs: List[str]) -> None:
    """Adds the literal texts of a sequence, each of which every match has."""
    run = ""
    for kind, value in parsed:
        name = str(kind)
        if name == "LITERAL":
            run += chr(value)
            continue
        runs.append(run)
        run = ""
        for inner in required(name, value):
            collect(inner, runs)
    runs.append(run)


def required(name: str, value: Any) -> Tuple[Any, ...]:
    """The sequences inside an operation that every match of it has."""
    if name == "SUBPATTERN":
        _, added, _, inner = value
        return () if added & IGNORES_CASE else (inner,)
    if name in ("MAX_REPEAT", "MIN_REPEAT", "POSSESSIVE_REPEAT"):
        least, _, inner = value
        return (inner,) if least > 0 else ()
    return (value,) if name == "ATOMIC_GROUP" else ()
