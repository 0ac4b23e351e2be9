"""Processes as terms. The same term is one object, so terms are compared at once."""

from __future__ import annotations

from dataclasses import dataclass

from .alphabet import Alphabet

Relation = tuple[tuple[int, int], ...]


class Term:
    """A process: its `form`, its parts, and what else belongs to the form: `event` of a prefix, `events` of a parallel and
    of a hiding, `pairs` of a renaming, `number` of a name. `depth` is that of the term as a tree. Made by `term` alone."""

    __slots__ = ("form", "parts", "event", "events", "pairs", "number", "depth")

    def __init__(self, form: str, parts: tuple[Term, ...], event: int, events: int, pairs: Relation, number: int) -> None:
        self.form = form
        self.parts = parts
        self.event = event
        self.events = events
        self.pairs = pairs
        self.number = number
        self.depth = 1
        for part in parts:
            if part.depth >= self.depth:
                self.depth = part.depth + 1


_all: dict[tuple[str, tuple[Term, ...], int, int, Relation, int], Term] = {}


def term(form: str, parts: tuple[Term, ...] = (), event: int = 0, events: int = 0, pairs: Relation = (), number: int = 0) -> Term:
    key = (form, parts, event, events, pairs, number)
    found = _all.get(key)
    if found is None:
        found = _all[key] = Term(form, parts, event, events, pairs, number)
    return found


def forget_terms() -> None:
    """Lets all terms go but the two without parts; terms made before can't be compared with those made after."""
    _all.clear()
    for leaf in (STOP, SKIP):
        _all[(leaf.form, (), 0, 0, (), 0)] = leaf


STOP = term("stop")
SKIP = term("skip")


def prefix(event: int, then: Term) -> Term:
    return term("prefix", (then,), event)


def external(left: Term, right: Term) -> Term:
    return term("external", (left, right))


def internal(left: Term, right: Term) -> Term:
    return term("internal", (left, right))


def sequence(left: Term, right: Term) -> Term:
    return term("sequence", (left, right))


def interrupt(left: Term, right: Term) -> Term:
    return term("interrupt", (left, right))


def parallel(events: int, left: Term, right: Term) -> Term:
    return term("parallel", (left, right), 0, events)


def hiding(events: int, inner: Term) -> Term:
    return term("hiding", (inner,), 0, events)


def renaming(pairs: Relation, inner: Term) -> Term:
    return term("renaming", (inner,), pairs=pairs)


def name(number: int) -> Term:
    return term("name", number=number)


@dataclass
class Spec:
    """A specification: an alphabet and the bodies of the definitions by number. The root is the name of body 0."""

    alphabet: Alphabet
    bodies: list[Term]
