"""Names kept as their bodies: the other way of keeping sets of processes (`--large`).

A name is exposed in a process where a hidden step can unfold it at once: below no prefix, in no part of an internal
choice, and in a sequence in the first part alone. A name is guarded where unfolding its exposed names, and theirs, comes
to an end. A process is kept as itself with what stands for each exposed name in its place: its body, kept in the same
way, where the name is guarded, else the name.
"""

from __future__ import annotations

from .terms import Spec, Term, term

THROUGH = frozenset(["external", "interrupt", "parallel", "hiding", "renaming"])


def exposed_parts(process: Term) -> tuple[Term, ...]:
    if process.form in THROUGH:
        return process.parts
    return process.parts[:1] if process.form == "sequence" else ()


def exposed_names(process: Term) -> set[int]:
    found, todo, seen = set(), [process], set()
    while todo:
        process = todo.pop()
        if process in seen:
            continue
        seen.add(process)
        if process.form == "name":
            found.add(process.number)
        todo.extend(exposed_parts(process))
    return found


def guarded_names(spec: Spec) -> set[int]:
    """The names of which unfolding comes to an end."""
    exposed = [exposed_names(body) for body in spec.bodies]
    guarded: set[int] = set()
    while True:
        more = {number for number, names in enumerate(exposed) if names <= guarded}
        if more == guarded:
            return guarded
        guarded = more


class Keeper:
    """Finds what processes are kept as."""

    def __init__(self, spec: Spec) -> None:
        self.spec = spec
        self.guarded = guarded_names(spec)
        self.known: dict[Term, Term] = {}

    def kept(self, process: Term) -> Term:
        if process not in self.known:
            self.known[process] = self.made(process)
        return self.known[process]

    def made(self, process: Term) -> Term:
        if process.form == "name":
            return self.kept(self.spec.bodies[process.number]) if process.number in self.guarded else process
        exposed = exposed_parts(process)
        if not exposed:
            return process
        parts = tuple(self.kept(part) for part in exposed) + process.parts[len(exposed):]
        return term(process.form, parts, events=process.events, pairs=process.pairs)
