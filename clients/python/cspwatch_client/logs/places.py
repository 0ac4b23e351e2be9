"""Numbers for names that don't fit an alphabet: clients, packets, connections."""
from __future__ import annotations

import heapq
from typing import Any, Dict, List, Mapping, Optional, Sequence, Tuple

from .maps import PlaceKind

Groups = Mapping[str, Optional[str]]
"""The texts of a match's groups."""


class NoPlace(Exception):
    """All numbers of a kind are taken."""

    def __init__(self, kind: PlaceKind, name: str) -> None:
        super().__init__("no place left for %s %r (%d)" % (kind.name, name, kind.size))


class Numbers:
    """The numbers of one kind and one owner."""

    def __init__(self) -> None:
        self.of: Dict[str, int] = {}
        self.returned: List[int] = []

    def number(self, kind: PlaceKind, name: str) -> int:
        """The number of the name: the lowest free one where it has none yet."""
        found = self.of.get(name)
        if found is None:
            if len(self.of) == kind.size:
                raise NoPlace(kind, name)
            # All numbers below the count of those in use and returned were given before.
            found = heapq.heappop(self.returned) if self.returned else len(self.of)
            self.of[name] = found
        return found

    def give_back(self, name: str) -> None:
        number = self.of.pop(name, None)
        if number is not None:
            heapq.heappush(self.returned, number)


class Places:
    """The numbers of all kinds, in one session."""

    def __init__(self, kinds: Mapping[str, PlaceKind]) -> None:
        self.kinds = kinds
        self.numbers: Dict[str, Dict[Tuple[str, ...], Numbers]] = {name: {} for name in kinds}
        self.lent: List[PlaceKind] = []
        """The kinds whose names got numbers for one report alone."""
        self.taken = [kind for kind in kinds.values() if kind.take]
        """The kinds of which it is known by which events their numbers are taken."""
        self.notes: List[str] = []
        """What is to be said of numbers that were taken, until somebody has said it."""

    def number(self, kind: PlaceKind, groups: Groups, lend: bool) -> int:
        """The number of the name that the groups have for the kind. `NoPlace` where there is none left.

        lend -- whether a name that has none yet gets one only until `take_back`.
        """
        owner, name = owner_of(kind, groups), str(groups[kind.name])
        owners = self.numbers[kind.name]
        if owner not in owners:
            owners[owner] = Numbers()
        if lend and name not in owners[owner].of:
            self.lent.append(kind)
        return owners[owner].number(kind, name)

    def take_back(self, groups: Groups) -> None:
        """Takes back what was lent to the names that these groups have."""
        for kind in self.lent:
            self.give_back(kind, groups, True)
        self.lent.clear()

    def held(self, groups: Groups) -> List[PlaceKind]:
        """The kinds whose names in these groups have numbers, of those of which it is known by which events they are taken."""
        return [kind for kind in self.taken if groups.get(kind.name) is not None and self.number_of(kind, groups) is not None]

    def number_of(self, kind: PlaceKind, groups: Groups) -> Optional[int]:
        """The number that the name has; None where it has none."""
        numbers = self.numbers[kind.name].get(owner_of(kind, groups))
        return numbers.of.get(str(groups[kind.name])) if numbers else None

    def taken_anew(self, held: Sequence[PlaceKind], event: str, groups: Groups) -> bool:
        """Gives back the numbers of these kinds that the event takes anew, and notes it. Answers whether there were any."""
        found = [kind for kind in held if any(self.text(take.literals, take.fields, groups) == event for take in kind.take)]
        for kind in found:
            self.notes.append(
                "%s %r takes a place, and no event gave back number %s of the one before it" % (kind.name, groups[kind.name], self.number_of(kind, groups))
            )
            self.give_back(kind, groups, True)
        return bool(found)

    def free(self, names: Sequence[str], groups: Groups) -> None:
        """Gives back the numbers of the names that the groups have for these kinds."""
        for name in names:
            if groups.get(name) is not None:
                self.give_back(self.kinds[name], groups, True)

    def after(self, event: str, groups: Groups) -> None:
        """Gives back what is free after the event, which the rule with these groups reported."""
        for kind in self.kinds.values():
            for template in kind.free:
                if self.text(template.literals, template.fields, groups) == event:
                    self.give_back(kind, groups, kind.name in template.fields)

    def text(self, literals: Tuple[str, ...], fields: Tuple[str, ...], groups: Groups) -> Optional[str]:
        """A template's text with the numbers that are given by now; None where one isn't known."""
        text = literals[0]
        for field, literal in zip(fields, literals[1:]):
            value = groups.get(field)
            if field in self.kinds and value is not None:
                numbers = self.numbers[field].get(owner_of(self.kinds[field], groups))
                number = numbers.of.get(value) if numbers else None
                value = None if number is None else str(number)
            if value is None:
                return None
            text += value + literal
        return text

    def kept(self) -> Any:
        """The numbers as they are kept in a file."""
        return {
            kind: [[list(owner), numbers.of, numbers.returned] for owner, numbers in owners.items()]
            for kind, owners in self.numbers.items()
        }

    def restore(self, kept: Any) -> None:
        """Takes numbers that were kept."""
        for kind, owners in kept.items():
            for owner, of, returned in owners:
                self.numbers[kind][tuple(owner)] = numbers = Numbers()
                numbers.of, numbers.returned = dict(of), list(returned)

    def give_back(self, kind: PlaceKind, groups: Groups, one: bool) -> None:
        """Gives back one name's number, or those of all names of its owner; and what these own."""
        owner = owner_of(kind, groups)
        numbers = self.numbers[kind.name].get(owner)
        if numbers is None:
            return
        name = groups.get(kind.name)
        if one and name is not None:
            numbers.give_back(name)
            self.drop_owned(kind.name, name)
        else:
            for each in list(numbers.of):
                numbers.give_back(each)
                self.drop_owned(kind.name, each)
        if not numbers.of:
            del self.numbers[kind.name][owner]

    def drop_owned(self, field: str, name: str) -> None:
        """Gives back all that is of an owner that has given its own number back."""
        for kind in self.kinds.values():
            if kind.of is not None and field in kind.of.fields:
                at = kind.of.fields.index(field)
                owners = self.numbers[kind.name]
                for owner in [owner for owner in owners if owner[at] == name]:
                    del owners[owner]


def owner_of(kind: PlaceKind, groups: Groups) -> Tuple[str, ...]:
    """The names of what has these places for itself."""
    return tuple(str(groups.get(field)) for field in kind.of.fields) if kind.of is not None else ()
