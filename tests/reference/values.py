"""Numbers, constants, truths and sets: what phrases mean that aren't processes."""

from __future__ import annotations

from collections.abc import Callable
from dataclasses import dataclass
from operator import eq, ge, gt, le, lt, ne

from .alphabet import Alphabet, Value, set_of
from .faults import EXPECTED, LARGE, RANGE, UNKNOWN, ScriptFault
from .names import Names
from .tokens import LARGEST_NUMBER
from .trees import Tree

MOST_VALUES = 65_536

Scope = dict[str, Value]
"""The values of the inputs, parameters and generators that are known at a place."""


@dataclass(frozen=True)
class ValueSet:
    members: frozenset[Value]


@dataclass(frozen=True)
class EventSet:
    mask: int


class EmptySet:
    """`{}`, which is a set of values and a set of events."""


Meaning = int | str | bool | ValueSet | EventSet | EmptySet

NUMBER = frozenset(["number"])
VALUE = frozenset(["number", "constant"])
TRUTH = frozenset(["truth"])
COMPARED = VALUE | TRUTH
VALUE_SET = frozenset(["values"])
EVENT_SET = frozenset(["events"])
ANY_SET = VALUE_SET | EVENT_SET

ARITHMETIC = frozenset(["Number", "NegativeNumber", "Negation", "Times", "Remainder", "Plus", "Minus"])
COMPARISONS: dict[str, Callable[[object, object], bool]] = {"Equal": eq, "NotEqual": ne}
ORDERS: dict[str, Callable[[int, int], bool]] = {"Less": lt, "LessOrEqual": le, "Greater": gt, "GreaterOrEqual": ge}
TRUTHS = frozenset(["True", "False", "Not", "And", "Or"]) | frozenset(COMPARISONS) | frozenset(ORDERS)
SETS = frozenset(["EmptySet", "Set", "Range", "NoProductions", "Productions", "Events", "Union", "Intersection", "Difference"])


def kinds_of(meaning: Meaning) -> frozenset[str]:
    """The kinds of a meaning: one, save for the empty set."""
    if isinstance(meaning, bool):
        return TRUTH
    if isinstance(meaning, int):
        return NUMBER
    if isinstance(meaning, str):
        return frozenset(["constant"])
    if isinstance(meaning, ValueSet):
        return VALUE_SET
    return EVENT_SET if isinstance(meaning, EventSet) else ANY_SET


def kinds_of_form(form: str) -> frozenset[str]:
    """The kinds that a phrase of this form may have."""
    if form in ARITHMETIC:
        return NUMBER
    if form in TRUTHS:
        return TRUTH
    return ANY_SET if form in SETS else frozenset()


def within_range(number: int, line: int) -> int:
    if abs(number) > LARGEST_NUMBER:
        raise ScriptFault(line, RANGE)
    return number


class Evaluator:
    """Finds what phrases mean. While the channels are being declared there is no alphabet, and so no set of events."""

    def __init__(self, names: Names, alphabet: Alphabet | None) -> None:
        self.names = names
        self.alphabet = alphabet
        self.known: dict[str, Meaning | None] = {}
        self.looked_into: list[str] = []

    # ---- what is wanted

    def wanted(self, tree: Tree, scope: Scope, kinds: frozenset[str]) -> Meaning:
        """What a phrase means, which has to be of one of these kinds."""
        chosen = self.chosen(tree, scope)
        if not chosen.form == "Event" and not chosen.form == "Call" and not kinds_of_form(chosen.form) & kinds:
            raise ScriptFault(tree.line, EXPECTED)
        meaning = self.meaning(chosen, scope)
        if meaning is None or not kinds_of(meaning) & kinds:
            raise ScriptFault(tree.line, EXPECTED)
        return meaning

    def number(self, tree: Tree, scope: Scope) -> int:
        meaning = self.wanted(tree, scope, NUMBER)
        assert isinstance(meaning, int)
        return meaning

    def value(self, tree: Tree, scope: Scope) -> Value:
        meaning = self.wanted(tree, scope, VALUE)
        assert isinstance(meaning, (int, str))
        return meaning

    def truth(self, tree: Tree, scope: Scope) -> bool:
        meaning = self.wanted(tree, scope, TRUTH)
        assert isinstance(meaning, bool)
        return meaning

    def values(self, tree: Tree, scope: Scope) -> frozenset[Value]:
        meaning = self.wanted(tree, scope, VALUE_SET)
        return meaning.members if isinstance(meaning, ValueSet) else frozenset()

    def events(self, tree: Tree, scope: Scope) -> int:
        meaning = self.wanted(tree, scope, EVENT_SET)
        return meaning.mask if isinstance(meaning, EventSet) else 0

    def chosen(self, tree: Tree, scope: Scope) -> Tree:
        """A phrase without the brackets and the conditions around it: what is taken of them."""
        while tree.form in ("Brackets", "If"):
            if tree.form == "Brackets":
                tree = tree.parts[0]
            else:
                tree = tree.parts[1 if self.truth(tree.parts[0], scope) else 2]
        return tree

    # ---- what a phrase means

    def meaning(self, tree: Tree, scope: Scope) -> Meaning | None:
        """What a phrase without brackets or condition around it means; None for a process, an event or a channel."""
        form = tree.form
        if form == "Number":
            return tree.value
        if form == "NegativeNumber":
            return -tree.parts[0].value
        if form in ARITHMETIC:
            return self.arithmetic(tree, scope)
        if form in TRUTHS:
            return self.truth_of(tree, scope)
        if form in SETS:
            return self.set_meaning(tree, scope)
        if form == "Event" and tree.is_bare_name():
            return self.of_name(tree.name, tree.line, scope)
        if form in ("Event", "Call"):
            self.check_first_name(tree, scope)
        return None

    def check_first_name(self, tree: Tree, scope: Scope) -> None:
        """The first name of an event with fields has to be a channel's, and that of a call a definition's with as many
        parameters."""
        if tree.name not in scope:
            self.names.need(tree.name, tree.line)
            family = self.names.family(tree.name)
            if tree.form == "Event" and tree.name in self.names.channels:
                return
            if tree.form == "Call" and family is not None and len(family.parameters or ()) == len(tree.parts) - 1:
                return
        raise ScriptFault(tree.line, EXPECTED)

    def arithmetic(self, tree: Tree, scope: Scope) -> int:
        left = self.number(tree.parts[0], scope)
        if tree.form == "Negation":
            return -left
        right = self.number(tree.parts[1], scope)
        if tree.form == "Times":
            return within_range(left * right, tree.line)
        if tree.form == "Plus":
            return within_range(left + right, tree.line)
        if tree.form == "Minus":
            return within_range(left - right, tree.line)
        if left < 0 or right <= 0:
            raise ScriptFault(tree.line, RANGE)
        return left % right

    def truth_of(self, tree: Tree, scope: Scope) -> bool:
        form = tree.form
        if form in ("True", "False"):
            return form == "True"
        if form == "Not":
            return not self.truth(tree.parts[0], scope)
        if form in ORDERS:
            return ORDERS[form](self.number(tree.parts[0], scope), self.number(tree.parts[1], scope))
        if form in COMPARISONS:
            left = self.wanted(tree.parts[0], scope, COMPARED)
            right = self.wanted(tree.parts[1], scope, COMPARED)
            if kinds_of(left) != kinds_of(right):
                raise ScriptFault(tree.parts[1].line, EXPECTED)
            return COMPARISONS[form](left, right)
        left_truth = self.truth(tree.parts[0], scope)
        return self.truth(tree.parts[1], scope) if left_truth == (form == "And") else left_truth

    # ---- sets

    def set_meaning(self, tree: Tree, scope: Scope) -> Meaning:
        form = tree.form
        if form == "EmptySet":
            return EmptySet()
        if form == "Range":
            low, high = self.number(tree.parts[0], scope), self.number(tree.parts[1], scope)
            if high - low >= MOST_VALUES:
                raise ScriptFault(tree.line, LARGE)
            return ValueSet(frozenset(range(low, high + 1)))
        if form == "Set":
            if self.is_event(tree.parts[0], scope):
                return EventSet(set_of(self.event(part, scope) for part in tree.parts))
            return ValueSet(frozenset([self.value(part, scope) for part in tree.parts]))
        if form in ("Union", "Intersection", "Difference"):
            return self.of_two_sets(tree, scope)
        return self.productions(tree, scope)

    def of_two_sets(self, tree: Tree, scope: Scope) -> Meaning:
        left = self.wanted(tree.parts[0], scope, ANY_SET)
        right = self.wanted(tree.parts[1], scope, kinds_of(left))
        if isinstance(left, EmptySet) and isinstance(right, EmptySet):
            return left
        if isinstance(left, EventSet) or isinstance(right, EventSet):
            one = left.mask if isinstance(left, EventSet) else 0
            other = right.mask if isinstance(right, EventSet) else 0
            return EventSet({"Union": one | other, "Intersection": one & other, "Difference": one & ~other}[tree.form])
        first = left.members if isinstance(left, ValueSet) else frozenset()
        second = right.members if isinstance(right, ValueSet) else frozenset()
        members = {"Union": first | second, "Intersection": first & second, "Difference": first - second}[tree.form]
        if len(members) > MOST_VALUES:
            raise ScriptFault(tree.line, LARGE)
        return ValueSet(members)

    # ---- events; see `events.py`

    def is_event(self, tree: Tree, scope: Scope) -> bool:
        """Whether the first member of a set shows that it is one of events: there is none before there is an alphabet."""
        return False

    def event(self, tree: Tree, scope: Scope) -> int:
        raise NotImplementedError

    def productions(self, tree: Tree, scope: Scope) -> Meaning:
        if tree.form == "NoProductions":
            return EventSet(0)
        raise ScriptFault(tree.parts[0].line if tree.parts else tree.line, EXPECTED)

    # ---- names

    def of_name(self, name: str, line: int, scope: Scope) -> Meaning | None:
        """What a name means at a place; None for one that is a process or a channel."""
        if name in scope:
            return scope[name]
        self.names.need(name, line)
        if name in self.names.channels:
            return None
        if name in self.names.constants:
            return name
        if name in self.names.datatypes:
            return ValueSet(self.names.datatypes[name])
        if self.names.family(name):
            raise ScriptFault(line, EXPECTED)
        return self.of_definition(name, line)

    def of_definition(self, name: str, line: int) -> Meaning | None:
        """What a defined name means. One that is defined as an event is a fault; so is one that depends on itself, save
        where it does so by names and conditions alone: then it is a process."""
        if name in self.known:
            return self.known[name]
        if name in self.looked_into:
            raise ScriptFault(line, UNKNOWN)
        before = len(self.looked_into)
        try:
            meaning = self.along(name, line, before)
        finally:
            del self.looked_into[before:]
        self.known[name] = meaning
        return meaning

    def along(self, name: str, use: int, before: int) -> Meaning | None:
        """Follows definitions that are names; those before the place `before` are being looked into for another use."""
        line = use
        while True:
            if name in self.looked_into:
                if name in self.looked_into[before:]:
                    return None
                raise ScriptFault(line, UNKNOWN)
            self.looked_into.append(name)
            chosen = self.chosen(self.names.definitions[name].body, {})
            if chosen.form == "Event" and chosen.is_bare_name() and self.names.plain(chosen.name):
                name, line = chosen.name, chosen.line
                continue
            meaning = self.meaning(chosen, {})
            if meaning is None and chosen.form == "Event":
                raise ScriptFault(use, EXPECTED)
            return meaning
