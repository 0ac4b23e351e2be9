"""Events, sets of events, renamings, and the inputs of a prefix."""

from __future__ import annotations

from collections.abc import Iterator

from .alphabet import Alphabet, Channel, Value, Values, in_order, set_of
from .faults import EXPECTED, FIELDS, RANGE, UNSUPPORTED, ScriptFault
from .names import Names
from .terms import Relation
from .trees import Tree, mentions
from .values import Evaluator, EventSet, Meaning, Scope

INPUTS = ("Input", "RestrictedInput")


class EventEvaluator(Evaluator):
    """Finds what phrases mean once there is an alphabet."""

    def __init__(self, names: Names, alphabet: Alphabet) -> None:
        super().__init__(names, alphabet)
        self.events_of = alphabet

    # ---- one event

    def is_event(self, tree: Tree, scope: Scope) -> bool:
        chosen = self.chosen(tree, scope)
        if chosen.form != "Event":
            return False
        return not chosen.is_bare_name() or (chosen.name not in scope and chosen.name in self.names.channels)

    def channel(self, tree: Tree, scope: Scope, outer: Tree) -> Channel:
        """The channel that an event begins with."""
        if tree.name in scope:
            raise ScriptFault(outer.line, EXPECTED)
        self.names.need(tree.name, tree.line)
        if tree.name not in self.names.channels:
            raise ScriptFault(outer.line, EXPECTED)
        return self.events_of.channels[tree.name]

    def event(self, tree: Tree, scope: Scope) -> int:
        """The one event that a phrase in a set is."""
        chosen = self.chosen(tree, scope)
        if chosen.form == "Call" or chosen.is_bare_name():
            # Where it is no channel, a fault of what it means comes first.
            self.meaning(chosen, scope)
        if chosen.form != "Event":
            raise ScriptFault(tree.line, EXPECTED)
        channel, values = self.given(chosen, scope, tree if chosen.is_bare_name() else chosen)
        if len(values) < len(channel.fields):
            raise ScriptFault(chosen.line, FIELDS)
        found = self.events_of.event(channel.name, values)
        assert found is not None
        return found

    def given(self, tree: Tree, scope: Scope, outer: Tree, whole: bool = True) -> tuple[Channel, Values]:
        """The channel of an event, and the values of its fields; where it isn't `whole`, of its first fields."""
        channel = self.channel(tree, scope, outer)
        fields = tree.parts[1:]
        if any(part.form in INPUTS for part in fields):
            raise ScriptFault(outer.line, EXPECTED)
        if len(fields) > len(channel.fields) or (whole and len(fields) < len(channel.fields)):
            raise ScriptFault(tree.line, FIELDS)
        return channel, tuple(self.field(part.parts[0], scope, channel, place) for place, part in enumerate(fields))

    def field(self, tree: Tree, scope: Scope, channel: Channel, place: int) -> Value:
        """The value that is given for a field, which has to be in the field's set."""
        value = self.value(tree, scope)
        if value not in channel.fields[place]:
            raise ScriptFault(tree.line, RANGE)
        return value

    # ---- several events

    def productions(self, tree: Tree, scope: Scope) -> Meaning:
        if tree.form == "Events":
            return EventSet(self.events_of.sigma)
        mask = 0
        for part in tree.parts:
            channel, values = self.given(part, scope, part, whole=False)
            mask |= set_of(self.events_of.beginning(channel.name, values))
        return EventSet(mask)

    def relation(self, pairs: tuple[Tree, ...], scope: Scope) -> Relation:
        """The pairs of events of a renaming, in order."""
        found: set[tuple[int, int]] = set()
        for pair in pairs:
            left, right = pair.parts
            channel, values = self.given(left, scope, left, whole=False)
            other, others = self.given(right, scope, right, whole=False)
            for event in self.events_of.beginning(channel.name, values):
                rest = self.events_of.parts[event][1][len(values):]
                image = self.events_of.event(other.name, others + rest)
                if image is None:
                    raise ScriptFault(left.line, RANGE)
                found.add((event, image))
        return tuple(sorted(found))

    # ---- the event before an arrow

    def fitting(self, tree: Tree, scope: Scope) -> Iterator[tuple[int, Scope]]:
        """The events that fit before an arrow, in alphabet order, each with the scope after it."""
        channel = self.channel(tree, scope, tree)
        fields = tree.parts[1:]
        if len(fields) != len(channel.fields):
            raise ScriptFault(tree.line, FIELDS)
        if not channel.size():
            self.look_at(fields, channel, scope)
            return
        for values, inner in self.fitting_fields(fields, channel, (), scope):
            event = self.events_of.event(channel.name, values)
            assert event is not None
            yield event, inner

    def fitting_fields(self, fields: tuple[Tree, ...], channel: Channel, values: Values, scope: Scope) -> Iterator[tuple[Values, Scope]]:
        place = len(values)
        if place == len(fields):
            yield values, scope
            return
        field = fields[place]
        if field.form not in INPUTS:
            value = self.field(field.parts[0], scope, channel, place)
            yield from self.fitting_fields(fields, channel, values + (value,), scope)
            return
        for value in self.inputs(field, scope, channel, place):
            yield from self.fitting_fields(fields, channel, values + (value,), {**scope, field.name: value})

    def inputs(self, field: Tree, scope: Scope, channel: Channel, place: int) -> Values:
        """The values over which an input goes."""
        if field.name in self.names.constants:
            raise ScriptFault(field.line, UNSUPPORTED)
        values = channel.fields[place]
        if field.form == "Input":
            return values
        allowed = self.values(field.parts[1], scope)
        return in_order(frozenset(values) & allowed)

    def look_at(self, fields: tuple[Tree, ...], channel: Channel, scope: Scope) -> None:
        """Looks for faults in the fields of a channel without events: in each for all values of the inputs before it. An
        input that no later field mentions takes one of its values."""
        scopes = [scope]
        for place, field in enumerate(fields):
            after: list[Scope] = []
            for inner in scopes:
                if field.form not in INPUTS:
                    self.field(field.parts[0], inner, channel, place)
                    after.append(inner)
                    continue
                values = self.inputs(field, inner, channel, place)
                if not any(mentions(later, frozenset([field.name])) for later in fields[place + 1:]):
                    values = values[:1]
                after += [{**inner, field.name: value} for value in values]
            scopes = after
