"""From the tree of a script to its specification."""

from __future__ import annotations

from collections.abc import Callable

from . import terms
from .alphabet import Alphabet, Value, Values, in_order
from .events import EventEvaluator
from .faults import DEPTH, EVENTS, EXPECTED, LARGE, PROCESS, RANGE, UNSUPPORTED, ScriptFault
from .names import Definition, Names, names_of
from .syntax import parse, parse_phrase
from .terms import SKIP, STOP, Relation, Spec, Term
from .trees import Tree, mentions
from .values import Evaluator, Scope, kinds_of_form

MOST_NODES = 65_536
LARGEST_DEPTH = 200

Key = tuple[str, tuple[Value, ...]]
"""A definition: its name, and the values of its parameters."""

Join = Callable[[Term, Term], Term]


def interleaving(left: Term, right: Term) -> Term:
    return terms.parallel(0, left, right)


BETWEEN: dict[str, Join] = {"Sequence": terms.sequence, "Interrupt": terms.interrupt, "ExternalChoice": terms.external,
                            "InternalChoice": terms.internal, "Interleaving": interleaving}
REPLICATED: dict[str, Join] = {"ReplicatedExternal": terms.external, "ReplicatedInternal": terms.internal,
                               "ReplicatedInterleaving": interleaving}


def alphabet_of(script: Tree, names: Names) -> Alphabet:
    """The events of all channels."""
    alphabet, evaluator = Alphabet(), Evaluator(names, None)
    for declaration in script.parts:
        if declaration.parts[0].form != "Names":
            continue
        sets = declaration.parts[1].parts if len(declaration.parts) > 1 else ()
        fields = [in_order(evaluator.values(tree, {})) for tree in sets]
        for name in declaration.parts[0].parts:
            if not alphabet.has_room(fields):
                raise ScriptFault(name.line, EVENTS)
            alphabet.declare(name.text, fields)
    return alphabet


class Elaborator:
    """Makes the bodies of the definitions that are reached from a root."""

    def __init__(self, names: Names, alphabet: Alphabet) -> None:
        self.names = names
        self.alphabet = alphabet
        self.evaluator = EventEvaluator(names, alphabet)
        self.numbers: dict[Key, int] = {}
        self.order: list[Key] = []
        self.nodes = 0
        self.present = 1
        """The line of the definition whose body is being made."""

    def bodies(self, root: Tree) -> list[Term]:
        """The bodies of what is reached from a process by its name, or from another phrase, which is the first body."""
        if root.is_bare_name():
            self.check_root(root.name)
            self.number_of((root.name, ()))
        else:
            self.names.definitions[""] = Definition("", root.line, root)
            self.number_of(("", ()))
        made: list[Term] = []
        while len(made) < len(self.order):
            name, values = self.order[len(made)]
            definition = self.names.definitions[name]
            self.present = definition.line
            body = self.process(definition.body, dict(zip(definition.parameters or (), values)))
            if body.depth > LARGEST_DEPTH:
                raise ScriptFault(definition.line, DEPTH)
            made.append(body)
        return made

    def check_root(self, root: str) -> None:
        """The root has to be a process; conditions in its body are decided, and names followed."""
        seen: set[str] = set()
        definition = self.names.plain(root)
        while definition is not None and definition.name not in seen:
            seen.add(definition.name)
            chosen = self.evaluator.chosen(definition.body, {})
            if chosen.form == "Call":
                return
            if not chosen.is_bare_name():
                if kinds_of_form(chosen.form) or chosen.form == "Event":
                    break
                return
            self.names.need(chosen.name, chosen.line)
            if self.names.family(chosen.name):
                raise ScriptFault(chosen.line, EXPECTED)
            definition = self.names.plain(chosen.name)
        else:
            if definition is not None:
                return
        raise ScriptFault(1, PROCESS)

    # ---- nodes

    def node(self, made: Term) -> Term:
        """Counts a node that was made."""
        self.nodes += 1
        if self.nodes > MOST_NODES:
            raise ScriptFault(self.present, LARGE)
        return made

    def joined(self, parts: list[Term], form: str, none: Term) -> Term:
        """A list of processes joined in halves, the larger first."""
        if not parts:
            return self.node(none)
        if len(parts) == 1:
            return parts[0]
        half = (len(parts) + 1) // 2
        return self.node(REPLICATED[form](self.joined(parts[:half], form, none), self.joined(parts[half:], form, none)))

    def reached(self, key: Key) -> Term:
        return self.node(terms.name(self.number_of(key)))

    def number_of(self, key: Key) -> int:
        if key not in self.numbers:
            self.numbers[key] = len(self.order)
            self.order.append(key)
        return self.numbers[key]

    # ---- processes

    def process(self, tree: Tree, scope: Scope) -> Term:
        form = tree.form
        if form == "Stop":
            return self.node(STOP)
        if form == "Skip":
            return self.node(SKIP)
        if form == "Brackets":
            return self.process(tree.parts[0], scope)
        if form == "If":
            return self.process(tree.parts[1 if self.evaluator.truth(tree.parts[0], scope) else 2], scope)
        if form == "Guard":
            return self.process(tree.parts[1], scope) if self.evaluator.truth(tree.parts[0], scope) else self.node(STOP)
        if form in BETWEEN:
            left = self.process(tree.parts[0], scope)
            return self.node(BETWEEN[form](left, self.process(tree.parts[1], scope)))
        if form in REPLICATED:
            return self.replicated(tree, scope)
        if form == "Event" and tree.is_bare_name():
            return self.named(tree, scope)
        return self.other(tree, scope)

    def other(self, tree: Tree, scope: Scope) -> Term:
        form = tree.form
        if form == "Prefix":
            then = tree.parts[1]
            branches = [self.node(terms.prefix(event, self.process(then, inner))) for event, inner in self.evaluator.fitting(tree.parts[0], scope)]
            return self.joined(branches, "ReplicatedExternal", STOP)
        if form == "Sharing":
            left = self.process(tree.parts[0], scope)
            events = self.evaluator.events(tree.parts[1], scope)
            return self.node(terms.parallel(events, left, self.process(tree.parts[2], scope)))
        if form == "Alphabetised":
            return self.alphabetised(tree, scope)
        if form == "Hiding":
            inner = self.process(tree.parts[0], scope)
            return self.node(terms.hiding(self.evaluator.events(tree.parts[1], scope), inner))
        if form == "Renaming":
            inner = self.process(tree.parts[0], scope)
            pairs: Relation = self.evaluator.relation(tree.parts[1:], scope)
            return self.node(terms.renaming(pairs, inner)) if pairs else inner
        if form == "Call":
            return self.called(tree, scope)
        if form == "Event":
            self.evaluator.check_first_name(tree, scope)
        raise ScriptFault(tree.line, EXPECTED)

    def alphabetised(self, tree: Tree, scope: Scope) -> Term:
        left = self.process(tree.parts[0], scope)
        own = self.evaluator.events(tree.parts[1], scope)
        others = self.evaluator.events(tree.parts[2], scope)
        right = self.process(tree.parts[3], scope)
        sigma = self.alphabet.sigma
        first = self.node(terms.parallel(sigma & ~own, left, self.node(SKIP)))
        second = self.node(terms.parallel(sigma & ~others, right, self.node(SKIP)))
        return self.node(terms.parallel(own & others, first, second))

    def named(self, tree: Tree, scope: Scope) -> Term:
        """A bare name where a process is wanted. What a name leads to by names alone is looked at, but no condition."""
        name = tree.name
        if name in scope:
            raise ScriptFault(tree.line, EXPECTED)
        self.names.need(name, tree.line)
        definition = self.names.plain(name)
        if definition is None or not self.may_be_process(definition, tree.line):
            raise ScriptFault(tree.line, EXPECTED)
        return self.reached((name, ()))

    def may_be_process(self, first: Definition, use: int) -> bool:
        """Whether a defined name may be used as a process. One whose definition ends in a condition may not where the
        condition chooses a value or a truth; what else is wrong with it is found when its body is made."""
        definition, seen = first, set()
        while definition.name not in seen:
            seen.add(definition.name)
            body = definition.body.without_brackets()
            if body.form == "If":
                return not self.is_known(first)
            if not body.is_bare_name():
                if kinds_of_form(body.form) or body.form == "Event":
                    self.evaluator.of_definition(first.name, use)
                    return False
                return True
            self.names.need(body.name, body.line)
            if self.names.family(body.name):
                raise ScriptFault(body.line, EXPECTED)
            following = self.names.plain(body.name)
            if following is None:
                return False
            definition = following
        return True

    def is_known(self, definition: Definition) -> bool:
        try:
            meaning = self.evaluator.of_definition(definition.name, definition.line)
        except ScriptFault:
            return False
        return isinstance(meaning, (int, str))

    def called(self, tree: Tree, scope: Scope) -> Term:
        name, arguments = tree.name, tree.parts[1:]
        self.evaluator.check_first_name(tree, scope)
        return self.reached((name, tuple(self.evaluator.value(argument, scope) for argument in arguments)))

    # ---- replicated forms

    def replicated(self, tree: Tree, scope: Scope) -> Term:
        generators, body = tree.parts[0].parts, tree.parts[1]
        parts: list[Term] = []
        if not self.has_no_values(generators, scope):
            self.gone_through(generators, body, scope, parts)
        if not parts and tree.form == "ReplicatedInternal":
            raise ScriptFault(tree.line, RANGE)
        return self.joined(parts, tree.form, SKIP if tree.form == "ReplicatedInterleaving" else STOP)

    def generated(self, generator: Tree, scope: Scope) -> Values:
        name = generator.parts[0]
        if name.text in self.names.constants:
            raise ScriptFault(name.line, UNSUPPORTED)
        return in_order(self.evaluator.values(generator.parts[1], scope))

    def has_no_values(self, generators: tuple[Tree, ...], scope: Scope) -> bool:
        """Whether one of the sets is empty, as far as they use no name of a generator before them and have no fault."""
        before: set[str] = set()
        for generator in generators:
            if mentions(generator.parts[1], frozenset(before)):
                return False
            try:
                if not self.generated(generator, scope):
                    return True
            except ScriptFault:
                return False
            before.add(generator.name)
        return False

    def gone_through(self, generators: tuple[Tree, ...], body: Tree, scope: Scope, parts: list[Term]) -> None:
        if not generators:
            parts.append(self.process(body, scope))
            return
        for value in self.generated(generators[0], scope):
            self.gone_through(generators[1:], body, {**scope, generators[0].name: value}, parts)


def read(text: bytes, root: bytes) -> Spec:
    """The specification that a script denotes for a root, a phrase for a process; the first fault is raised."""
    script = parse(text)
    names = names_of(script)
    alphabet = alphabet_of(script, names)
    return Spec(alphabet, Elaborator(names, alphabet).bodies(parse_phrase(root)))
