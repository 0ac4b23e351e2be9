"""From the text of a script to its tree.

The grammar is read from the left, one token at a time, so a token that doesn't fit is seen when it is met. With each
token the height of the whole phrase is worked out, from what is read so far of each phrase that isn't complete
(`Reader.open_phrases`): the limit is met at the first token with which it is too high. An operator after a phrase makes
it higher at once; a phrase that begins with a word or a sign is made higher by its first part, where that begins.
"""

from __future__ import annotations

from collections.abc import Callable

from .faults import DEPTH, EXPECTED, UNSUPPORTED, ScriptFault
from .tokens import Token, scan
from .trees import OPERATORS, Tree

LARGEST_HEIGHT = 250
MOST_BRACKETS = 250

# Levels of operators, the tightest first.
RENAMING, NEGATION, COMPARISON, NOT, CONDITION, PREFIX, SHARING, LOOSEST = 1, 2, 5, 6, 8, 9, 14, 16

PLAIN = {"STOP": "Stop", "SKIP": "Skip", "Events": "Events", "true": "True", "false": "False"}
OF_TWO_SETS = {"union": "Union", "inter": "Intersection", "diff": "Difference"}
REPLICATED = {"[]": "ReplicatedExternal", "|~|": "ReplicatedInternal", "|||": "ReplicatedInterleaving"}


class Reader:
    """Reads the tokens of a script. `open_phrases` has, from the outside, a pair for each phrase that isn't complete:
    the height of its highest part so far, and how much higher than its parts it will be."""

    def __init__(self, tokens: list[Token]) -> None:
        self.tokens = tokens
        self.at = 0
        self.open_brackets = 0
        self.open_phrases: list[list[int]] = []

    # ---- tokens

    @property
    def here(self) -> Token:
        return self.tokens[self.at]

    def fault(self) -> ScriptFault:
        return ScriptFault(self.here.line, EXPECTED)

    def take(self, least: int = 0) -> Token:
        """Goes past a token that fits; `least` is the least height that the innermost part has with it."""
        token = self.here
        for part, more in reversed(self.open_phrases):
            least = max(part, least) + more
        if least > LARGEST_HEIGHT:
            raise ScriptFault(token.line, DEPTH)
        self.at += 1
        return token

    def expect(self, kind: str, least: int = 0) -> Token:
        if self.here.kind != kind:
            raise self.fault()
        return self.take(least)

    def take_bracket(self, least: int = 0) -> None:
        if self.open_brackets == MOST_BRACKETS:
            raise ScriptFault(self.here.line, DEPTH)
        self.take(least)
        self.open_brackets += 1

    def close(self, kind: str) -> None:
        self.expect(kind)
        self.open_brackets -= 1

    def begin(self, more: int, part: int = 0) -> None:
        self.open_phrases.append([part, more])

    def add(self, tree: Tree) -> Tree:
        """A part of the innermost phrase that isn't complete."""
        self.open_phrases[-1][0] = max(self.open_phrases[-1][0], tree.height)
        return tree

    def end(self, form: str, line: int, parts: list[Tree], open_ended: bool = False) -> Tree:
        """Completes the innermost phrase."""
        part, more = self.open_phrases.pop()
        return Tree(form, line, tuple(parts), height=part + more, open_ended=open_ended)

    def listed(self, part: Callable[[], Tree], between: str = ",") -> list[Tree]:
        parts = [part()]
        while self.here.kind == between:
            self.take(1)
            parts.append(part())
        return parts

    def name(self) -> Tree:
        token = self.expect("name", 1)
        return Tree("Name", token.line, text=token.text, height=1)

    # ---- phrases

    def phrase(self, level: int = LOOSEST) -> Tree:
        """A phrase whose operators are of this level or tighter."""
        left, reached = self.first_operand(level)
        while not left.open_ended:
            sign = self.here.kind
            form, own = OPERATORS.get(sign, ("", 0))
            if form and reached <= own <= level and not reached == own == COMPARISON:
                left, reached = self.operation(left, form, own), own
            elif sign == "&" and reached <= CONDITION and level >= PREFIX:
                left, reached = self.operation(left, "Guard", PREFIX + 1), PREFIX
            elif sign in ("[|", "[") and reached <= SHARING <= level:
                left, reached = self.parallel(left, sign), SHARING
            else:
                break
        return left

    def operation(self, left: Tree, form: str, level: int) -> Tree:
        """An operator and its right side, which has only operators that are tighter than this level."""
        self.begin(1, left.height)
        self.take(1)
        right = self.add(self.phrase(level - 1))
        return self.end(form, left.line, [left, right], right.open_ended)

    def parallel(self, left: Tree, sign: str) -> Tree:
        parts = [left]
        self.begin(1, left.height)
        self.take_bracket(1)
        parts.append(self.add(self.phrase()))
        if sign == "[":
            self.expect("||", 1)
            parts.append(self.add(self.phrase()))
        self.close("|]" if sign == "[|" else "]")
        parts.append(self.add(self.phrase(SHARING - 1)))
        return self.end("Sharing" if sign == "[|" else "Alphabetised", left.line, parts, parts[-1].open_ended)

    def first_operand(self, level: int) -> tuple[Tree, int]:
        """What a phrase begins with, and the level of its loosest operator."""
        token = self.here
        if token.kind == "-" and level >= NEGATION:
            return self.before_operand("Negation", NEGATION), NEGATION
        if token.kind == "not" and level >= NOT:
            return self.before_operand("Not", NOT), NOT
        operand = self.atom()
        if operand.form == "Event" and self.here.kind == "->" and level >= PREFIX and not operand.open_ended:
            return self.operation(operand, "Prefix", PREFIX + 1), PREFIX
        while self.here.kind == "[[" and not operand.open_ended:
            operand = self.renaming(operand)
        return operand, RENAMING

    def before_operand(self, form: str, level: int) -> Tree:
        line = self.take(1).line
        self.begin(1)
        operand = self.add(self.phrase(level))
        return self.end(form, line, [operand], operand.open_ended)

    def renaming(self, operand: Tree) -> Tree:
        self.begin(1, operand.height)
        self.take_bracket(1)
        pairs = self.listed(self.pair)
        self.close("]]")
        return self.end("Renaming", operand.line, [operand] + pairs)

    def pair(self) -> Tree:
        line = self.here.line
        left = self.add(self.event())
        self.expect("<-", 1)
        right = self.add(self.event())
        return Tree("Pair", line, (left, right), height=max(left.height, right.height))

    # ---- atoms

    def atom(self, dots: bool = True, fields: bool = True) -> Tree:
        """An atom. Without `dots` no dot comes after a name, and without `fields` no field at all."""
        token = self.here
        kind = token.kind
        if kind == "number":
            self.take(1)
            return Tree("Number", token.line, value=token.value, height=1)
        if kind in PLAIN:
            self.take(1)
            return Tree(PLAIN[kind], token.line, height=1)
        if kind == "name":
            return self.call() if self.tokens[self.at + 1].kind == "(" else self.event(dots, fields)
        if kind == "(":
            self.begin(0)
            self.take_bracket(1)
            inner = self.add(self.phrase())
            self.close(")")
            return self.end("Brackets", token.line, [inner])
        if kind in OF_TWO_SETS:
            return self.of_two_sets()
        if kind == "if":
            return self.condition()
        if kind in REPLICATED:
            return self.replicated()
        if kind == "{":
            return self.set()
        if kind == "{|":
            return self.productions()
        raise self.fault()

    def call(self) -> Tree:
        line = self.here.line
        name = self.name()
        self.take_bracket(1)
        self.begin(1)
        arguments = self.listed(lambda: self.add(self.phrase()))
        self.close(")")
        return self.end("Call", line, [name] + arguments)

    def of_two_sets(self) -> Tree:
        token = self.take(1)
        if self.here.kind != "(":
            raise self.fault()
        self.take_bracket(1)
        self.begin(1)
        left = self.add(self.phrase())
        self.expect(",", 1)
        right = self.add(self.phrase())
        self.close(")")
        return self.end(OF_TWO_SETS[token.kind], token.line, [left, right])

    def condition(self) -> Tree:
        line = self.take(1).line
        self.begin(1)
        condition = self.add(self.phrase())
        self.expect("then", 1)
        taken = self.add(self.phrase())
        self.expect("else", 1)
        otherwise = self.add(self.phrase())
        return self.end("If", line, [condition, taken, otherwise], open_ended=True)

    def replicated(self) -> Tree:
        token = self.take(1)
        self.begin(1)
        line = self.here.line
        generators = Tree("Generators", line, tuple(self.listed(self.generator)))
        self.expect("@", 1)
        body = self.add(self.phrase())
        return self.end(REPLICATED[token.kind], token.line, [generators, body], open_ended=True)

    def generator(self) -> Tree:
        name = self.name()
        self.expect(":", 1)
        values = self.add(self.atom())
        return Tree("Generator", name.line, (name, values), height=values.height)

    def set(self) -> Tree:
        line = self.here.line
        self.take_bracket(1)
        if self.here.kind == "}":
            self.close("}")
            return Tree("EmptySet", line, height=1)
        self.begin(1)
        parts = [self.add(self.phrase())]
        if self.here.kind == "..":
            self.take(1)
            parts.append(self.add(self.phrase()))
            self.close("}")
            return self.end("Range", line, parts)
        while self.here.kind == ",":
            self.take(1)
            parts.append(self.add(self.phrase()))
        self.close("}")
        return self.end("Set", line, parts)

    def productions(self) -> Tree:
        line = self.here.line
        self.take_bracket(1)
        if self.here.kind == "|}":
            self.close("|}")
            return Tree("NoProductions", line, height=1)
        self.begin(1)
        events = self.listed(lambda: self.add(self.event()))
        self.close("|}")
        return self.end("Productions", line, events)

    # ---- events

    def event(self, dots: bool = True, fields: bool = True) -> Tree:
        name = self.name()
        signs = [sign for sign, allowed in ((".", dots and fields), ("!", fields), ("?", fields)) if allowed]
        if self.here.kind not in signs:
            return Tree("Event", name.line, (name,), height=1)
        self.begin(1, 1)
        parts = [name]
        while self.here.kind in signs and not parts[-1].open_ended:
            parts.append(self.add(self.field()))
        return self.end("Event", name.line, parts, parts[-1].open_ended)

    def field(self) -> Tree:
        sign = self.take(1)
        if sign.kind != "?":
            value = self.field_value()
            return Tree("Dotted" if sign.kind == "." else "Output", sign.line, (value,), height=value.height)
        name = self.name()
        if self.here.kind != ":":
            return Tree("Input", sign.line, (name,), height=1)
        self.take(1)
        values = self.atom(fields=False)
        return Tree("RestrictedInput", sign.line, (name, values), height=values.height, open_ended=values.open_ended)

    def field_value(self) -> Tree:
        token = self.here
        if token.kind == "-":
            self.take(1)
            number = self.expect("number", 1)
            return Tree("NegativeNumber", token.line, (Tree("Number", number.line, value=number.value),), height=1)
        if token.kind == "name":
            name = self.name()
            return Tree("Event", name.line, (name,), height=1)
        if token.kind in ("number", "("):
            return self.atom()
        raise self.fault()

    # ---- declarations

    def script(self) -> Tree:
        declarations = []
        while self.here.kind != "end":
            declarations.append(self.declaration())
        return Tree("Script", 1, tuple(declarations))

    def declaration(self) -> Tree:
        kind, line = self.here.kind, self.here.line
        if kind == "channel":
            self.take()
            names = Tree("Names", self.here.line, tuple(self.listed(self.name)))
            if self.here.kind != ":":
                return Tree("Channels", line, (names,))
            self.take()
            return Tree("ChannelsWithFields", line, (names, self.field_sets()))
        if kind == "datatype":
            return self.datatype()
        name = self.name()
        if self.here.kind == "(":
            parameters = self.parameters()
            self.expect("=")
            return Tree("DefinitionWithParameters", line, (name, parameters, self.phrase()))
        self.expect("=")
        return Tree("Definition", line, (name, self.phrase()))

    def field_sets(self) -> Tree:
        line = self.here.line
        sets = [self.atom(dots=False)]
        while self.here.kind == "." and not sets[-1].open_ended:
            self.take()
            sets.append(self.atom(dots=False))
        return Tree("FieldSets", line, tuple(sets))

    def datatype(self) -> Tree:
        line = self.take().line
        name = self.name()
        self.expect("=")
        constants = Tree("Constants", self.here.line, tuple(self.listed(self.name, "|")))
        if self.here.kind == ".":
            raise ScriptFault(self.here.line, UNSUPPORTED)
        return Tree("Datatype", line, (name, constants))

    def parameters(self) -> Tree:
        self.take_bracket()
        line = self.here.line
        names = self.listed(self.parameter)
        self.close(")")
        return Tree("Names", line, tuple(names))

    def parameter(self) -> Tree:
        """A name; any other phrase is a pattern, which CSPM has and this language refuses."""
        phrase = self.phrase()
        if not phrase.is_bare_name():
            raise ScriptFault(phrase.line, UNSUPPORTED)
        return phrase.parts[0]


def parse(text: bytes) -> Tree:
    """The tree of a script; the first fault up to the grammar, its heights and its brackets is raised."""
    return Reader(scan(text)).script()


def parse_phrase(text: bytes) -> Tree:
    """The tree of a phrase by itself, in one line; its faults have columns."""
    reader = Reader(scan(text, by_columns=True))
    phrase = reader.phrase()
    if reader.here.kind != "end":
        raise reader.fault()
    return phrase
