#!/usr/bin/env python3
"""Compares what `cspwatch print` makes of scripts with what a second reader of the language makes of them.

    compare_scripts.py [SEED] [COUNT] [--program FILE] [--reference PATH] [--jobs N] [--seconds S] [--plain]

The scripts are made at random: they declare channels, datatypes, numbers, truths, sets and processes with and without
parameters, have conditions, guards and replicated forms, and most are at fault somewhere or other. The process is mostly
a name, else another phrase. The printed text, or the line or column, the number and the word of the fault, have to be
the same. The last line is `N passed, M failed`.
"""
from __future__ import annotations

import argparse
import functools
import random
import sys

import generated
import opinions
from generated import Outcome
from reference import program as reference

SECONDS = 20.0
"""What the program may take for a script."""


AGAIN = ["P = STOP", "channel a", "datatype P = q", "K(n) = STOP", "N = 1", "L = Q", "P2 = (P)", "K(n, n) = STOP", "L = if 1 < 2 then 1 else STOP"]
"""Declarations of names that may be declared already, and others."""


class Scripts:
    """One generated script: what it has declared so far, and its text."""

    def __init__(self, rng: random.Random) -> None:
        self.rng = rng
        # how often a part is chosen without regard to its kind or its declaration
        self.wild = rng.choice([0, 0, 0.004, 0.02, 0.06])
        self.numbers: list[str] = []
        self.truths: list[str] = []
        self.value_sets: list[str] = []
        self.event_sets: list[str] = []
        self.processes: list[str] = []
        # the names of definitions with parameters, and how many each has
        self.calls: dict[str, int] = {}
        self.constants: list[str] = []
        self.datatypes: list[str] = []
        self.channels: dict[str, list[str]] = {}
        self.lines: list[str] = []

    def chance(self, share):
        return self.rng.random() < share

    # ---- values and sets of values

    def stray(self):
        every = (self.numbers + self.truths + self.value_sets + self.event_sets + self.processes + self.constants + self.datatypes
                 + list(self.channels) + list(self.calls)
                 + ["X", "CHAOS", "Int", "STOP", "{}", "{0..1}", "1", "Events", "true", "(1 < 2)", "(if true then 1 else 0)", "Q1(1)"])
        return self.rng.choice(every)

    def number(self, inputs, depth=2):
        rng = self.rng
        if self.chance(self.wild):
            return self.stray()
        kind = rng.randrange(9)
        if depth <= 0 or kind < 3:
            return str(rng.choice([0, 1, 1, 2, 3, 7]))
        if kind == 8:
            return "(%s)" % self.chosen(inputs, lambda: self.number(inputs, depth - 1))
        if kind == 3 and self.numbers:
            return rng.choice(self.numbers)
        if kind == 4 and inputs:
            return rng.choice(inputs)
        if kind == 5:
            return "(%s)" % self.number(inputs, depth - 1)
        if kind == 6:
            return "- %s" % rng.choice(["1", "2", "(1 + 1)"])
        sign = rng.choice(["+", "+", "-", "*", "%"])
        return "%s %s %s" % (self.number(inputs, depth - 1), sign, self.number(inputs, depth - 1))

    def chosen(self, inputs, part):
        """A condition between two parts, of which one may be of any kind."""
        first, second = (part() if self.chance(0.85) else self.stray() for _ in range(2))
        return "if %s then %s else %s" % (self.truth(inputs, 1), first, second)

    def truth(self, inputs, depth=2):
        rng = self.rng
        if self.chance(self.wild):
            return self.stray()
        kind = rng.randrange(12)
        if depth <= 0 or kind < 3:
            return rng.choice(["true", "false", "1 < 2", "2 <= 1"] + self.truths * 2)
        if kind < 6:
            return "%s %s %s" % (self.number(inputs, 1), rng.choice(["==", "!=", "<", "<=", ">", ">="]), self.number(inputs, 1))
        if kind == 6:
            return "%s %s %s" % (self.value(inputs), rng.choice(["==", "!="]), self.value(inputs))
        if kind == 7:
            return "not (%s)" % self.truth(inputs, depth - 1)
        if kind == 8:
            return "not %s" % rng.choice(["true", "false", "1 == 2"])
        if kind == 9:
            return "(%s)" % self.truth(inputs, depth - 1)
        side = lambda: self.truth(inputs, depth - 1) if self.chance(0.9) else self.stray()
        return "%s %s %s" % (side(), rng.choice(["and", "or"]), side())

    def value(self, inputs):
        if self.constants and self.chance(0.3):
            return self.rng.choice(self.constants)
        return self.number(inputs)

    def values(self, inputs, depth=2):
        rng = self.rng
        if self.chance(self.wild):
            return self.stray()
        kind = rng.randrange(9)
        if kind < 3 or depth <= 0:
            low = rng.choice([0, 0, 0, 1, -1])
            return "{%s%d..%d}" % (" " if low < 0 else "", low, low + rng.choice([0, 1, 1, 2, 3, -1 if depth > 1 else 1]))
        if kind == 3:
            return "{%s}" % ", ".join(" " + self.value(inputs) for _ in range(rng.randint(1, 3)))
        if kind == 4 and self.datatypes:
            return rng.choice(self.datatypes)
        if kind == 5 and self.value_sets:
            return rng.choice(self.value_sets)
        if kind == 6:
            return "%s(%s, %s)" % (rng.choice(["union", "inter", "diff"]), self.values(inputs, depth - 1), self.values(inputs, depth - 1))
        if kind == 7:
            return "(%s)" % self.values(inputs, depth - 1)
        if depth > 1 and self.chance(0.3):
            return "(%s)" % self.chosen(inputs, lambda: self.values(inputs, depth - 1))
        if inputs and self.chance(0.4):
            return "{0..%s}" % rng.choice(inputs)
        return rng.choice(["{0, 1}", "{1..2}", "{}"] if depth > 1 else ["{0, 1}", "{1..2}"])

    # ---- events

    def channel(self):
        if self.channels and not self.chance(self.wild):
            return self.rng.choice(list(self.channels))
        return self.stray() if self.chance(0.5) else "c"

    def given(self, fields, inputs):
        """A value that is likely to be one of the field's."""
        rng = self.rng
        if fields is not None and rng.random() < 0.9:
            if fields == "constants" and self.constants:
                return rng.choice(self.constants)
            return rng.choice(["0", "1", "1", "(1 - 1)"] + list(inputs))
        return rng.choice(["0", "1", "2", "-1", "(%s)" % self.number(inputs, 1)] + list(inputs) + self.constants[:1])

    def event(self, inputs, whole=True):
        rng = self.rng
        name = self.channel()
        fields = self.channels.get(name, [])
        count = len(fields) if whole else rng.randint(0, len(fields))
        if self.chance(self.wild):
            count = rng.randint(0, 3)
        parts = [rng.choice("..!") + self.given(fields[place] if place < len(fields) else None, inputs) for place in range(count)]
        return name + "".join(parts)

    def guard(self, inputs):
        """An event before an arrow, and the names that stand for values behind it."""
        rng = self.rng
        name = self.channel()
        fields = self.channels.get(name, [])
        count = len(fields) if not self.chance(self.wild) else rng.randint(0, 3)
        inner, out = list(inputs), name
        for place in range(count):
            kind = rng.randrange(5)
            if kind < 2:
                out += rng.choice(".!") + self.given(fields[place] if place < len(fields) else None, inner)
                continue
            bound = rng.choice(["x", "y", "z", "x", "v'"] + (self.constants[:1] if self.chance(self.wild) else []))
            out += "?" + bound
            if kind == 4:
                out += ":" + rng.choice(["{0..1}", "{1, 2}", "(%s)" % self.values(inner, 1)] + self.value_sets + self.datatypes)
            inner.append(bound)
        return out, inner

    def events(self, inputs, depth=2):
        rng = self.rng
        if self.chance(self.wild):
            return self.stray()
        kind = rng.randrange(9)
        if kind < 3:
            return "{|%s|}" % ", ".join(self.event(inputs, whole=False) for _ in range(rng.randint(0, 2)))
        if kind < 5 or depth <= 0:
            return "{%s}" % ", ".join(self.event(inputs) for _ in range(rng.randint(0, 3)))
        if kind == 5 and self.event_sets:
            return rng.choice(self.event_sets)
        if kind == 6:
            return "%s(%s, %s)" % (rng.choice(["union", "inter", "diff"]), self.events(inputs, depth - 1), self.events(inputs, depth - 1))
        if kind == 7:
            return "Events"
        if self.chance(0.4):
            return "(%s)" % self.chosen(inputs, lambda: self.events(inputs, depth - 1))
        return "(%s)" % self.events(inputs, depth - 1)

    # ---- processes

    def process(self, inputs, depth):
        rng = self.rng
        if self.chance(self.wild):
            return self.stray()
        if depth <= 0 or rng.random() < 0.1:
            return rng.choice(["STOP", "SKIP"] + self.processes * 3)
        part = lambda: self.process(inputs, depth - 1)
        kind = rng.randrange(20)
        if kind == 14:
            return self.chosen(inputs, lambda: self.wrapped(part()))
        if kind == 15:
            return "%s & %s" % (self.truth(inputs), self.wrapped(part()))
        if kind < 18 and kind > 15:
            return self.replicated(inputs, depth)
        if kind > 17:
            return self.call(inputs)
        if kind < 5:
            event, inner = self.guard(inputs)
            return "%s -> %s" % (event, self.wrapped(self.process(inner, depth - 1)))
        if kind < 10:
            sign = rng.choice(["[]", "[]", "|~|", ";", "|||", "/\\"])
            return "%s %s %s" % (self.wrapped(part()), sign, self.wrapped(part()))
        if kind == 10:
            return "%s [| %s |] %s" % (self.wrapped(part()), self.events(inputs), self.wrapped(part()))
        if kind == 11:
            return "%s [ %s || %s ] %s" % (self.wrapped(part()), self.events(inputs), self.events(inputs), self.wrapped(part()))
        if kind == 12:
            return "%s \\ %s" % (self.wrapped(part()), self.events(inputs))
        pairs = ", ".join("%s <- %s" % self.pair(inputs) for _ in range(rng.randint(1, 3)))
        return "(%s)[[%s]]" % (part(), pairs)

    def replicated(self, inputs, depth):
        rng = self.rng
        inner, generators = list(inputs), []
        for _ in range(rng.choice([1, 1, 2, 3])):
            name = rng.choice(["x", "i", "j", "i", "P", "a"] + (self.constants[:1] if self.chance(self.wild * 4) else []))
            generators.append("%s:%s" % (name, self.values(inner, 2)))
            inner.append(name)
        return "%s %s @ %s" % (rng.choice(["[]", "[]", "|~|", "|||"]), ", ".join(generators), self.wrapped(self.process(inner, depth - 1)))

    def call(self, inputs):
        rng = self.rng
        if not self.calls:
            return "Q1(1)" if self.chance(self.wild) else "STOP"
        name = rng.choice(list(self.calls))
        count = self.calls[name] if not self.chance(self.wild) else rng.randint(1, 3)
        return "%s(%s)" % (name, ", ".join(self.value(inputs) for _ in range(count)))

    def pair(self, inputs):
        left = self.event(inputs, whole=False)
        if self.chance(0.6):
            name = left.split(".")[0].split("!")[0]
            same = [other for other in self.channels if self.channels[other] == self.channels.get(name)]
            if same:
                return left, self.rng.choice(same) + left[len(name):]
        return left, self.event(inputs, whole=False)

    def wrapped(self, text):
        return "(%s)" % text if self.chance(0.85) else text

    def ended(self, parameters):
        """A body that mostly stops calling others once its first parameter has grown."""
        body = self.process(list(parameters), self.rng.randint(0, 3))
        if self.chance(0.7):
            return "%s < %d & %s" % (parameters[0], self.rng.randint(0, 3), self.wrapped(body))
        return body

    # ---- declarations

    def add(self, text):
        self.lines.append(text)

    def declare(self):
        rng = self.rng
        for name, members in (("D", ["y", "x", "red"]), ("E'", ["on", "off"])):
            if self.chance(0.4):
                members = members[:rng.randint(1, len(members))]
                self.datatypes.append(name)
                self.constants += members
                self.add("datatype %s = %s" % (name, " | ".join(members)))
        for name in ("N", "M1", "M2"):
            if self.chance(0.4):
                self.add("%s = %s" % (name, self.number([])))
                self.numbers.append(name)
        for name in ("B1", "B2"):
            if self.chance(0.3):
                self.add("%s = %s" % (name, self.truth([])))
                self.truths.append(name)
        for name in ("S", "S2"):
            if self.chance(0.4):
                self.add("%s = %s" % (name, self.values([])))
                self.value_sets.append(name)
        for name in rng.sample(["a", "b", "c", "d", "P0", "T"], rng.randint(1, 4)):
            fields = [rng.choice(["numbers", "numbers", "constants"]) for _ in range(rng.choice([0, 0, 1, 1, 2]))]
            sets = [rng.choice(self.datatypes) if kind == "constants" and self.datatypes else self.values([], 1) for kind in fields]
            self.channels[name] = fields
            self.add("channel %s%s" % (name, " : " + ".".join(sets) if sets else ""))
        if self.chance(0.1):
            self.add("channel e, f : {0..%d}" % rng.choice([1, 126, 127, 128, 255]))
            self.channels["e"] = self.channels["f"] = ["numbers"]
        for name in ("A", "B"):
            if self.chance(0.4):
                self.add("%s = %s" % (name, self.events([])))
                self.event_sets.append(name)
        for name in rng.sample(["Q1", "Q2", "Q3"], rng.choice([0, 0, 1, 2, 3])):
            self.calls[name] = rng.randint(1, 3)
        self.processes = ["P"] + rng.sample(["Q", "R", "Q'", "W"], rng.randint(0, 4))
        for name in self.processes:
            self.add("%s = %s" % (name, self.process([], rng.randint(0, 4))))
        for name, count in self.calls.items():
            parameters = rng.sample(["x", "i", "n", "m", "P", "N"], count)
            if self.chance(self.wild * 4):
                parameters[-1] = rng.choice(["x", "n"] + self.constants[:1])
            self.add("%s(%s) = %s" % (name, ", ".join(parameters), self.ended(parameters)))
        if self.chance(self.wild):
            self.add(rng.choice(AGAIN))

    def text(self):
        self.declare()
        rng = self.rng
        if self.chance(0.5):
            rng.shuffle(self.lines)
        text = "\n".join(self.lines) + "\n"
        return (self.broken(text) if self.chance(0.3) else text).encode("ascii"), self.root()

    def root(self):
        """Mostly a name; else another phrase for a process, of which some are cut off."""
        if self.chance(0.75):
            return "P"
        if self.chance(0.2):
            return self.rng.choice(["Q", "N", "S", "a", "X", "x", "D", "A", "B1", "Q1"])
        phrase = self.process([], self.rng.randint(0, 3))
        return phrase[:self.rng.randrange(len(phrase))] if self.chance(self.wild * 4) else phrase

    def broken(self, text):
        """The text with some of its blanks made ends of lines, since a fault is reported with its line."""
        return "".join("\n" if letter == " " and self.chance(0.3) else letter for letter in text)


def compared(text: bytes, root: str, given: argparse.Namespace) -> Outcome:
    """Compares both opinions on a script, read for a root."""
    question = opinions.Question(("print", "p.csp", "--", root), {"p.csp": text})
    wanted = opinions.second(question, lambda: reference.print_script(text, root), given.reference, given.seconds)
    if wanted is None:
        return Outcome("passed over")
    own = opinions.of_program(given.program, question, SECONDS)
    if own == wanted:
        return Outcome(wanted.errors.decode("latin-1").split(": ")[-1].strip() or "printed")
    answer = f"takes more than {SECONDS:.0f} seconds" if own is None else own
    return Outcome("different", f"root {root}\n{text.decode('latin-1')}\nprogram: {answer}\nreference: {wanted}\n")


def attempt(rng: random.Random, given: argparse.Namespace) -> Outcome:
    text, root = Scripts(rng).text()
    return compared(text, root, given)


def main() -> int:
    parser = argparse.ArgumentParser(description=__doc__.split("\n", maxsplit=1)[0])
    generated.add_options(parser, 10_000)
    opinions.add_options(parser)
    given = parser.parse_args()
    return generated.run(functools.partial(attempt, given=given), given)


if __name__ == "__main__":
    sys.exit(main())
