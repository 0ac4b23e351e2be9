#!/usr/bin/env python3
"""Compares what `cspwatch check` answers with what a second judge answers, on processes and reports made at random.

    compare_judging.py [SEED] [COUNT] [--large] [--program FILE] [--reference PATH] [--jobs N] [--seconds S] [--plain]

Each case is a script with a few definitions under all operators, some of which grow until a limit is met, and some forty
lines: events, refusals, `N` and `S`. Replies, messages and exit status have to be the same. With `--large` both keep
names as their bodies, and where the program meets no limit without the word it has to answer the same with it; half of
the scripts have up to 25 definitions that unfold one another. A case for which the reference takes longer than S
seconds is passed over, and counted; one for which the program takes more than five of the processor is a failure. The last
line is `N passed, M failed`.
"""
from __future__ import annotations

import argparse
import functools
import random
import sys

import generated
import opinions
from generated import Outcome
from reference import program as reference
from reference.program import Answer

SECONDS = 5.0
"""What the program may take of the processor for a case."""

FORMS = ["prefix"] * 5 + ["[]", "|~|", "|||", "[|", ";", "hide", "rename", "/\\", "leaf"]
LIMITS = (b"20 depth", b"21 states")


class Case:
    """A script and its lines."""

    def __init__(self, rng: random.Random) -> None:
        self.rng = rng
        self.events = list("abcd")[:rng.randint(2, 4)]
        self.names = ["P", "Q", "R"][:rng.randint(1, 3)]
        grows = rng.random() < 0.3
        bodies = [f"{name} = {self.term(rng.randint(2, 5), grows)}" for name in self.names]
        self.script = f"channel {', '.join(self.events)}\n" + "\n".join(bodies) + "\n"
        self.lines = "".join(self.line() for _ in range(rng.randint(10, 60)))

    def event(self) -> str:
        return self.rng.choice(self.events)

    def set(self) -> str:
        return "{%s}" % ", ".join(sorted(set(self.event() for _ in range(self.rng.randint(0, 2)))))

    def term(self, depth: int, names: bool) -> str:
        """A term of at most this depth. Without `names` a name comes after a prefix alone."""
        if depth <= 0:
            return self.rng.choice(["STOP", "SKIP"] + (self.names * 2 if names else []))
        kind = self.rng.choice(FORMS)
        if kind == "prefix":
            return f"({self.event()} -> {self.term(depth - 1, True)})"
        if kind == "leaf":
            return self.term(0, names)
        first = self.term(depth - 1, names)
        if kind == "hide":
            return f"({first} \\ {self.set()})"
        if kind == "rename":
            return f"({first}[[{self.event()} <- {self.event()}, {self.event()} <- {self.event()}]])"
        operator = f"[|{self.set()}|]" if kind == "[|" else kind
        return f"({first} {operator} {self.term(depth - 1, names)})"

    def line(self) -> str:
        draw = self.rng.random()
        if draw < 0.55:
            return f"E {self.rng.choice(self.events * 4 + ['_tick'])}\n"
        if draw < 0.85:
            return " ".join(["R"] + [name for name in self.events + ["_tick"] if self.rng.random() < 0.4]) + "\n"
        return self.rng.choice(["N\n", "S\n"])


class Unfolding(Case):
    """A script with many definitions, most of which unfold later ones: some come to an end, some go round."""

    def __init__(self, rng: random.Random) -> None:
        super().__init__(rng)
        self.names = [f"P{number}" for number in range(rng.randint(3, 25))]
        bodies = [f"{name} = {self.body(self.names[place + 1:])}" for place, name in enumerate(self.names)]
        rng.shuffle(bodies)
        self.script = f"channel {', '.join(self.events)}\n" + "\n".join(bodies) + "\nP = P0\n"

    def body(self, later: list[str]) -> str:
        """A body that unfolds at once, for the most part names that come later."""
        name = self.rng.choice(later if later and self.rng.random() < 0.9 else self.names)
        kind = self.rng.choice(["name", "name", "prefix", "prefix", "leaf", *FORMS[5:]])
        if kind == "name":
            return name
        if kind == "prefix":
            return f"{self.event()} -> {self.rng.choice(self.names)}"
        if kind == "leaf":
            return self.rng.choice(["STOP", "SKIP"])
        if kind == "hide":
            return f"{name} \\ {self.set()}"
        if kind == "rename":
            return f"{name}[[{self.event()} <- {self.event()}]]"
        operator = f"[|{self.set()}|]" if kind == "[|" else kind
        others = [self.rng.choice(later or self.names), f"({self.event()} -> {self.rng.choice(self.names)})", "STOP", "SKIP"]
        return f"{name} {operator} {self.rng.choice(others)}"


def limits_in(answer: Answer) -> list[str]:
    return [limit.decode() for limit in LIMITS if limit in answer.output + answer.errors]


def without_word(program: str, question: opinions.Question, own: Answer) -> str:
    """What is wrong with the program's answer without `--large`, beside this one with it, or nothing."""
    plain = opinions.of_program(program, question._replace(words=question.words[:3]), SECONDS)
    if plain is None:
        return "without --large it takes too long"
    if limits_in(plain):
        return ""
    return "" if plain == own else f"without --large: {plain}"


def attempt(rng: random.Random, given: argparse.Namespace) -> Outcome:
    """Compares both opinions on a case."""
    case = Unfolding(rng) if given.large and rng.random() < 0.5 else Case(rng)
    words = ("check", "p.csp", "P") + (("--large",) if given.large else ())
    question = opinions.Question(words, {"p.csp": case.script.encode()}, case.lines.encode())
    wanted = opinions.second(question, lambda: reference.check(case.script.encode(), "P", question.lines, given.large), given.reference, given.seconds)
    if wanted is None:
        return Outcome("passed over")
    own = opinions.of_program(given.program, question, SECONDS)
    wrong = without_word(given.program, question, own) if given.large and own is not None else ""
    if own == wanted and not wrong:
        met = limits_in(wanted)
        return Outcome(met[0] if met else "the same")
    answer = f"takes more than {SECONDS:.0f} seconds of the processor" if own is None else own
    return Outcome("different", f"\n{case.script}\n{case.lines}\nprogram: {answer}\nreference: {wanted}\n{wrong}\n")


def main() -> int:
    parser = argparse.ArgumentParser(description=__doc__.split("\n", maxsplit=1)[0])
    generated.add_options(parser, 1000)
    opinions.add_options(parser)
    parser.add_argument("--large", action="store_true", help="names are kept as their bodies")
    given = parser.parse_args()
    return generated.run(functools.partial(attempt, given=given), given)


if __name__ == "__main__":
    sys.exit(main())
