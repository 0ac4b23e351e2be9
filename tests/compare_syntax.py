#!/usr/bin/env python3
"""Compares the trees and faults of texts with those of a second reader of the language.

    compare_syntax.py [SEED] [COUNT] [--trees] [--program FILE] [--reference PATH] [--jobs N] [--seconds S] [--plain]

The texts are made at random: valid ones, ones that were damaged at one place or several, and ones at the limits of
heights and brackets. `cspwatch print` has to report the same fault on the same line, or print the same. With `--trees`
the trees themselves are compared, which needs the kit: `tests/trees/main.rt.txt`, as the program `main.rt`, is run by
`rt try` (or by what the variable RT names) in a folder of its own. The last line is `N passed, M failed`.
"""
from __future__ import annotations

import argparse
import functools
import os
import random
import resource
import shutil
import subprocess
import sys
import tempfile

import generated
import opinions
from compare_scripts import compared
from generated import Outcome
from reference import program as reference

TOP = os.path.dirname(os.path.dirname(os.path.abspath(__file__)))
BATCH = 2_500
"""How many texts a run of `rt try` reads: it gives a program two minutes, and runs it with checks."""


# ---- texts, as lists of tokens

NAMES = ["a", "b", "c", "P", "Q", "x", "y_1", "T'", "N''"]
BINARY = ["*", "%", "+", "-", "==", "!=", "<", "<=", ">", ">=", "and", "or", "&", ";", "/\\", "[]", "|~|", "|||", "\\"]


class Texts:
    """Texts that are made at random: scripts, damaged ones, and ones at the limits of heights and brackets."""

    def __init__(self, rng: random.Random) -> None:
        self.rng = rng

    def name(self):
        return [self.rng.choice(NAMES)]

    def number(self):
        return [str(self.rng.choice([0, 1, 2, 7, 10, 999, 1000000, "007"]))]

    def listed(self, part, between, most=3):
        out = part()
        for _ in range(self.rng.choice([0, 0, 1, most - 1])):
            out = out + [between] + part()
        return out

    def event(self, depth):
        out = self.name()
        for _ in range(self.rng.choice([0, 0, 1, 1, 2])):
            kind = self.rng.randrange(4)
            if kind < 2:
                out = out + [".!"[kind]] + self.value(depth)
            else:
                out = out + ["?"] + self.name()
                if kind == 3:
                    out = out + [":"] + (self.name() if self.rng.random() < 0.5 else self.atom(depth - 1))
        return out

    def value(self, depth):
        kind = self.rng.randrange(5)
        if kind == 0 and depth > 0:
            return ["("] + self.phrase(depth - 1) + [")"]
        if kind == 1:
            return ["-"] + self.number()
        return self.number() if kind == 2 else self.name()

    def generators(self, depth):
        return self.listed(lambda: self.name() + [":"] + self.atom(depth - 1), ",")

    def atom(self, depth):
        rng = self.rng
        if depth <= 0:
            return rng.choice([lambda: ["STOP"], lambda: ["SKIP"], self.name, self.number, lambda: ["Events"],
                               lambda: ["true"], lambda: ["false"], lambda: ["{", "}"], lambda: ["{|", "|}"]])()
        part = lambda: self.phrase(rng.randrange(depth))
        kind = rng.randrange(9)
        if kind == 0:
            return ["("] + part() + [")"]
        if kind == 1:
            return self.name() + ["("] + self.listed(part, ",") + [")"]
        if kind == 2:
            return [rng.choice(["union", "inter", "diff"]), "("] + part() + [","] + part() + [")"]
        if kind == 3:
            return ["if"] + part() + ["then"] + part() + ["else"] + part()
        if kind == 4:
            return [rng.choice(["[]", "|~|", "|||"])] + self.generators(depth) + ["@"] + part()
        if kind == 5:
            return ["{"] + part() + [".."] + part() + ["}"]
        if kind == 6:
            return ["{"] + self.listed(part, ",") + ["}"]
        if kind == 7:
            return ["{|"] + self.listed(lambda: self.event(depth - 1), ",") + ["|}"]
        return self.event(depth)

    def phrase(self, depth):
        rng = self.rng
        if depth <= 0:
            return self.atom(0)
        part = lambda: self.phrase(rng.randrange(depth))
        kind = rng.randrange(12)
        if kind < 4:
            return part() + [rng.choice(BINARY)] + part()
        if kind < 7:
            return self.event(depth - 1) + ["->"] + part()
        if kind == 7:
            return [rng.choice(["-", "not"])] + part()
        if kind == 8:
            pair = lambda: self.event(depth - 1) + ["<-"] + self.event(depth - 1)
            return self.atom(depth - 1) + ["[["] + self.listed(pair, ",") + ["]]"]
        if kind == 9:
            return part() + ["[|"] + part() + ["|]"] + part()
        if kind == 10:
            return part() + ["["] + part() + ["||"] + part() + ["]"] + part()
        return self.atom(depth)

    def declaration(self, depth):
        rng = self.rng
        kind = rng.randrange(6)
        if kind == 0:
            out = ["channel"] + self.listed(self.name, ",")
            if rng.random() < 0.6:
                out = out + [":"] + self.listed(lambda: self.atom(depth - 2), ".")
            return out
        if kind == 1:
            return ["datatype"] + self.name() + ["="] + self.listed(self.name, "|")
        if kind == 2:
            parameter = lambda: self.name() if rng.random() < 0.9 else self.phrase(1)
            return self.name() + ["("] + self.listed(parameter, ",") + [")", "="] + self.phrase(depth)
        return self.name() + ["="] + self.phrase(depth)

    def script(self):
        out = []
        for _ in range(self.rng.choice([1, 1, 2, 3, 5])):
            out = out + self.declaration(self.rng.randint(1, 6))
        return out

    # ---- at the limits

    def deep(self):
        rng = self.rng
        count = rng.choice([247, 248, 249, 250, 251, 252])
        middle = self.atom(rng.randrange(2))
        kind = rng.randrange(9)
        if kind == 0:
            body = ["("] * count + middle + [")"] * count
        elif kind == 1:
            body = ["a", "->"] * count + middle
        elif kind == 2:
            body = ["{"] * count + middle + ["}"] * count
        elif kind == 3:
            body = middle + [rng.choice(["+", ";", "[]", "|||"]), "x"] * count
        elif kind == 4:
            body = [rng.choice(["-", "not"])] * count + middle
        elif kind == 5:
            body = ["x", "["] * count + middle + ["||", "x", "]", "x"] * count
        elif kind == 6:
            body = ["P", "("] * count + middle + [")"] * count
        elif kind == 7:
            body = ["c", ".", "("] * count + middle + [")"] * count
        else:
            some = rng.randrange(count)
            body = ["("] * some + ["a", "->"] * (count - some) + middle + [")"] * some
        return ["P", "="] + body

    # ---- bytes

    def damaged(self, tokens):
        rng = self.rng
        tokens = list(tokens)
        stray = ["(", ")", "{", "}", "[", "]", "[|", "|]", "[[", "]]", "..", ".", ",", ":", "=", "|", "||", "@", "->",
                 "<-", "then", "else", "if", "not", "and", "channel", "datatype", "x", "1", "STOP", "-", "{|", "|}"]
        for _ in range(rng.choice([1, 1, 1, 2, 3])):
            at = rng.randrange(len(tokens) + 1)
            kind = rng.randrange(4)
            if kind == 0:
                tokens[at:at + 1] = []
            elif kind == 1:
                tokens.insert(at, rng.choice(stray))
            elif kind == 2:
                tokens[at:at + 1] = [rng.choice(stray)]
            else:
                tokens = tokens[:at]
        return tokens

    def written(self, tokens):
        rng = self.rng
        out = []
        for token in tokens:
            out.append(token)
            kind = rng.random()
            if kind < 0.75:
                out.append(" ")
            elif kind < 0.85:
                out.append("\n")
            elif kind < 0.88:
                out.append(rng.choice(["\t", "\r\n", " -- a note\n", "{- {- in -} b -}", "\nassert P [> Q\n", "\n\n"]))
            elif token[-1].isalnum():
                out.append(" " if rng.random() < 0.7 else "")
        return "".join(out).encode("ascii")

    def text(self):
        rng = self.rng
        kind = rng.random()
        tokens = self.deep() if kind < 0.03 else self.script()
        if rng.random() < 0.45:
            tokens = self.damaged(tokens)
        text = self.written(tokens)
        if rng.random() < 0.08 and text:
            at = rng.randrange(len(text))
            text = text[:at] + bytes([rng.choice([0, 9, 33, 35, 39, 45, 95, 123, 127, 200, rng.randrange(256)])]) + text[at:]
        return text


# ---- trees

def own_answers(texts):
    with tempfile.TemporaryDirectory() as folder:
        crates = os.path.join(folder, "crates")
        for name in ("tokens", "syntax"):
            shutil.copytree(os.path.join(TOP, "crates", name), os.path.join(crates, name))
        os.makedirs(os.path.join(crates, "trees", "src"))
        shutil.copy(os.path.join(TOP, "tests", "trees", "main.rt.txt"), os.path.join(crates, "trees", "src", "main.rt"))
        with open(os.path.join(folder, "crates.txt"), "w") as out:
            out.write("tokens: thiserror\nsyntax: tokens\ntrees: syntax tokens\n")
        out = []
        for start in range(0, len(texts), BATCH):
            out += answers_of(os.path.join(crates, "trees"), texts[start:start + BATCH])
        return out


def answers_of(folder, texts):
    lines = "".join(text.hex() + "\n" for text in texts)
    command = os.environ.get("RT", "rt").split() + ["try"]
    stack = lambda: resource.setrlimit(resource.RLIMIT_STACK, (1 << 30, resource.getrlimit(resource.RLIMIT_STACK)[1]))
    run = subprocess.run(command, cwd=folder, input=lines.encode(), stdout=subprocess.PIPE, preexec_fn=stack)
    answers = run.stdout.decode().split("\n")
    if len(answers) < len(texts):
        sys.exit("no answers: %s" % answers[-3:])
    return answers[:len(texts)]


# ---- all

def attempt(rng: random.Random, given: argparse.Namespace) -> Outcome:
    return compared(Texts(rng).text(), "P", given)


def compare_trees(given: argparse.Namespace) -> int:
    """Compares the trees of all texts; the exit status."""
    texts = [Texts(random.Random(f"{given.seed}-{number}")).text() for number in range(given.count)]
    differences = trees = 0
    for text, own in zip(texts, own_answers(texts)):
        wanted = opinions.of_reference(lambda: reference.tree(text), given.seconds)
        if wanted is None:
            continue
        answer = (wanted.output or wanted.errors.removeprefix(b"p.csp:")).decode().strip()
        trees += bool(wanted.output)
        if own != answer:
            differences += 1
            print(f"---- {text[:1500]!r}\nreference: {answer[:400]}\nprogram:   {own[:400]}")
    print(f"{trees} of the texts have a tree")
    print(f"{given.count - differences} passed, {differences} failed")
    return 1 if differences else 0


def main() -> int:
    parser = argparse.ArgumentParser(description=__doc__.split("\n", maxsplit=1)[0])
    generated.add_options(parser, 10_000)
    opinions.add_options(parser)
    parser.add_argument("--trees", action="store_true", help="compare the trees, by `rt try`")
    given = parser.parse_args()
    if given.trees:
        return compare_trees(given)
    return generated.run(functools.partial(attempt, given=given), given)


if __name__ == "__main__":
    sys.exit(main())
