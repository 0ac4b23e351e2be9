"""The reference's search over all traces up to a length, against answers that are worked out by hand, and against the definition."""
from __future__ import annotations

import json
import os
import random
from typing import Any

import pytest
from reference import terms
from reference.alphabet import Alphabet
from reference.elaboration import read
from reference.meaning import Meaning
from reference.refinement import Broken, Process, choice, counterexample, deadlock
from reference.terms import Spec
from test_reference import some_term

FILE = os.path.join(os.path.dirname(os.path.abspath(__file__)), "assertions.json")
LENGTH = 4
"""Each assertion that doesn't hold fails after a trace of fewer events."""

DEADLOCK_FREE = " :[deadlock free [F]]"
DETERMINISTIC = " :[deterministic [F]]"

Assertion = dict[str, Any]


def assertions() -> list[tuple[str, Assertion]]:
    with open(FILE, encoding="utf-8") as file:
        return [("\n".join(group["script"]) + "\n", each) for group in json.load(file) for each in group["assertions"]]


class Claim:
    """One assertion of a script: what is asked of which processes."""

    def __init__(self, script: str, text: str) -> None:
        self.script = script
        self.is_denied = text.startswith("not ")
        text = text.removeprefix("not ")
        self.property = next((word for word in (DEADLOCK_FREE, DETERMINISTIC) if text.endswith(word)), None)
        self.with_failures = " [F= " in text
        if self.property is None:
            left, right = text.split(" [F= " if self.with_failures else " [T= ")
            self.spec: Spec | None = self.process(left)
            self.made = self.process(right)
        else:
            self.spec = None
            self.made = self.process(text.removesuffix(self.property))

    def process(self, phrase: str) -> Spec:
        return read(self.script.encode(), phrase.encode())

    def found(self) -> Broken | None:
        """What the reference finds against it."""
        if self.spec is not None:
            return counterexample(self.spec, self.made, self.with_failures, LENGTH)
        return deadlock(self.made, LENGTH) if self.property == DEADLOCK_FREE else choice(self.made, LENGTH)

    def event(self, name: str) -> int:
        alphabet = self.made.alphabet
        event = alphabet.tick if name == "tick" else alphabet.named(name)
        assert event is not None, name
        return event


def shows(claim: Claim, trace: tuple[int, ...], assertion: Assertion) -> bool:
    """Whether what is written against the assertion is so."""
    made = Process(claim.made)
    assert made.go(trace)
    if claim.property == DEADLOCK_FREE:
        return made.tick not in trace and made.judge.refuses((1 << made.tick + 1) - 1)
    if claim.spec is None:
        event = claim.event(assertion["takes"])
        return made.takes(event) and made.judge.refuses(1 << event)
    spec = Process(claim.spec)
    assert spec.go(trace)
    if "takes" in assertion:
        event = claim.event(assertion["takes"])
        return made.takes(event) and not spec.takes(event)
    refused = sum(1 << claim.event(name) for name in assertion["refuses"])
    return made.judge.refuses(refused) and not spec.judge.refuses(refused)


@pytest.mark.parametrize(("script", "assertion"), assertions(), ids=[each["assert"] for _, each in assertions()])
def test_assertion(script: str, assertion: Assertion) -> None:
    claim = Claim(script, assertion["assert"])
    found = claim.found()
    if assertion["holds"]:
        assert (found is None) != claim.is_denied
        return
    trace = tuple(claim.event(name) for name in assertion["after"])
    assert found is not None and len(found.trace) == len(trace), "the trace is a shortest one"
    assert shows(claim, trace, assertion)


def of_definition(spec: Meaning, made: Meaning, with_failures: bool) -> int | None:
    """After how many events a process first breaks a refinement, by the sets of all traces and of all failures; None where it doesn't."""
    beyond = [len(trace) - 1 for trace in made.traces(made.spec.bodies[0], 0) - spec.traces(spec.spec.bodies[0], 0)]
    if with_failures:
        beyond += [len(trace) for trace, _ in made.failures(made.spec.bodies[0], 0) - spec.failures(spec.spec.bodies[0], 0)]
    return min(beyond, default=None)


@pytest.mark.parametrize("with_failures", [False, True])
@pytest.mark.parametrize("seed", range(150))
def test_search_is_the_definition(seed: int, with_failures: bool) -> None:
    """Of processes without names, which have finitely many traces."""
    rng = random.Random(seed)
    alphabet = Alphabet()
    for name in "ab":
        alphabet.declare(name, [])
    one, other = some_term(rng, 2, 2, 0), some_term(rng, 2, 2, 0)
    one = rng.choice([one, terms.internal(one, other), terms.external(one, other)])
    for event in [rng.randrange(2) for _ in range(rng.randrange(3))]:
        one, other = terms.prefix(event, one), terms.prefix(event, other)
    spec, made = Spec(alphabet, [one]), Spec(alphabet, [other])
    wanted = of_definition(Meaning(spec, 0), Meaning(made, 0), with_failures)
    found = counterexample(spec, made, with_failures, 5)
    assert (None if found is None else len(found.trace)) == wanted
