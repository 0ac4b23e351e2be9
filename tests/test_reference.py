"""The reference against what is written by hand: the cases, and the definition of traces and failures."""
from __future__ import annotations

import os
import random
from typing import Any

import opinions
import pytest
import run_cases
from contents import lines, octets
from reference import program as reference
from reference import terms
from reference.alphabet import Alphabet
from reference.meaning import Meaning
from reference.program import Answer
from reference.states import Judge
from reference.terms import SKIP, STOP, Spec, Term

FOLDER = os.path.join(run_cases.HERE, "cases")
FILES = [os.path.join(FOLDER, name) for name in sorted(os.listdir(FOLDER))]
BEYOND = ("runs", "stdin", "output", "output_bytes", "files_after", "stderr_any", "stdout_any", "seconds")
"""What a case may have that the reference knows nothing of: several runs, failing streams, and cases of time."""

SECONDS = 2.0
"""How long the reference may take for a case before it is passed over."""

Case = dict[str, Any]


def answer(case: Case) -> Answer | None:
    """What the reference answers to a case; None where it has no such words."""
    words = run_cases.words(case)
    with_large = "--large" in words[:2]
    if with_large:
        words.remove("--large")
    files = {name: octets(content) for name, content in case.get("files", {}).items()}
    if "script" in case:
        files["p.csp"] = octets(case["script"])
    if len(words) < 2 or any(word.startswith("-") for word in words) or words[1] not in files:
        return None
    given = octets(case["input_bytes"]) if "input_bytes" in case else lines(case.get("input", []))
    if words[0] == "check" and len(words) == 3:
        return reference.check(files[words[1]], words[2], given, with_large, words[1])
    if with_large:
        return None
    if words[0] == "print" and len(words) == 3:
        return reference.print_script(files[words[1]], words[2], words[1])
    if words[0] == "replay" and len(words) == 2:
        return reference.replay(files[words[1]], words[1])
    if words[0] == "show" and len(words) == 2:
        return reference.show(files[words[1]], words[1])
    return None


CASES = [(name, case) for name, case in run_cases.cases_of(FILES) if not any(field in case for field in BEYOND)]


@pytest.mark.parametrize("case", [case for _, case in CASES], ids=[name for name, _ in CASES])
def test_case(case: Case) -> None:
    found = opinions.of_reference(lambda: answer(case), SECONDS)
    if found is None:
        pytest.skip("the reference has no such words, or takes long")
    wanted = Answer(lines(case["stdout"]) if "stdout" in case else found.output, lines(case["stderr"]) if "stderr" in case else found.errors, case["status"])
    assert found == wanted


def some_term(rng: random.Random, depth: int, events: int, names: int) -> Term:
    """A term at random. Where there are `names`, they come after a prefix alone, and nothing is hidden: so as many
    unfoldings as a trace has events are enough."""
    if depth <= 0:
        return rng.choice([STOP, SKIP])
    kind = rng.choice(["prefix", "prefix", "external", "internal", "sequence", "interrupt", "parallel", "renaming"] + ["hiding"] * (not names))
    event, mask = rng.randrange(events), rng.randrange(1 << events)
    if kind == "prefix" and names and rng.random() < 0.5:
        return terms.prefix(event, terms.name(rng.randrange(names)))
    first = some_term(rng, depth - 1, events, names)
    if kind == "prefix":
        return terms.prefix(event, first)
    if kind == "renaming":
        return terms.renaming(tuple(sorted({(rng.randrange(events), rng.randrange(events)) for _ in range(2)})), first)
    if kind == "hiding":
        return terms.hiding(mask, first)
    return terms.term(kind, (first, some_term(rng, depth - 1, events, names)), 0, mask if kind == "parallel" else 0)


def compare(judge: Judge, meaning: Meaning, trace: tuple[int, ...], length: int) -> None:
    """Holds what the steps say after a trace against the definition, and goes on with each event that may come."""
    for refused in meaning.every:
        assert judge.refuses(refused) == meaning.refuses(trace, refused), (trace, refused)
    states = judge.states
    for event in range(meaning.tick + 1):
        judge.states = states
        accepted, following = judge.judge_event(event)
        assert accepted == meaning.accepts(trace, event), (trace, event)
        if accepted and length:
            judge.states = following
            compare(judge, meaning, trace + (event,), length - 1)


@pytest.mark.parametrize("large", [False, True])
@pytest.mark.parametrize("seed", range(60))
def test_steps_are_the_meaning(seed: int, large: bool) -> None:
    rng = random.Random(seed)
    alphabet = Alphabet()
    for name in "ab":
        alphabet.declare(name, [])
    names = rng.choice([0, 0, 1, 2])
    spec = Spec(alphabet, [some_term(rng, 3, 2, names) for _ in range(max(names, 1))])
    compare(Judge(spec, large), Meaning(spec, 4), (), 2)
