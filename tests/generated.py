"""Inputs made at random, tried in several processes.

An input is made by drawing from a `random.Random`. Most inputs come from the seed alone. Where hypothesis is installed, it
makes those of every fifth chunk, with draws that lie more often at an edge; and where an input failed, it looks for one
that is as small as it can be. The same seed makes the same inputs again.
"""
from __future__ import annotations

import argparse
import collections
import functools
import multiprocessing
import os
import random
from collections.abc import Callable
from typing import NamedTuple

try:
    import hypothesis
    from hypothesis import strategies
except ImportError:
    hypothesis = None  # type: ignore[assignment]

CHUNK = 25
"""How many inputs a process makes before it ends, with its memory."""

EVERY = 5
"""Of so many chunks one is made by hypothesis."""

LOOKED_AT = 500
"""How many inputs hypothesis makes to find a small one that fails."""


class Outcome(NamedTuple):
    """What came of an input: a word that is counted, and what was wrong, or nothing."""

    word: str
    problem: str = ""


Attempt = Callable[[random.Random], Outcome]


class Chunk(NamedTuple):
    """So many inputs; `by_hypothesis` says what makes them."""

    name: str
    size: int
    by_hypothesis: bool = False


class Failed(Exception):
    """An input failed; raised so that hypothesis makes it smaller."""


class Found(NamedTuple):
    counts: collections.Counter[str]
    problems: list[str]


def by_seed(attempt: Attempt, chunk: Chunk) -> Found:
    found = Found(collections.Counter(), [])
    for number in range(chunk.size):
        outcome = attempt(random.Random(f"{chunk.name}-{number}"))
        found.counts[outcome.word] += 1
        if outcome.problem:
            found.problems.append(f"{chunk.name}-{number}: {outcome.problem}")
    return found


def by_hypothesis(attempt: Attempt, chunk: Chunk) -> Found:
    """As `by_seed`, but a chunk ends with its first failure, of which the smallest input is reported."""
    found = Found(collections.Counter(), [])
    smallest: list[str] = []

    @hypothesis.seed(chunk.name)
    @hypothesis.settings(max_examples=chunk.size, database=None, deadline=None, report_multiple_bugs=False, print_blob=False,
                         phases=[hypothesis.Phase.generate, hypothesis.Phase.shrink],
                         suppress_health_check=list(hypothesis.HealthCheck))
    @hypothesis.given(strategies.randoms(use_true_random=False))
    def tried(rng: random.Random) -> None:
        outcome = attempt(rng)
        if outcome.problem:
            smallest[:] = [outcome.problem]
            raise Failed()
        if not smallest:
            found.counts[outcome.word] += 1

    try:
        tried()
    except Failed:
        found.counts["failed"] += 1
    except hypothesis.errors.Flaky:
        found.counts["failed, not every time"] += 1
    found.problems.extend(f"{chunk.name}, made small: {problem}" for problem in smallest)
    return found


def tried_chunk(attempt: Attempt, chunk: Chunk) -> Found:
    return by_hypothesis(attempt, chunk) if chunk.by_hypothesis else by_seed(attempt, chunk)


def chunks_of(seed: str, count: int, plain: bool) -> list[Chunk]:
    """All inputs in chunks."""
    firsts = range(0, count, CHUNK)
    with_hypothesis = hypothesis is not None and not plain
    return [Chunk(f"{seed}-{first}", min(CHUNK, count - first), with_hypothesis and place % EVERY == EVERY - 1) for place, first in enumerate(firsts)]


def add_options(parser: argparse.ArgumentParser, count: int) -> None:
    parser.add_argument("seed", nargs="?", default="1", help="the inputs are made from it (1)")
    parser.add_argument("count", nargs="?", type=int, default=count, help=f"how many inputs ({count})")
    parser.add_argument("--jobs", type=int, default=os.cpu_count() or 1, help="how many processes")
    parser.add_argument("--plain", action="store_true", help="without hypothesis, also where it is installed")


def run(attempt: Attempt, given: argparse.Namespace) -> int:
    """Tries all inputs, and prints each failure and the line `N passed, M failed`; the exit status."""
    counts: collections.Counter[str] = collections.Counter()
    failures = 0
    with multiprocessing.Pool(given.jobs, maxtasksperchild=1) as pool:
        for found in pool.imap_unordered(functools.partial(tried_chunk, attempt), chunks_of(given.seed, given.count, given.plain)):
            counts += found.counts
            failures += len(found.problems)
            for problem in found.problems:
                print(problem, flush=True)
    if failures and hypothesis is not None and not given.plain:
        print("looking for a small input that fails", flush=True)
        for problem in by_hypothesis(attempt, Chunk(f"{given.seed}-small", LOOKED_AT)).problems:
            print(problem, flush=True)
    print(", ".join(f"{count} {word}" for word, count in sorted(counts.items())))
    print(f"{max(sum(counts.values()) - failures, 0)} passed, {failures} failed")
    return 1 if failures else 0
