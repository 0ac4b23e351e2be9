#!/usr/bin/env python3
"""Compares what `cspwatch show` prints of journals made at random with what a second judge's states say.

    compare_showing.py [SEED] [COUNT] [--large] [--program FILE] [--reference PATH] [--jobs N] [--seconds S] [--plain]

Each case is a script as in compare_judging.py, with a journal of up to sixty reports by three seats, some of them
rejected; with `--large` a large journal. The text and the JSON of `show`, alone, with `--rejected`, with `--coverage`
and with both, and the line and the status of `replay`, have to be the same bytes. Every tenth journal is damaged at one
place. A case whose opening meets a limit is passed over, and counted. The last line is `N passed, M failed`.
"""
from __future__ import annotations

import argparse
import functools
import random
import sys

import generated
import opinions
from compare_judging import Case
from generated import Outcome
from reference import journal
from reference import program as reference
from reference.elaboration import read
from reference.faults import JudgeFault
from reference.program import Answer
from reference.session import Session
from reference.showing import shown

SECONDS = 10.0
"""What the program may take for a journal."""

SEATS = 3

WAYS = [(rejected, coverage, as_json) for rejected in (False, True) for coverage in (False, True) for as_json in (False, True)]
"""With `--rejected`, with `--coverage`, as JSON."""


def journal_of(case: Case, large: bool) -> bytes | None:
    """A journal with the reports of a case, at random seats; None where the opening meets a limit."""
    script = case.script.encode()
    try:
        session = Session(read(script, b"P"), large)
    except JudgeFault:
        return None
    file = journal.header(script, b"P", large)
    for line in case.lines.splitlines():
        kind, *names = line.split(" ")
        if kind not in ("E", "R"):
            continue
        mask = sum(1 << (session.spec.alphabet.named(name) or 0) for name in names)
        try:
            entry = session.report(case.rng.randint(1, SEATS), kind, mask)
        except JudgeFault:
            continue
        file += journal.written(entry.seat, entry.number, entry.kind, entry.verdict, entry.events)
    return file + b"."


def damaged(rng: random.Random, file: bytes) -> bytes:
    """A journal with one byte changed, left out or put in, mostly in its records."""
    at = rng.randrange(file.rindex(b"\n\n") if b"\n\n" in file and rng.random() < 0.9 else 0, len(file))
    new = rng.choice([b"", b"+", b"-", b"0", b"1", b"7", b" ", b"\n", b"E", b"R", b"x"])
    return file[:at] + new + file[at + rng.randint(0, 1):]


def words_of(rejected: bool, coverage: bool, as_json: bool) -> tuple[str, ...]:
    words = ["show"] + ["--rejected"] * rejected + ["--coverage"] * coverage + ["--format", "json"] * as_json
    return tuple(words + ["j"])


def wanted_of(file: bytes) -> list[Answer]:
    """What the reference answers: to `replay`, and to `show` in all ways, which tells of bytes after the last record."""
    sessions: list[Session] = []

    def summary(session: Session) -> str:
        sessions.append(session)
        return session.summary() + "\n"

    replayed = reference.with_journal(file, "j", summary)
    if not sessions:
        return [replayed] * (1 + len(WAYS))
    errors = reference.after_last_record(file)
    return [replayed] + [Answer(shown(sessions[0], *way).encode(), errors, replayed.status) for way in WAYS]


def attempt(rng: random.Random, given: argparse.Namespace) -> Outcome:
    """Compares both opinions on a journal."""
    case = Case(rng)
    made = opinions.of_reference(lambda: journal_of(case, given.large), given.seconds)
    if made is None:
        return Outcome("passed over")
    file = damaged(rng, made) if rng.random() < 0.1 else made
    wanted = opinions.of_reference(lambda: wanted_of(file), given.seconds)
    if wanted is None:
        return Outcome("passed over")
    words = [("replay", "j")] + [words_of(rejected, coverage, as_json) for rejected, coverage, as_json in WAYS]
    for question, answer in zip((opinions.Question(one, {"j": file}) for one in words), wanted):
        other = answer
        if given.reference and question.words[0] == "replay":
            other = opinions.of_another(given.reference, question, given.seconds) or answer
        own = opinions.of_program(given.program, question, SECONDS)
        if not own == answer == other:
            return Outcome("different", f"{' '.join(question.words)} of {file!r}\nprogram: {own}\nreference: {answer}\nthe other one: {other}\n")
    return Outcome("refused" if wanted[0].errors else "the same, with a report rejected" if wanted[0].status else "the same")


def main() -> int:
    parser = argparse.ArgumentParser(description=__doc__.split("\n", maxsplit=1)[0])
    generated.add_options(parser, 1000)
    opinions.add_options(parser)
    parser.add_argument("--large", action="store_true", help="large journals: names are kept as their bodies")
    given = parser.parse_args()
    return generated.run(functools.partial(attempt, given=given), given)


if __name__ == "__main__":
    sys.exit(main())
