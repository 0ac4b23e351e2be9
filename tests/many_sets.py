#!/usr/bin/env python3
"""Many reports each of which leads to a set of states that was never met: the answers, and how much memory they take.

    python3 -m pytest tests/many_sets.py [--program FILE]

Three counters side by side go up and down between 0 and 300, so hardly any set of states comes twice; some lines ask for a step down from 0. How each
line has to be answered is counted here. The space of sets begins anew where it has grown large (docs/DECISIONS.md), so it takes bounded memory, to which
the history adds some for each report.
"""
import os
import random
import subprocess
import tempfile

import pytest

LINES = 150_000
COUNTERS = 3
MOST = 300
# The bound, in bytes: for the space of sets, and for each report.
SPACE, REPORT = 350_000_000, 150
SCRIPT = "channel %s\n" % ", ".join("up%d, down%d" % (i, i) for i in range(COUNTERS))
for number in range(COUNTERS):
    SCRIPT += "Zero{0} = up{0} -> (More{0} ; Zero{0})\nMore{0} = down{0} -> SKIP [] up{0} -> (More{0} ; More{0})\n".format(number)
SCRIPT += "P = %s\n" % " ||| ".join("Zero%d" % i for i in range(COUNTERS))


def walk(lines, rng):
    """So many lines, and whether each is accepted."""
    now, to = [0] * COUNTERS, [0] * COUNTERS
    for _ in range(lines):
        if rng.random() < 0.05 and 0 in now:
            yield "E down%d" % now.index(0), False
            continue
        while now == to:
            to = [rng.randrange(MOST + 1) for _ in now]
        counter = rng.choice([i for i in range(COUNTERS) if now[i] != to[i]])
        rises = now[counter] < to[counter]
        now[counter] += 1 if rises else -1
        yield "E %s%d" % ("up" if rises else "down", counter), True


@pytest.fixture(scope="module")
def ran(program):
    """What the program answered, what was wanted, and the most memory that it took, in bytes."""
    talk = list(walk(LINES, random.Random(1)))
    wanted = "".join("%s %d\n" % ("OK" if accepted else "NO", n) for n, (_, accepted) in enumerate(talk, 1))
    with tempfile.TemporaryDirectory() as folder:
        for name, content in (("p.csp", SCRIPT), ("lines", "".join(line + "\n" for line, _ in talk))):
            with open(os.path.join(folder, name), "w", encoding="utf-8") as file:
                file.write(content)
        with open(os.path.join(folder, "lines"), "rb") as lines, tempfile.TemporaryFile() as out:
            child = subprocess.Popen([program, "check", "p.csp", "P"], cwd=folder, stdin=lines, stdout=out)
            _, status, used = os.wait4(child.pid, 0)
            child.returncode = os.waitstatus_to_exitcode(status)
            out.seek(0)
            return out.read().decode(), wanted, child.returncode, used.ru_maxrss * 1024


def test_answers(ran):
    assert ran[0] == ran[1]


def test_status(ran):
    assert ran[2] == 1


def test_memory(ran):
    assert ran[3] <= SPACE + REPORT * LINES
