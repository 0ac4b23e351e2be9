#!/usr/bin/env python3
"""Runs `cspwatch check` and the plain Rust program check_peer in turn on the same lines, and reports lines a second and ratios.

    check_speed.py PROGRAM PEER [--turns N] [--scale S] [--only NAME ..]

A ratio is the peer's time over the program's, the median of the pairs; which one goes first changes with each turn. "user"
leaves out the time in the system, and so the writes of the replies. Both write into a file in memory, and have to write the
same bytes. For the process of two states it also reports what the last 100,000 of 1,000,000 lines cost against the first,
and the memory that an entry of the history takes.
"""
import argparse
import os
import random
import statistics
import subprocess
import sys
import tempfile

OPERATORS = ("[]", "|~|", "|||", ";")


def script(term):
    """The term as a script has it. A term is a name or a tuple: (">", event, term), (operator, term, term, ..)."""
    if isinstance(term, str):
        return term
    if term[0] == ">":
        return "%s -> %s" % (term[1], script(term[2]) if isinstance(term[2], str) or term[2][0] == ">" else "(%s)" % script(term[2]))
    return (" %s " % term[0]).join(part if isinstance(part, str) else "(%s)" % script(part) for part in term[1:])


def words(term):
    """The term with each operator before its parts, as check_peer reads it."""
    if isinstance(term, str):
        return term
    if term[0] == ">":
        return "> %s %s" % (term[1], words(term[2]))
    if len(term) == 2:
        return words(term[1])
    return "%s %s %s" % (term[0], words((term[0],) + term[1:-1]), words(term[-1]))


def two(count, dice):
    """Two states: what a line costs by itself."""
    return ["a", "b"], [("P", (">", "a", (">", "b", "P")))], ("E a" if at % 2 == 0 else "E b" for at in range(count))


def five(count, dice):
    """Five interleaved choices by hidden steps, which end together and begin anew: the same sets come again."""
    choice = ("|~|", (">", "a", "SKIP"), (">", "b", "SKIP"))
    definitions = [("P", (";", ("|||",) + ("Q",) * 5, "P")), ("Q", choice)]
    return ["a", "b"], definitions, ("E " + dice.choice("ab") for _ in range(count))


def wide(count, dice):
    """Eleven interleaved processes with events of their own: 2,048 sets of up to 2,048 terms."""
    events = ["%s%d" % (letter, at) for at in range(11) for letter in "ab"]
    loops = [("Q%d" % at, (">", "a%d" % at, (">", "b%d" % at, "Q%d" % at))) for at in range(11)]

    def lines():
        busy = [False] * 11
        for _ in range(count):
            at = dice.randrange(11)
            yield "E %s%d" % ("b" if busy[at] else "a", at)
            busy[at] = not busy[at]

    return events, [("P", ("|||",) + tuple(name for name, _ in loops))] + loops, lines()


def counters(count, dice):
    """Three counters that walk up to 300: hardly a set comes twice, and terms are up to 300 deep."""
    events = ["%s%d" % (way, at) for at in range(3) for way in ("up", "down")]
    definitions = [("P", ("|||", "Zero0", "Zero1", "Zero2"))]
    for at in range(3):
        up, down, zero, more = "up%d" % at, "down%d" % at, "Zero%d" % at, "More%d" % at
        definitions.append((zero, (">", up, (";", more, zero))))
        definitions.append((more, ("[]", (">", down, "SKIP"), (">", up, (";", more, more)))))

    def lines():
        places, targets = [0] * 3, [0] * 3
        for _ in range(count):
            while places == targets:
                targets = [dice.randrange(301) for _ in range(3)]
            at = dice.choice([at for at in range(3) if places[at] != targets[at]])
            way = 1 if places[at] < targets[at] else -1
            places[at] += way
            yield "E %s%d" % ("up" if way == 1 else "down", at)

    return events, definitions, lines()


def refusals(count, dice):
    """Two states of 32 resting sets of eight events out of 64; nine of ten lines are refusals of up to 64 events."""
    events = ["e%d" % at for at in range(64)]

    def body(then):
        return ("|~|",) + tuple(("[]",) + tuple((">", event, then) for event in dice.sample(events, 8)) for _ in range(32))

    def lines():
        for _ in range(count):
            if dice.random() < 0.1:
                yield "E " + dice.choice(events)
            else:
                yield " ".join(["R"] + dice.sample(events, 1 + dice.randrange(64)))

    return events, [("P", body("Q")), ("Q", body("P"))], lines()


WORK = {two: 1_000_000, five: 100_000, wide: 100_000, counters: 100_000, refusals: 100_000}
"""Each process with the number of lines."""


def run(call, lines, folder):
    """Processor seconds, of these those in the program itself, seconds by the clock, peak memory in bytes, and the replies."""
    with open(f"{folder}/lines", "wb") as file:
        file.write(lines)
    with open(f"{folder}/lines", "rb") as source, open(f"{folder}/replies", "wb") as sink:
        start = os.times().elapsed
        child = subprocess.Popen(call, stdin=source, stdout=sink)
        _, status, used = os.wait4(child.pid, 0)
        child.returncode = os.waitstatus_to_exitcode(status)
        clock = os.times().elapsed - start
    if child.returncode not in (0, 1):
        sys.exit(f"{call} ended with {child.returncode}")
    with open(f"{folder}/replies", "rb") as replies:
        return used.ru_utime + used.ru_stime, used.ru_utime, clock, used.ru_maxrss * 1024, replies.read()


def compare(work, count, options, folder):
    """Runs both in turn, and prints the figures of one process."""
    events, definitions, lines = work(count, random.Random(1))
    lines = "".join(line + "\n" for line in lines).encode()
    with open(f"{folder}/p.csp", "w", encoding="ascii") as file:
        file.write("channel %s\n" % ", ".join(events) + "".join("%s = %s\n" % (name, script(body)) for name, body in definitions))
    with open(f"{folder}/p.terms", "w", encoding="ascii") as file:
        file.write(" ".join(events) + "\n" + "".join("%s %s\n" % (name, words(body)) for name, body in definitions))
    calls = {"checked": [options.program, "check", f"{folder}/p.csp", "P"], "plain": [options.peer, f"{folder}/p.terms"]}
    times, replies, memory = {it: [] for it in calls}, {}, {}
    for turn in range(options.turns):
        for it in sorted(calls, reverse=bool(turn % 2)):
            *taken, memory[it], replies[it] = run(calls[it], lines, folder)
            times[it].append(taken)
    if replies["checked"] != replies["plain"]:
        sys.exit(f"{work.__name__}: the replies differ")
    for place, what in enumerate(("processor", "user", "clock")):
        ours, theirs = [[taken[place] for taken in times[it]] for it in ("checked", "plain")]
        ratio = statistics.median(other / max(one, 0.001) for one, other in zip(ours, theirs))
        print(f"{work.__name__}: {count} lines, by the {what}: checked {count / max(statistics.median(ours), 0.001):.0f} a second, "
              f"plain {count / max(statistics.median(theirs), 0.001):.0f}, ratio {ratio:.2f}", flush=True)
    print(f"{work.__name__}: peak memory: checked {memory['checked'] / 1e6:.0f} MB, plain {memory['plain'] / 1e6:.0f} MB", flush=True)


def growth(options, folder):
    """Prints how the cost of a line and the memory grow with the history."""
    events, definitions, _ = two(0, None)
    with open(f"{folder}/p.csp", "w", encoding="ascii") as file:
        file.write("channel %s\nP = %s\n" % (", ".join(events), script(definitions[0][1])))
    call = [options.program, "check", f"{folder}/p.csp", "P"]
    counts = 100_000, 900_000, 1_000_000
    parts = {count: [run(call, b"E a\nE b\n" * (count // 2), folder) for _ in range(options.turns)] for count in counts}
    time = {count: statistics.median(it[0] for it in runs) for count, runs in parts.items()}
    memory = {count: statistics.median(it[3] for it in runs) for count, runs in parts.items()}
    print(f"the last 100,000 lines over the first, by the processor: {(time[1_000_000] - time[900_000]) / time[100_000]:.2f}")
    print(f"memory of an entry: {(memory[1_000_000] - memory[100_000]) / 900_000:.0f} bytes, at the peak {memory[1_000_000] / 1e6:.0f} MB")


def main():
    parser = argparse.ArgumentParser(description=__doc__.split("\n")[0])
    parser.add_argument("program")
    parser.add_argument("peer")
    parser.add_argument("--turns", type=int, default=5)
    parser.add_argument("--scale", type=float, default=1.0, help="so many times the lines")
    parser.add_argument("--only", nargs="+", choices=[work.__name__ for work in WORK])
    options = parser.parse_args()
    with tempfile.TemporaryDirectory(dir="/dev/shm") as folder:
        for work, count in WORK.items():
            if not options.only or work.__name__ in options.only:
                compare(work, int(count * options.scale), options, folder)
        if not options.only or "two" in options.only:
            growth(options, folder)


main()
