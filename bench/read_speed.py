#!/usr/bin/env python3
"""Times `cspwatch print` on scripts of 65,536 bytes at most, one of each kind, and on scripts that end in a fault.

    read_speed.py PROGRAM [--before PROGRAM] [--turns N] [--only NAME ..] [--processor]

Each script is printed N times (9 where it isn't said); which program goes first changes with each turn. It reports the shortest
time and the median in milliseconds, and with an earlier program beside them the median of the ratios, pair by pair: the
program's time over the earlier program's. A script that they answer differently has no ratio. With --processor the times are
those that the processor spent on the program, in place of those of the clock: for a machine that does other work.
"""
import argparse
import os
import resource
import statistics
import subprocess
import sys
import tempfile
import time

BYTES = 65_536


def filled(head, line, tail=""):
    """Lines for 0, 1, 2, .. as long as the text stays within the limit."""
    out, size, number = [head], len(head) + len(tail), 0
    while True:
        text = line(number)
        if size + len(text) > BYTES:
            return "".join(out) + tail
        out.append(text)
        size += len(text)
        number += 1


def definitions():
    """Each definition leads to the next one, and the last one to the first."""
    text = filled("channel a, b\n", lambda n: "P%d = a -> P%d\n" % (n, n + 1), "P = P0\n")
    lines = text.split("\n")
    lines[-3] = lines[-3].split(" -> ")[0] + " -> P0"
    return "\n".join(lines)


def names():
    return filled("N0 = 1\n", lambda n: "N%d = N%d %% 7 + 1\n" % (n + 1, n), "channel c : {0..9}\nP = c.N9 -> STOP\n")


def names_turned_round():
    """The same names, each used before its definition."""
    lines = names().split("\n")
    return "\n".join(lines[-4::-1] + lines[-3:])


def sets_of_values():
    return filled("S0 = {0..9}\n", lambda n: "S%d = union(diff(S%d, {1}), {1})\n" % (n + 1, n), "channel c : S9\nP = c?x -> STOP\n")


def sets_of_events():
    return filled("channel c : {0..9}\nA0 = {|c|}\n", lambda n: "A%d = union(diff(A%d, {c.1}), {c.1})\n" % (n + 1, n), "P = STOP \\ A9\n")


def long_choice():
    """Halves by brackets, so that the body isn't deep."""
    def choice(depth):
        return "a -> SKIP" if depth == 0 else "(%s [] %s)" % (choice(depth - 1), choice(depth - 1))
    return "channel a, b\nP = %s\n" % choice(12)


def inputs():
    return "channel c : {0..63}\nP = STOP%s\n" % "".join("\n [] c?x -> c.((x + %d) %% 64) -> STOP" % n for n in range(120))


def printed():
    """The form that `print` writes: 2,700 definitions over 256 events."""
    return "channel c : {%s}\n" % ", ".join(map(str, range(256))) + "".join("P%d = (c.%d -> P%d)\n" % (n, n % 256, (n + 1) % 2_700) for n in range(2_700))


def instances():
    """32,766 instances of one definition with a parameter, 65,535 nodes in all."""
    return "channel a\nQ(n) = if n < 32766 then a -> Q(n + 1) else STOP\nP = Q(0)\n"


def pairs():
    return "channel c : {0..9}.{0..9}\nQ(x, y) = c.(x % 10).(y % 10) -> Q((x + 1) % 180, (y + x) % 170)\nP = Q(1, 2)\n"


def replicated():
    return "P = ||| x:{0..32767} @ STOP\n"


def generators():
    return "P = ||| %s @ STOP\n" % ", ".join("x%d:{0..1}" % n for n in range(14))


def without_end():
    return "channel a\nQ(n) = a -> Q(n + 1)\nP = Q(0)\n"


def without_events():
    return "Q(n) = Q(n + 1)\nP = Q(0)\n"


def doubled():
    return "Q(n) = Q(n + 1) ||| Q(n + 2)\nP = Q(0)\n"


def empty_last_set():
    return "P = [] x:{0..65535}, y:{0..65535}, z:{} @ STOP\n"


KINDS = [("definitions", definitions), ("names", names), ("names turned round", names_turned_round), ("sets of values", sets_of_values),
         ("sets of events", sets_of_events),
         ("a wide body", long_choice), ("inputs", inputs), ("printed form", printed), ("instances", instances), ("instances of two", pairs),
         ("replicated", replicated),
         ("generators", generators), ("without end", without_end), ("without events", without_events), ("doubled", doubled),
         ("an empty last set", empty_last_set)]


def timed(program, path, root, processor):
    start, before = time.perf_counter(), resource.getrusage(resource.RUSAGE_CHILDREN)
    done = subprocess.run([program, "print", path, root], stdin=subprocess.DEVNULL, stdout=subprocess.DEVNULL, stderr=subprocess.PIPE)
    took, after = time.perf_counter() - start, resource.getrusage(resource.RUSAGE_CHILDREN)
    if processor:
        took = after.ru_utime + after.ru_stime - before.ru_utime - before.ru_stime
    return took, done.returncode, done.stderr.decode("latin-1").strip().split(": ")[-1]


def main():
    words = argparse.ArgumentParser(description=__doc__, formatter_class=argparse.RawDescriptionHelpFormatter)
    words.add_argument("program")
    words.add_argument("--before")
    words.add_argument("--turns", type=int, default=9)
    words.add_argument("--only", nargs="*")
    words.add_argument("--processor", action="store_true")
    given = words.parse_args()
    print("%-20s %7s %9s %9s   %s" % ("script", "bytes", "shortest", "median", "answer"))
    with tempfile.TemporaryDirectory(prefix="reading-") as folder:
        for name, make in KINDS:
            if given.only and name not in given.only:
                continue
            text = make().encode("ascii")
            assert len(text) <= BYTES, (name, len(text))
            path = os.path.join(folder, "p.csp")
            with open(path, "wb") as file:
                file.write(text)
            own, ratios, answer = [], [], ""
            for turn in range(given.turns):
                programs = [given.program] + ([given.before] if given.before else [])
                times = {}
                for program in programs if turn % 2 == 0 else reversed(programs):
                    took, status, fault = timed(program, path, "P0" if name == "printed form" else "P", given.processor)
                    times[program] = (took, status, fault)
                took, status, fault = times[given.program]
                own.append(took)
                answer = fault or "printed"
                if given.before and times[given.before][1:] == times[given.program][1:]:
                    ratios.append(times[given.before][0] / took)
            ratio = "   %.2f of the earlier time" % (1 / statistics.median(ratios)) if ratios else ""
            print("%-20s %7d %9.1f %9.1f   %s%s" % (name, len(text), min(own) * 1000, statistics.median(own) * 1000, answer, ratio), flush=True)
    return 0


if __name__ == "__main__":
    sys.exit(main())
