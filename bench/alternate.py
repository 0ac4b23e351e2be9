#!/usr/bin/env python3
"""Runs two programs in turn on the same lines, and tells their times and ratios.

alternate.py PROVED PLAIN LINES TURNS: both read the file LINES, and write into a file beside it, into a pipe to `cat`, and into
/dev/null. Which one goes first changes with each turn. A ratio is PLAIN's time over PROVED's.
"""
import os
import statistics
import subprocess
import sys
import time

TIMES = ("wall", "user", "system", "user + system")


def run(program, lines, into):
    """The times of one run, in the order of TIMES, in seconds."""
    reader = None
    source = os.open(lines, os.O_RDONLY)
    if into == "pipe":
        end, sink = os.pipe()
        reader = subprocess.Popen(["cat"], stdin=end, stdout=subprocess.DEVNULL)
        os.close(end)
    else:
        path = os.devnull if into == "null" else lines + ".out"
        sink = os.open(path, os.O_WRONLY | os.O_CREAT | os.O_TRUNC)
    start = time.perf_counter()
    child = subprocess.Popen([program], stdin=source, stdout=sink)
    os.close(sink)
    os.close(source)
    _, status, used = os.wait4(child.pid, 0)
    wall = time.perf_counter() - start
    child.returncode = status
    if status != 0:
        sys.exit(f"{program} ended with {status}")
    if reader:
        reader.wait()
    return wall, used.ru_utime, used.ru_stime, used.ru_utime + used.ru_stime


def main():
    proved, plain, lines, turns = sys.argv[1], sys.argv[2], sys.argv[3], int(sys.argv[4])
    for into in ("file", "pipe", "null"):
        runs = {proved: [], plain: []}
        for turn in range(turns):
            for program in (proved, plain) if turn % 2 else (plain, proved):
                runs[program].append(run(program, lines, into))
        for place, name in enumerate(TIMES):
            ours = [times[place] for times in runs[proved]]
            theirs = [times[place] for times in runs[plain]]
            pairs = statistics.median(b / a for a, b in zip(ours, theirs) if a > 0)
            print(
                f"{into:5} {name:14} proved {min(ours):.3f} (median {statistics.median(ours):.3f})"
                f"  plain {min(theirs):.3f} ({statistics.median(theirs):.3f})"
                f"  ratio of the shortest {min(theirs) / max(min(ours), 1e-6):.2f}, of the medians"
                f" {statistics.median(theirs) / max(statistics.median(ours), 1e-6):.2f}, median of the pairs {pairs:.2f}",
                flush=True,
            )


main()
