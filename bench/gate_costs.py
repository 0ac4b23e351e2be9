#!/usr/bin/env python3
"""Runs a command, and prints what each crate's checks below it took: processor seconds, and the peak memory of a process.

    bench/gate_costs.py [--table FILE] [--csv VERSION MACHINE LOAD] COMMAND ..

For example `bench/gate_costs.py --table costs.md .ci/run`. With --csv lines for a file of bench/results follow the table.

Once a second it looks at the checker's processes among the command's children (Linux alone). A check that runs in a
temporary folder is one of a wrong body; every other one counts as proof and tests, but for those of changed programs (a
variant, a body that rows have to refuse, first turns), which don't count. A check by two jobs leaves much to processes
of its own, whose time is in its figure once they have ended. What a process takes after the last look at it is missing,
so a crate's figure is up to a second too small for each process. The status is the command's.
"""
import argparse
import collections
import csv
import io
import os
import resource
import subprocess
import sys
import time

# What the folders are called in which wrong bodies are checked, by `rt ci` and by tests/wrong_bodies.py.
WRONG = ("rt-edit-", "wrong-")
# What the folders are called in which tests/variant.py, tests/planted.py and tests/first_turns.py build.
CHANGED = ("/cspwatch-variants/", "/planted-", "/turns-")
TICKS = os.sysconf("SC_CLK_TCK")
PAGE = os.sysconf("SC_PAGE_SIZE")


def stat_of(number):
    """The parent, the processor seconds, with those of its children that have ended, and the memory in bytes of a process."""
    with open("/proc/%s/stat" % number) as file:
        fields = file.read().rpartition(")")[2].split()
    return int(fields[1]), sum(map(int, fields[11:15])) / TICKS, int(fields[21]) * PAGE


def words_of(number):
    with open("/proc/%s/cmdline" % number, "rb") as file:
        return file.read().decode(errors="replace").split("\0")


def name_of(number):
    with open("/proc/%s/comm" % number) as file:
        return file.read().strip()


def check_of(number):
    """The crate that a process checks or builds and whether it is one of a wrong body; None for another process, for one that
    a check began, and for a changed program."""
    words = words_of(number)
    if "--crate-name" not in words[:-1] or os.path.basename(words[0]) != "rattle" or name_of(number) != "rattle":
        return None
    crate = words[words.index("--crate-name") + 1]
    folder = os.readlink("/proc/%s/cwd" % number)
    if any(mark in word for mark in CHANGED for word in [folder, *words]):
        return None
    return crate, os.path.basename(folder).startswith(WRONG)


def look(root, seconds, memory):
    """Notes what each check below the process with this number has taken so far."""
    found, parents = {}, {}
    for number in filter(str.isdigit, os.listdir("/proc")):
        try:
            parents[int(number)], *found[int(number)] = stat_of(number)
        except (OSError, IndexError):
            continue
    for number in found:
        above = number
        while above in parents and above != root:
            above = parents[above]
        if above != root:
            continue
        try:
            check = check_of(number)
        except OSError:
            continue
        if check:
            seconds[check][number] = found[number][0]
            memory[check] = max(memory[check], found[number][1])


def table(seconds, memory):
    sums = {check: sum(taken.values()) for check, taken in seconds.items()}
    yield "| Crate | Processor seconds, proof and tests | Peak memory of a process | Wrong bodies, seconds |"
    yield "|---|---|---|---|"
    for crate in sorted({crate for crate, _ in sums}):
        proof, edits = (crate, False), (crate, True)
        yield "| `%s` | %.0f | %.1f GB | %.0f |" % (crate, sums.get(proof, 0), memory[proof] / 1e9, sums.get(edits, 0))
    whole = [sum(it for (_, is_edit), it in sums.items() if is_edit == wanted) for wanted in (False, True)]
    yield "| all | %.0f | | %.0f |" % tuple(whole)


def lines_of_results(seconds, memory, command, version, machine, load):
    """The same figures as lines for a file of bench/results."""
    sums = {check: sum(taken.values()) for check, taken in seconds.items()}
    figures = [("crates / `%s` / proof and rows" % crate, "%.0f" % taken, "s") for (crate, is_edit), taken in sorted(sums.items()) if not is_edit]
    figures.append(("wrong bodies / all / processor time", "%.0f" % sum(taken for (_, is_edit), taken in sums.items() if is_edit), "s"))
    figures.append(("gate more / the most memory of a process / peak memory", "%.1f" % (max(memory.values(), default=0) / 1e9), "GB"))
    text = io.StringIO()
    for subject, figure, unit in figures:
        csv.writer(text, lineterminator="\n").writerow([subject, "bench/gate_costs.py " + " ".join(command), version, figure, unit, machine, load])
    return text.getvalue().splitlines()


def main():
    parser = argparse.ArgumentParser(description=__doc__.split("\n")[0])
    parser.add_argument("--table", help="the file for the table; standard error where it is left out")
    parser.add_argument("--csv", nargs=3, metavar=("VERSION", "MACHINE", "LOAD"), help="lines for a file of bench/results after the table")
    parser.add_argument("command", nargs=argparse.REMAINDER)
    options = parser.parse_args()
    seconds, memory = collections.defaultdict(dict), collections.defaultdict(int)
    began = time.time()
    with subprocess.Popen(options.command) as child:
        while child.poll() is None:
            look(child.pid, seconds, memory)
            time.sleep(1)
    used = resource.getrusage(resource.RUSAGE_CHILDREN)
    minutes = (time.time() - began) / 60, (used.ru_utime + used.ru_stime) / 60
    lines = [*table(seconds, memory), "", "%.1f minutes by the clock, %.1f of processor time" % minutes]
    if options.csv:
        lines += ["", *lines_of_results(seconds, memory, options.command, *options.csv)]
    with open(options.table, "w") if options.table else os.fdopen(os.dup(2), "w") as file:
        file.write("\n".join(lines) + "\n")
    return child.returncode


if __name__ == "__main__":
    sys.exit(main())
