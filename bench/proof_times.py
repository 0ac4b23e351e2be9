#!/usr/bin/env python3
"""Checks crates from nothing, and lists the functions whose proofs take long, the longest first.

    bench/proof_times.py [--least SECONDS] [--kinds | --files] NAME ..

It empties crates/NAME/out/incremental, runs `rt check --jobs 1` there, and looks several times a second which modules the
checker has written since the last look: they share the processor time that it has taken since then, so the figures are
right on a busy machine too, but for small modules that come together. `Proof` is what the automatic search takes for the
goals that have no answer, `Answers` what the answers written by hand take, `Lts` the steps (bench/steps.py has their size),
`Tie` what ties them to the text; `-` stands for a file of lemmas or definitions, and the first of them holds the start of the
check. With --kinds it lists what all modules of each kind took, with --files what those of each source file took. The
status is that of the last check that failed. Linux alone.
"""
import argparse
import collections
import os
import re
import shutil
import subprocess
import sys
import time

CRATES = os.path.join(os.path.dirname(os.path.dirname(os.path.abspath(__file__))), "crates")
LEAST = 3.0
LOOK = 0.3  # seconds from one look to the next
TICKS = os.sysconf("SC_CLK_TCK")


def checker_of(folder):
    """The process that checks the crate in this folder, if it has begun."""
    name = os.path.basename(folder)
    for number in filter(str.isdigit, os.listdir("/proc")):
        try:
            words = open("/proc/%s/cmdline" % number, "rb").read().decode(errors="replace").split("\0")
            here = os.path.realpath(os.readlink("/proc/%s/cwd" % number)) == folder
        except OSError:
            continue
        if here and os.path.basename(words[0]) == "rattle" and words[2:4] == ["--crate-name", name]:
            return number
    return None


def processor_seconds(number):
    """What the process has taken; None when it has ended."""
    try:
        with open("/proc/%s/stat" % number) as file:
            fields = file.read().rpartition(")")[2].split()
    except OSError:
        return None
    return (int(fields[11]) + int(fields[12])) / TICKS


def module_of(file):
    """The function, and which of its modules the file holds; for lemmas and definitions their name and '-'."""
    name = file[: -len(".oantt")].replace(".decls", "")
    match = re.match(r"Rattle-\w+-proofs\.(.*)\.(Lts|[A-Z][\w]*)(-[\w-]+)?$", name)
    if match and match[1][0].islower():
        return match[1] + (match[3] or "").replace("-", "::", 1), match[2]
    return name.removeprefix("Rattle-"), "-"


class Watch:
    """What was seen of the files that a check writes."""

    def __init__(self, folder):
        self.folder = os.path.join(folder, "out", "incremental")
        self.seen = set()
        self.last = 0.0
        self.times = collections.Counter()

    def look(self, seconds):
        """Shares the seconds since the last look among the modules that are new."""
        new = []
        for _, _, files in os.walk(self.folder):
            new += [file for file in files if file.endswith(".oantt") and file not in self.seen]
        for file in new:
            self.seen.add(file)
            self.times[module_of(file)] += (seconds - self.last) / len(new)
        if new:
            self.last = seconds


def check(crate):
    """Checks the crate from nothing: the status, and what each module took in processor seconds."""
    folder = os.path.realpath(os.path.join(CRATES, crate))
    watch = Watch(folder)
    shutil.rmtree(watch.folder, ignore_errors=True)
    os.makedirs(watch.folder)  # an empty one, or `rt` would begin with what another checkout kept
    running = subprocess.Popen(["rt", "check", "--jobs", "1"], cwd=folder, stdout=subprocess.DEVNULL)
    number = None
    while running.poll() is None:
        time.sleep(LOOK)
        seconds = processor_seconds(number) if number else None
        if seconds is None:  # it hasn't begun, or it was a short one, which `rt` runs ahead of the check
            number, watch.last = checker_of(folder), 0.0
        else:
            watch.look(seconds)
    return running.returncode, watch.times


def sums(times, which):
    """The seconds of what `which` says of a function and its module, the largest first."""
    found = collections.Counter()
    for (function, part), seconds in times.items():
        found[which(function, part)] += seconds
    return found.most_common()


def main():
    parser = argparse.ArgumentParser(description=__doc__.split("\n")[0])
    parser.add_argument("--least", type=float, default=LEAST, help="only what takes more seconds than this")
    parser.add_argument("--kinds", action="store_true", help="list the kinds of modules, not functions")
    parser.add_argument("--files", action="store_true", help="list source files, not functions")
    parser.add_argument("crates", nargs="+")
    options = parser.parse_args()
    failed = 0
    for crate in options.crates:
        status, times = check(crate)
        failed = status or failed
        print("%s: %d modules, %.0f seconds%s" % (crate, len(times), sum(times.values()), ", and it isn't proved" if status else ""))
        if options.kinds:
            rows = sums(times, lambda function, part: part)
        elif options.files:
            rows = sums(times, lambda function, part: "-" if part == "-" else function.split(".")[0])
        else:
            rows = [("%-10s %s" % (part, function), seconds) for (function, part), seconds in times.most_common()]
        for name, seconds in rows:
            if seconds > options.least:
                print("%8.1f  %s" % (seconds, name))
    return failed


if __name__ == "__main__":
    sys.exit(main())
