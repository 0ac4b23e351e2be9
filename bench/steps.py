#!/usr/bin/env python3
"""Lists the functions whose steps are large, the largest first.

    bench/steps.py [--least MB] [NAME ..]

For each function the checker makes a module of all its steps; how large that is tells what the function takes of a check
(docs/GATE.md). It is read from crates/NAME/out/incremental, which `rt check` or `rt check --test` leaves; without a NAME
all crates are read. The status is 1 where a function has more than the 3 MB that new code may have.
"""
import argparse
import os
import re
import sys

CRATES = os.path.join(os.path.dirname(os.path.dirname(os.path.abspath(__file__))), "crates")
MOST = 3.0


def steps_of(crate):
    """Each function's name, and the megabytes of its steps."""
    for folder, _, files in os.walk(os.path.join(CRATES, crate, "out", "incremental")):
        for name in files:
            # A function that calls itself through others stands in the module of its cycle: CYCLE.Lts-FUNCTION.
            match = re.match(r"Rattle-\w+-proofs\.(.*)\.Lts(-[\w-]+)?\.oantt$", name)
            if match:
                yield match[1] + (match[2] or "").replace("-", "::", 1), os.stat(os.path.join(folder, name)).st_size / 1e6


def main():
    parser = argparse.ArgumentParser(description=__doc__.split("\n")[0])
    parser.add_argument("--least", type=float, default=MOST, help="only functions with more megabytes than this")
    parser.add_argument("crates", nargs="*")
    options = parser.parse_args()
    largest = 0.0
    for crate in options.crates or sorted(os.listdir(CRATES)):
        found = sorted(steps_of(crate), key=lambda it: -it[1])
        if not found:
            continue
        largest = max(largest, found[0][1])
        print("%s: %d functions, %.0f MB" % (crate, len(found), sum(size for _, size in found)))
        for function, size in found:
            if size > options.least:
                print("%8.1f MB  %s" % (size, function))
    return 1 if largest > MOST else 0


if __name__ == "__main__":
    sys.exit(main())
