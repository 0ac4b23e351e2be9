#!/usr/bin/env python3
"""Compares the clauses of the public calls of two revisions: what is gone, what asks for more, and what is new.

    bench/clauses.py OLD [NEW]

OLD and NEW are revisions; without NEW it is the tree as it stands. A call is found again by its type and name, also in another crate.
It prints a line for each call that is gone, `requires` that is new and `ensures` that is gone, by its name (`_` for one without), and
then how many there are of each.
"""
import collections
import os
import subprocess
import sys
import tempfile

sys.dont_write_bytecode = True
TOP = os.path.dirname(os.path.dirname(os.path.abspath(__file__)))
sys.path.insert(0, os.path.join(TOP, "tests"))

import definition_graph  # noqa: E402
import public_calls  # noqa: E402


def calls_at(root):
    """By type and name, the calls of this tree, in their order; of calls of one name in several crates, each."""
    definition_graph.ROOT = public_calls.ROOT = root
    definition_graph.CRATES = public_calls.CRATES = os.path.join(root, "crates")
    definition_graph.sources.cache_clear()
    found = collections.defaultdict(list)
    for crate in public_calls.crates():
        for call in public_calls.calls_of(crate):
            if call.public:
                found[call.name].append(call)
    return found


def unpacked(revision, folder):
    """The tree of this revision, in the folder."""
    archive = subprocess.run(["git", "archive", revision, "crates", "crates.txt"], cwd=TOP, stdout=subprocess.PIPE, check=True)
    subprocess.run(["tar", "-x", "-C", folder], input=archive.stdout, check=True)
    return folder


def pairs_of(old, new):
    """Each call of the old tree, with the one that it is in the new: that of its crate, else the only one of its name there."""
    for name, calls in old.items():
        there = new.get(name, [])
        for call in calls:
            same = [other for other in there if other.crate == call.crate]
            moved = [other for other in there if all(other.crate != known.crate for known in calls)]
            yield call, (same or (moved if len(moved) == 1 else []) or [None])[0]


def gone_of(call, other, kind, turned):
    """The names of the clauses of this kind that only the one call has: the old one, or, turned round, the new one."""
    one, two = (other, call) if turned else (call, other)
    left = public_calls.clause_names(two, kind)
    return [name or "_" for name in public_calls.clause_names(one, kind) if name not in left]


def main():
    if len(sys.argv) not in (2, 3):
        raise SystemExit(__doc__)
    with tempfile.TemporaryDirectory() as before, tempfile.TemporaryDirectory() as after:
        old = calls_at(unpacked(sys.argv[1], before))
        new = calls_at(unpacked(sys.argv[2], after) if len(sys.argv) == 3 else TOP)
    counts = collections.Counter()
    kept = set()
    for call, other in pairs_of(old, new):
        path = "%s::%s" % (call.crate, call.name)
        if other is None:
            print("%s: gone, with %s" % (path, ", ".join(name or "_" for name in public_calls.clause_names(call)) or "no clause"))
            counts["calls gone"] += 1
            continue
        kept.add((other.crate, other.name))
        for words, kind, turned in (("ensures gone", "ensures", False), ("requires new", "requires", True)):
            for name in gone_of(call, other, kind, turned):
                print("%s: %s: %s" % (path, words, name))
                counts[words] += 1
    counts["calls new"] = sum((call.crate, call.name) not in kept for calls in new.values() for call in calls)
    counts["calls before"], counts["calls now"] = (sum(map(len, tree.values())) for tree in (old, new))
    print(", ".join("%s %d" % (words, counts[words]) for words in ("calls before", "calls now", "calls new", "calls gone", "ensures gone", "requires new")))


if __name__ == "__main__":
    main()
