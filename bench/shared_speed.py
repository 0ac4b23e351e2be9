#!/usr/bin/env python3
"""Reports a second through a `shared` session with 1, 4 and 16 threads, against a plain Rust program with a `Mutex` round the same work,
and how long a status takes while a sync of 5 ms is under way.

    shared_speed.py [--folder DIR] [--turns 9] [--reports 1000000]

A session has as many places as there are threads; the last rows are those of a session with 64 places, as the server's.

The program bench/shared_speed has to be proved to be built (its files end in .txt, since the gate takes a .rt file outside
of a crate for one that was forgotten). That is done in DIR, a copy of the crates that it stands on with their proved
libraries (crates/*/out/rlib, 3 GB; where one is missing or old, it is proved there anew). Without --folder it is a temporary folder, which is removed; a
folder that is kept serves again. Program and peer (shared_peer.rs) run in turn, and which one goes first changes with each turn. The peer
judges as the program does, by numbered sets of terms and remembered answers; the row `by a table` has a peer that judges by a table of two
states. A ratio is the peer's time
over the program's: above 1 the program is faster.
"""
import argparse
import os
import shutil
import statistics
import subprocess
import sys
import tempfile

HERE = os.path.dirname(os.path.abspath(__file__))
TOP = os.path.dirname(HERE)
NAME = "shared_speed"
STANDS_ON = ["alphabet", "disk", "journal", "memory_disks", "shared"]
STATUS_REPORTS = 200


def lines_of_crates():
    with open(os.path.join(TOP, "crates.txt"), encoding="utf-8") as file:
        for line in file:
            name, colon, rest = line.partition(":")
            if colon and not name.startswith("#"):
                yield name.split()[0], line, rest.split()


def below(names):
    """The project's crates that these stand on, with themselves."""
    crates = {name: rest for name, _, rest in lines_of_crates()}
    found, waiting = set(), list(names)
    while waiting:
        name = waiting.pop()
        if name in crates and name not in found:
            found.add(name)
            waiting += crates[name]
    return found


def copied(folder):
    """Copies what the program stands on, and the program. What is there with its libraries stays."""
    names = below(STANDS_ON)
    for name in names:
        to = os.path.join(folder, "crates", name)
        if not os.path.exists(to):
            shutil.copytree(os.path.join(TOP, "crates", name), to, symlinks=True, ignore=shutil.ignore_patterns("incremental"))
    to = os.path.join(folder, "crates", NAME)
    os.makedirs(to, exist_ok=True)
    for part in ("src", "proofs"):
        shutil.rmtree(os.path.join(to, part), ignore_errors=True)
        for at, _, files in os.walk(os.path.join(HERE, NAME, part)):
            folder_to = os.path.join(to, os.path.relpath(at, os.path.join(HERE, NAME)))
            os.makedirs(folder_to, exist_ok=True)
            for file in files:
                shutil.copy(os.path.join(at, file), os.path.join(folder_to, file.removesuffix(".txt")))
    with open(os.path.join(folder, "crates.txt"), "w", encoding="utf-8") as file:
        file.writelines(line for name, line, _ in lines_of_crates() if name in names)
        file.write("%s may_abort=2 may_wait=1: %s\n" % (NAME, " ".join(STANDS_ON)))
    shutil.copy(os.path.join(TOP, "HANDLES"), folder)
    return to


def built(folder):
    """The program and the peer."""
    crate, peer = copied(folder), os.path.join(folder, "shared_peer")
    subprocess.run(["rt", "run"], cwd=crate, stdin=subprocess.DEVNULL, check=True)
    subprocess.run(["rustc", "--edition", "2024", "-O", "-o", peer, os.path.join(HERE, "shared_peer.rs")], check=True)
    return os.path.join(crate, "out", NAME), peer


def measured(words, line):
    """The seconds of a run, how many reports there were, and the seconds of each status."""
    done = subprocess.run(words, input=line + "\n", text=True, check=True, capture_output=True)
    first, *looks = done.stdout.splitlines()
    nanos, judged, accepted = map(int, first.split())
    if judged != accepted:
        sys.exit("%s: of %d reports %d were accepted" % (words, judged, accepted))
    return nanos / 1e9, judged, [int(look) / 1e9 for look in looks]


def reports(program, peer, threads, places, each, turns):
    times = {"program": [], "numbers": [], "table": []}
    words = {"program": [program], "numbers": [peer, "numbers"], "table": [peer, "table"]}
    for turn in range(turns):
        for it in sorted(words, reverse=bool(turn % 2)):
            seconds, judged, _ = measured(words[it], "reports %d %d %d" % (threads, each, places))
            if judged != threads * each:
                sys.exit("%s judged %d reports" % (words[it], judged))
            times[it].append(seconds)
    ours = times.pop("program")
    for it, theirs in times.items():
        line = ("%2d threads, %2d places: program %8.0f reports a second, plain Rust %s %8.0f, ratio of the medians %.2f, of the shortest %.2f, "
                "median of the pairs %.2f")
        print(line % (
            threads, places, threads * each / statistics.median(ours), {"numbers": "by numbered sets", "table": "by a table      "}[it],
            threads * each / statistics.median(theirs), statistics.median(theirs) / statistics.median(ours), min(theirs) / min(ours),
            statistics.median(b / a for a, b in zip(ours, theirs))), flush=True)


def statuses(who, words):
    _, _, looks = measured(words, "status %d" % STATUS_REPORTS)
    looks.sort()
    part = lambda share: looks[min(len(looks) - 1, int(len(looks) * share))] * 1e6
    print("status while a sync of 5 ms is under way, %s: %d looks, 50th percentile %.1f microseconds, 90th %.1f, 99th %.1f, longest %.1f" % (
        who, len(looks), part(0.5), part(0.9), part(0.99), looks[-1] * 1e6), flush=True)


def main():
    parser = argparse.ArgumentParser(description=__doc__.split("\n")[0])
    parser.add_argument("--folder")
    parser.add_argument("--turns", type=int, default=9)
    parser.add_argument("--reports", type=int, default=1_000_000)
    options = parser.parse_args()
    with tempfile.TemporaryDirectory(prefix="shared-speed-") as temporary:
        folder = os.path.abspath(options.folder or temporary)
        os.makedirs(folder, exist_ok=True)
        program, peer = built(folder)
        for threads, places in ((1, 1), (4, 4), (16, 16), (1, 64), (16, 64)):
            reports(program, peer, threads, places, options.reports // threads, options.turns)
        for _ in range(3):
            statuses("program", [program])
        statuses("plain Rust, which takes the lock", [peer, "numbers"])


main()
