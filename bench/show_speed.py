#!/usr/bin/env python3
"""How much longer `cspwatch show` takes for a journal than `replay`: the processor time of each, its output dropped.

    show_speed.py [--program FILE] [--entries N] [--turns N] [--csv VERSION MACHINE LOAD]

Each journal has 1,000,000 entries of one seat, where --entries doesn't say another number, or a tenth of that where hardly a set
of states comes twice, and is in memory. `serve` makes it. The calls take turns; a figure is the median of three, where --turns
doesn't say another number: seconds for `replay`, and for the others the factor to it. Measure with nothing else on the machine.
With --csv the figures are printed as lines for a file of bench/results.
"""
import argparse
import csv
import itertools
import os
import random
import shutil
import socket
import statistics
import subprocess
import sys
import tempfile
import threading

HERE = os.path.dirname(os.path.abspath(__file__))
PROGRAM = os.path.join(os.path.dirname(HERE), "crates", "cspwatch", "out", "cspwatch")
CALLS = [("replay", ["replay"]), ("show", ["show"]), ("--coverage", ["show", "--coverage"]),
         ("--format json --coverage", ["show", "--format", "json", "--coverage"])]
TABLE = "show"
READ = 1 << 20
"""The bytes of replies that are read at a time."""

VENDING = "channel coin, tea, milk\nP = coin -> (tea -> P |~| milk -> P)\n"
NUMBERS = "channel c : {0..255}\nP = c?x -> P\n"
SIXTEEN = "channel e : {0..15}\nP = |~| x:{0..15} @ e.x -> P\n"
OTHERS = "channel c : {0..253}\nchannel d\nP = c?x -> P\nQ = d -> Q\n"
STATES = "channel c : {0..252}\nchannel d\nP = c?x -> Q\nQ = c?x -> P\nR = d -> R\n"
COUNTERS = ("channel up, down : {0..2}\nP = ||| n:{0..2} @ Zero(n)\nZero(n) = up.n -> (More(n) ; Zero(n))\n"
            "More(n) = down.n -> SKIP [] up.n -> (More(n) ; More(n))\n")
MOST = 300
"""How far a counter walks."""


def walk():
    """Reports of three counters that walk to places by chance, and on: hardly a set of states comes twice."""
    dice, places, targets = random.Random(1), [0] * 3, [0] * 3
    while True:
        while places == targets:
            targets = [dice.randrange(MOST + 1) for _ in range(3)]
        at = dice.choice([at for at in range(3) if places[at] != targets[at]])
        way = 1 if places[at] < targets[at] else -1
        places[at] += way
        yield "E %s.%d" % ("up" if way == 1 else "down", at)


# What a row is called, the script of the process P, and the reports, which come again, or come from a walk.
ROWS = [
    ("`P = coin -> (tea -> P \\|~\\| milk -> P)`, none rejected", VENDING, ["E coin", "E tea", "E coin", "E milk"]),
    ("all rejected", VENDING, ["E tea"]),
    ("`c?x -> P` with 256 events, none rejected", NUMBERS, ["E c.%d" % number for number in range(256)]),
    ("every second a rejected refusal with its 16 acceptances", SIXTEEN, ["R " + " ".join("e.%d" % number for number in range(16)), "E e.3"]),
    ("each an event rejected where 254 could come", OTHERS, ["E d"]),
    ("two states in turn with 253 events, an event rejected in each", STATES, ["E d", "E c.7"]),
    ("three counters up to 300, none rejected", COUNTERS, walk),
    ("the same in parts (`--large`)", COUNTERS, walk),
]


def sent(connection, lines):
    """Sends the lines, and then no more."""
    connection.sendall(lines)
    connection.shutdown(socket.SHUT_WR)


def make_journal(program, folder, script, reports, entries, large):
    """Has a server judge so many of the reports, and leaves its journal in the folder."""
    shutil.rmtree(folder)
    os.mkdir(folder)
    with open(os.path.join(folder, "p.csp"), "w", encoding="ascii") as file:
        file.write(script)
    lines = "".join(report + "\n" for report in itertools.islice(reports, entries)).encode("ascii")
    words = [program, "serve", "p.csp", "P", "run.journal", "--listen", "127.0.0.1:0", "--connections", "1", *["--large"] * large]
    server = subprocess.Popen(words, cwd=folder, stdout=subprocess.PIPE)
    host, _, port = server.stdout.readline().decode("ascii").split()[1].rpartition(":")
    with socket.create_connection((host, int(port))) as connection:
        sender = threading.Thread(target=sent, args=(connection, lines))
        sender.start()
        while connection.recv(READ):
            pass
        sender.join()
    server.stdout.read()
    if server.wait() not in (0, 1):
        raise SystemExit("serve ended with status %d" % server.returncode)


def seconds_of(program, folder, words):
    """The processor seconds of a call on the journal."""
    child = subprocess.Popen([program, *words, "run.journal"], cwd=folder, stdout=subprocess.DEVNULL)
    _, status, used = os.wait4(child.pid, 0)
    child.returncode = os.waitstatus_to_exitcode(status)
    if child.returncode not in (0, 1):
        raise SystemExit("%s ended with status %d" % (" ".join(words), child.returncode))
    return used.ru_utime + used.ru_stime


def figures_of(program, folder, turns):
    """The median of the seconds of `replay`, and of each other call the factor to it."""
    times = {name: [] for name, _ in CALLS}
    for _ in range(turns):
        for name, words in CALLS:
            times[name].append(seconds_of(program, folder, words))
    medians = {name: statistics.median(found) for name, found in times.items()}
    return {name: median if name == "replay" else median / medians["replay"] for name, median in medians.items()}


def main():
    parser = argparse.ArgumentParser(description=__doc__.split("\n")[0])
    parser.add_argument("--program", default=PROGRAM)
    parser.add_argument("--entries", type=int, default=1_000_000)
    parser.add_argument("--turns", type=int, default=3)
    parser.add_argument("--csv", nargs=3, metavar=("VERSION", "MACHINE", "LOAD"))
    options = parser.parse_args()
    program, out = os.path.abspath(options.program), csv.writer(sys.stdout, lineterminator="\n")
    with tempfile.TemporaryDirectory(prefix="show-speed-", dir="/dev/shm") as folder:
        for row, script, reports in ROWS:
            found = reports() if callable(reports) else itertools.cycle(reports)
            entries = options.entries // 10 if callable(reports) else options.entries
            make_journal(program, folder, script, found, entries, "--large" in row)
            figures = figures_of(program, folder, options.turns)
            if not options.csv:
                print("%s: %s" % (row.replace("\\", ""), ", ".join("%s %.2f" % it for it in figures.items())))
                continue
            version, machine, load = options.csv
            for name, figure in figures.items():
                out.writerow(["%s / %s / `%s`" % (TABLE, row, name), "cspwatch", version, "%.2f" % figure, "s" if name == "replay" else "ratio", machine, load])


if __name__ == "__main__":
    main()
