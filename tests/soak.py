#!/usr/bin/env python3
"""A service for an hour: components that come and go, a server that is killed, and each report judged once.

    tests/soak.py [--program FILE] [--large] [--minutes 60] [--components 16] [--pause 0.05] [--kills 20] [--seed 1] [--folder DIR]

Each component is a seat by number, and reports one event or refusal after the other, as fast as the pause lets it. At random it
loses its connection, with a report on its way or without, and comes back; the server is killed (signal 9) so many times an hour, and
started again on the same journal, with --large in parts. In the end the journal is read, and it is checked that
- the entries of each seat are just its reports, in their order, each once;
- each reply was the entry's place and verdict; where a component came back it was answered how many entries it has;
- each entry has the verdict of the process after the accepted events before it;
- `replay` agrees.

The last line is `N passed, M failed`.
"""
import argparse
import itertools
import os
import random
import subprocess
import sys
import tempfile
import threading
import time

sys.dont_write_bytecode = True
HERE = os.path.dirname(os.path.abspath(__file__))
sys.path.insert(0, os.path.join(os.path.dirname(HERE), "clients", "python"))

from cspwatch_client import CspwatchError, ReconnectingClient, VerdictLost  # noqa: E402
from stress import NAMES, SCRIPT, History  # noqa: E402

PROGRAM = os.path.join(os.path.dirname(HERE), "crates", "cspwatch", "out", "cspwatch")
PATIENCE = 60
LOSSES = 0.01
"""How often a component loses its connection, of its reports."""

MOST = 1_000_000
"""How many reports a history takes."""


def a_report(rng):
    """A report as its kind and its names."""
    if rng.random() < 0.7:
        return "E", [rng.choice(NAMES)]
    return "R", rng.sample(NAMES, rng.randint(0, len(NAMES)))


class Losing(ReconnectingClient):
    """A client whose connection can be lost."""

    def lose(self, kind, names):
        """Ends the connection without a word; where there is a report, just after it was sent."""
        if kind is not None:
            self._send(" ".join([kind] + names).encode())
        self._drop()


class Component(threading.Thread):
    """A component: what it reported, and the places and verdicts of which it was told."""

    def __init__(self, run, seat, seed):
        super().__init__(daemon=True)
        self.run_of, self.seat, self.rng = run, seat, random.Random(seed)
        self.reports, self.told, self.trouble = [], {}, None
        self.losses = self.lost_verdicts = 0

    def connected(self):
        client = Losing(self.run_of.address, self.seat, timeout=30, patience=PATIENCE)
        if client.judged not in (len(self.reports) - 1, len(self.reports)):
            raise ValueError("the server knows %d reports, and %d were sent" % (client.judged, len(self.reports)))
        del self.reports[client.judged:]
        return client

    def report(self, client):
        kind, names = a_report(self.rng)
        self.reports.append((kind, names))
        if self.rng.random() < LOSSES:
            self.losses += 1
            client.lose(kind, names)
            return self.connected()
        try:
            verdict = client.event(names[0]) if kind == "E" else client.refusal(names)
            self.told[len(self.reports)] = verdict.place, verdict.accepted
        except VerdictLost:
            self.lost_verdicts += 1
        return client

    def run(self):
        try:
            client = self.connected()
            while not self.run_of.is_over():
                client = self.report(client)
                time.sleep(self.rng.random() * 2 * self.run_of.options.pause)
            client.close()
        except (CspwatchError, OSError, ValueError) as error:
            self.trouble = "%s: %s" % (type(error).__name__, error)


class Run:
    """A service, its components, and what kills it."""

    def __init__(self, options, folder):
        self.options, self.folder, self.address = options, folder, "127.0.0.1:0"
        self.rng = random.Random(options.seed)
        self.end = time.monotonic() + 60 * options.minutes
        self.kills = 0
        with open(os.path.join(folder, "p.csp"), "w", encoding="utf-8") as file:
            file.write(SCRIPT)
        self.start()

    def is_over(self):
        return time.monotonic() >= self.end

    def start(self):
        """Starts the server, the second time and later at the address that it had."""
        words = [self.options.program, "serve", *["--large"] * self.options.large, "p.csp", "P", "j", "--listen", self.address]
        for _ in range(100):
            self.process = subprocess.Popen(words, cwd=self.folder, stdout=subprocess.PIPE, stderr=subprocess.PIPE)
            line = self.process.stdout.readline().decode()
            if line.startswith("listening "):
                self.address = line.split()[-1]
                return
            said = self.process.communicate()[1].decode()
            time.sleep(0.1)
        raise SystemExit("the server doesn't start: %s" % said)

    def kill_at_random(self):
        """Kills the server again and again until the time is over."""
        while not self.is_over():
            pause = self.rng.expovariate(self.options.kills / 3600) if self.options.kills else 3600
            time.sleep(max(0.0, min(pause, self.end - time.monotonic())))
            if not self.is_over():
                self.stop()
                self.kills += 1
                self.start()

    def stop(self):
        self.process.kill()
        return self.process.communicate()

    def history(self):
        files = []
        for part in itertools.count(1):
            path = os.path.join(self.folder, "j" if part == 1 else "j.%d" % part)
            if not os.path.exists(path):
                return History(*files)
            with open(path, "rb") as file:
                files.append(file.read())


def problems_of(component, history):
    """What the journal doesn't have as the component knows it."""
    mine = [(place, entry) for place, entry in enumerate(history.entries, 1) if entry[0] == component.seat]
    found = [(kind, names) for _, (_, _, kind, names, _) in mine]
    problems = [component.trouble] if component.trouble else []
    # A report that was sent before the last loss may stand there or not.
    wanted = [(kind, frozenset(names)) for kind, names in component.reports]
    if found != wanted and not (component.trouble and found == wanted[:-1]):
        problems.append("%d entries, %d reports, and they differ" % (len(found), len(wanted)))
    wrong = [number for number, told in component.told.items() if number > len(mine) or (mine[number - 1][0], mine[number - 1][1][4]) != told]
    if wrong:
        problems.append("the replies to reports %s aren't their entries" % wrong[:5])
    return ["seat %d: %s" % (component.seat, problem) for problem in problems]


def soak(options, folder):
    """All problems of a run."""
    run = Run(options, folder)
    components = [Component(run, seat, run.rng.random()) for seat in range(1, options.components + 1)]
    for component in components:
        component.start()
    run.kill_at_random()
    for component in components:
        component.join(2 * PATIENCE)
    run.stop()
    history = run.history()
    problems = list(history.problems)
    for component in components:
        problems += problems_of(component, history)
    done = subprocess.run([options.program, "replay", "j"], cwd=folder, stdout=subprocess.PIPE, check=False)
    if done.stdout.decode() != history.summary(len(history.entries)) + "\n":
        problems.append("replay says %s" % done.stdout)
    print("%d entries, %d kills, %d connections lost, %d verdicts lost" % (
        len(history.entries), run.kills, sum(one.losses for one in components), sum(one.lost_verdicts for one in components)))
    if len(history.entries) >= MOST and not options.large:
        print("the history was full: a longer pause is needed")
    return problems


def main():
    parser = argparse.ArgumentParser(description=__doc__.split("\n")[0])
    parser.add_argument("--program", default=PROGRAM)
    parser.add_argument("--large", action="store_true", help="a history without an end, in parts")
    parser.add_argument("--minutes", type=float, default=60)
    parser.add_argument("--components", type=int, default=16)
    parser.add_argument("--pause", type=float, default=0.05, help="seconds between two reports of a component, on average")
    parser.add_argument("--kills", type=float, default=20, help="how often the server is killed in an hour")
    parser.add_argument("--seed", type=int, default=1)
    parser.add_argument("--folder", default="/dev/shm" if os.path.isdir("/dev/shm") else None)
    options = parser.parse_args()
    options.program = os.path.abspath(options.program)
    with tempfile.TemporaryDirectory(prefix="soak-", dir=options.folder) as folder:
        problems = soak(options, folder)
    for problem in problems[:20]:
        print(problem)
    print("%d passed, %d failed" % (not problems, len(problems)))
    return 1 if problems else 0


if __name__ == "__main__":
    sys.exit(main())
