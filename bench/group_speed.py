#!/usr/bin/env python3
"""Lines a second through `cspwatch serve` where reports share syncs, against a plain server that shares them too.

    group_speed.py PEER [--program FILE] [--other FILE] [--turns 5] [--times 1] [--sync NANOSECONDS ..] [--disk DIR] [--latency]

PEER is called as `PEER JOURNAL CONNECTIONS`, serves two states over the same protocol and settles many reports by two syncs; OTHER
is one more `cspwatch`, as an older one. All run by turns, the first one another with each turn. The journal is a file in memory, in which a
sync takes so many nanoseconds (slow_sync.c; 0 and 1,000,000 unless said), or in DIR, where syncs take what they take. A load is so many
connections of so many lines, sent ahead or in turns, with --times so many times as many, as far as a history holds them. Each ratio is that
of the medians; above 1 the program is faster. What isn't fast by design gets fewer lines: with slow syncs a program that doesn't share them
answers 500 lines a second. With --latency it is measured alone how long replies take with 64 connections in turns and syncs of 1 ms.
"""
import argparse
import functools
import os
import statistics
import subprocess
import tempfile

import serve_speed

LOADS = [(1, 400_000, "ahead"), (64, 15_000, "ahead"), (1, 20_000, "turns"), (64, 1_000, "turns")]
"""Connections, lines of each, and how they are sent."""

SLOW_LOADS = [(1, 100_000, "ahead"), (64, 15_000, "ahead"), (1, 300, "turns"), (64, 200, "turns")]
"""The same where a sync takes long."""

FEW = {(1, "ahead"): 300, (64, "ahead"): 5, (1, "turns"): 300, (64, "turns"): 5}
"""How many lines a connection gets of a program that doesn't share syncs, where these are slow."""

MOST = 1_000_000
"""How many reports a history holds."""

LONG = 100_000
"""From how many nanoseconds on a sync takes long."""


def medians(turns, runs):
    """The lines a second of each, run by turns."""
    speeds = {name: [] for name in runs}
    for turn in range(turns):
        for place in range(len(runs)):
            name = list(runs)[(turn + place) % len(runs)]
            speeds[name].append(runs[name]())
    return {name: statistics.median(of) for name, of in speeds.items()}


def speed(words, load_program, folder, load, around):
    """The lines a second of one run."""
    if os.path.exists(os.path.join(folder, "j")):
        os.remove(os.path.join(folder, "j"))
    seconds, _ = serve_speed.served(words, load_program, folder, *load, around)
    return load[0] * load[1] / seconds


def measure(options, folder, made, loads, around, what, few):
    for connections, lines, how in loads:
        load = connections, min(lines * options.times, MOST // connections), how
        serve = ["serve", "p.csp", "P", "j", "--listen", "127.0.0.1:0", "--connections", str(connections)]
        run = functools.partial(speed, load_program=made["serve_load"], folder=folder, load=load, around=around)
        runs = {"program": functools.partial(run, [options.program, *serve]), "peer": functools.partial(run, [options.peer, "j", str(connections)])}
        if options.other:
            shorter = (connections, min(FEW[connections, how] * options.times, MOST // connections), how) if few else load
            runs["other"] = functools.partial(run, [options.other, *serve], load=shorter)
        found = medians(options.turns, runs)
        ratios = ", ".join("%s %9.0f (%.2f)" % (name, found[name], found["program"] / found[name]) for name in runs if name != "program")
        print("%-16s %2d connections, %6d lines each, %-5s: program %9.0f a second, %s" % (what, *load, found["program"], ratios), flush=True)


def latencies(options, folder, load_program, around):
    """How long replies take: the medians of the runs."""
    serve = ["serve", "p.csp", "P", "j", "--listen", "127.0.0.1:0", "--connections", "64"]
    for name, words in ("program", [options.program, *serve]), ("peer", [options.peer, "j", "64"]):
        found = []
        for _ in range(options.turns):
            if os.path.exists(os.path.join(folder, "j")):
                os.remove(os.path.join(folder, "j"))
            server = subprocess.Popen(words, cwd=folder, stdout=subprocess.PIPE, env=around)
            address = server.stdout.readline().split()[1].decode()
            done = subprocess.run([load_program, address, "64", "200", "latency"], check=True, capture_output=True)
            server.communicate()
            found.append([int(number) / 1e6 for number in done.stdout.split()])
        print("%-8s 64 connections in turns: median %.1f ms, 99th percentile %.1f ms, greatest %.1f ms" % (
            name, *(statistics.median(column) for column in zip(*found))), flush=True)


def main():
    parser = argparse.ArgumentParser(description=__doc__.split("\n")[0])
    parser.add_argument("peer", type=os.path.abspath)
    parser.add_argument("--program", type=os.path.abspath, default=serve_speed.PROGRAM)
    parser.add_argument("--other", type=os.path.abspath)
    parser.add_argument("--turns", type=int, default=5)
    parser.add_argument("--times", type=int, default=1)
    parser.add_argument("--sync", type=int, nargs="*", default=[0, 1_000_000])
    parser.add_argument("--disk")
    parser.add_argument("--latency", action="store_true")
    options = parser.parse_args()
    with tempfile.TemporaryDirectory(dir=options.disk or "/dev/shm") as folder, tempfile.TemporaryDirectory() as programs:
        made = serve_speed.built(programs)
        with open(os.path.join(folder, "p.csp"), "w", encoding="utf-8") as file:
            file.write(serve_speed.SCRIPT)
        if options.latency:
            latencies(options, folder, made["serve_load"], serve_speed.slow_syncs(programs, 1_000_000))
            return
        if options.disk:
            measure(options, folder, made, SLOW_LOADS, None, "on a disk", True)
            return
        for nanoseconds in options.sync:
            around = serve_speed.slow_syncs(programs, nanoseconds)
            long = nanoseconds >= LONG
            measure(options, folder, made, SLOW_LOADS if long else LOADS, around, "syncs of %d us" % (nanoseconds // 1000), long)


if __name__ == "__main__":
    main()
