#!/usr/bin/env python3
"""Lines a second through `cspwatch serve`, against a plain Rust server of the same protocol, and on a disk against the bare loop.

    serve_speed.py [--program FILE] [--turns 15] [--disk DIR] [--records 100] [--sync NANOSECONDS]

The journal is a file in memory (/dev/shm). Each line is the report of an event that is accepted; the process has two states. Program and
peer run in turn, and which one goes first changes with each turn. A ratio is the peer's time over the program's, of the medians and as the
median of the pairs; above 1 the program is faster. In the last measurements the journal is in DIR (the project's folder, if not said), with so
many records; the peer is the plain server again, then a loop that writes a record, syncs, writes its gate, and syncs, and then the same loop with
a reply after each record. With "polling" the client doesn't sleep for replies, so none of them has to wake it. With --sync the journal is in memory there
too, and a sync takes so many nanoseconds (slow_sync.c); nothing
else is measured then.
"""
import argparse
import os
import statistics
import subprocess
import sys
import tempfile

HERE = os.path.dirname(os.path.abspath(__file__))
PROGRAM = os.path.join(os.path.dirname(HERE), "crates", "cspwatch", "out", "cspwatch")
SCRIPT = "channel a\nP = a -> Q\nQ = a -> P\n"
# Connections, lines of each, and how they are sent, with the journal in memory.
MEASURED = [(1, 200_000, "ahead"), (64, 4_000, "ahead"), (1, 20_000, "turns"), (64, 1_000, "turns")]


def built(folder):
    """The three plain programs."""
    made = {}
    for name in ("serve_peer", "serve_load", "disk_loop"):
        made[name] = os.path.join(folder, name)
        subprocess.run(["rustc", "--edition", "2024", "-O", "-o", made[name], os.path.join(HERE, name + ".rs")], check=True)
    return made


def served(words, load, folder, connections, lines, how, around=None):
    """The seconds by the clock that all replies took, and the processor seconds of the server's whole run, in these surroundings."""
    server = subprocess.Popen(words, cwd=folder, stdout=subprocess.PIPE, env=around)
    address = server.stdout.readline().split()[1].decode()
    done = subprocess.run([load, address, str(connections), str(lines), how], check=True, capture_output=True)
    last = server.stdout.read().decode()
    _, status, used = os.wait4(server.pid, 0)
    server.returncode = os.waitstatus_to_exitcode(status)
    judged = connections * lines
    if last != "S %d %d 0 0 open\n" % (judged, judged) or server.returncode != 0:
        sys.exit("%s ended with %r, status %d" % (words, last, server.returncode))
    return int(done.stdout) / 1e9, used.ru_utime + used.ru_stime


def looped(loop, folder, records, around, *more):
    done = subprocess.run([loop, os.path.join(folder, "loop"), str(records), *more], check=True, capture_output=True, env=around)
    return int(done.stdout) / 1e9, 0.0


def slow_syncs(folder, nanoseconds):
    """Surroundings in which a sync takes so long."""
    library = os.path.join(folder, "slow_sync.so")
    subprocess.run(["cc", "-O2", "-shared", "-fPIC", "-o", library, os.path.join(HERE, "slow_sync.c")], check=True)
    return dict(os.environ, LD_PRELOAD=library, SYNC_NANOSECONDS=str(nanoseconds))


def in_turn(turns, ours, theirs):
    """The times of both, run in turn."""
    times = ([], [])
    for turn in range(turns):
        for place in (0, 1) if turn % 2 else (1, 0):
            times[place].append((ours, theirs)[place]())
    return times


def row(what, count, times, peer):
    for place, of in enumerate(("clock", "processor")):
        mine, plain = ([pair[place] for pair in it] for it in times)
        if not all(plain):
            continue
        print("%-34s by the %-9s program %8.0f a second, %s %8.0f, ratio of the medians %.2f, of the shortest %.2f, median of the pairs %.2f" % (
            what, of, count / statistics.median(mine), peer, count / statistics.median(plain),
            statistics.median(plain) / statistics.median(mine), min(plain) / min(mine),
            statistics.median(b / a for a, b in zip(mine, plain))), flush=True)


def main():
    parser = argparse.ArgumentParser(description=__doc__.split("\n")[0])
    parser.add_argument("--program", default=PROGRAM)
    parser.add_argument("--turns", type=int, default=15)
    parser.add_argument("--disk", default=os.path.dirname(HERE))
    parser.add_argument("--records", type=int, default=100)
    parser.add_argument("--sync", type=int)
    options = parser.parse_args()
    program = os.path.abspath(options.program)

    def ours(folder, *load, around=None):
        if os.path.exists(os.path.join(folder, "j")):
            os.remove(os.path.join(folder, "j"))
        words = [program, "serve", "p.csp", "P", "j", "--listen", "127.0.0.1:0", "--connections", str(load[0])]
        return served(words, made["serve_load"], folder, *load, around)

    def theirs(folder, *load, around=None):
        return served([made["serve_peer"], "j", str(load[0])], made["serve_load"], folder, *load, around)

    slow = options.sync is not None
    with tempfile.TemporaryDirectory(dir="/dev/shm") as folder, tempfile.TemporaryDirectory(dir="/dev/shm" if slow else options.disk) as disk:
        made = built(folder)
        for place in (folder, disk):
            with open(os.path.join(place, "p.csp"), "w", encoding="utf-8") as file:
                file.write(SCRIPT)
        for load in [] if slow else MEASURED:
            times = in_turn(options.turns, lambda: ours(folder, *load), lambda: theirs(folder, *load))
            row("%d connections, %d lines each, %s:" % load, load[0] * load[1], times, "plain Rust")
        around = slow_syncs(folder, options.sync) if slow else None
        bare = lambda *more: looped(made["disk_loop"], disk, options.records, around, *more)
        for how in ("ahead", "polling"):
            load = (1, options.records, how)
            peers = [("plain Rust", lambda: theirs(disk, *load, around=around)), ("the bare loop", bare)]
            if how == "ahead":
                peers.append(("the loop with replies", lambda: bare("answered")))
            for peer, run in peers:
                times = in_turn(4 * options.turns, lambda: ours(disk, *load, around=around), run)
                row("on a disk, 1 connection, %d lines, %s:" % (options.records, how), options.records, times, peer)


if __name__ == "__main__":
    main()
