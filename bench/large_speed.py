#!/usr/bin/env python3
"""Runs `cspwatch check --large` and a plain program with the same mode in turn on the same lines, and reports their ratios.

    large_speed.py PROGRAM PEER [--lines N] [--turns N] [--only NAME ..]

PEER is called as `PEER check FILE` with PEER_UNFOLD=1 in its environment, where FILE has the printed form of the specification; it
reads the same lines. The systems are interleaved components, dining philosophers and a lock with workers. The lines are a random
walk: events that may come, each tenth line a refusal. Both write into a file in memory, and have to write the same bytes. A ratio
is the peer's time over the program's, the median of the pairs, by the clock and by the processor; which one goes first changes with
each turn. The opening is the time of a run on no line at all. Memory is the greatest resident size of a run.
"""
import argparse
import os
import random
import statistics
import subprocess
import sys
import tempfile
import time

HERE = os.path.dirname(os.path.abspath(__file__))
PHILOSOPHERS = os.path.join(os.path.dirname(HERE), "examples", "dining_philosophers.csp")
SEED = 20261127


def interleaved(count):
    """Components that go round on their own, by their number."""
    last = count - 1
    return (
        f"channel a, b : {{0..{last}}}\n"
        "P(i) = a.i -> b.i -> P(i)\n"
        f"SYSTEM = ||| i:{{0..{last}}} @ P(i)\n"
    )


def philosophers(count):
    """The example of the repository, with so many at the table."""
    with open(PHILOSOPHERS, encoding="ascii") as file:
        return file.read().replace("N = 4\n", f"N = {count}\n")


def lock(workers):
    """A lock that one of the workers has at a time."""
    last = workers - 1
    return (
        f"channel ask, got, free : {{0..{last}}}\n"
        "WORKER(i) = ask.i -> got.i -> free.i -> WORKER(i)\n"
        "LOCK = got?i -> free.i -> LOCK\n"
        f"SYSTEM = (||| i:{{0..{last}}} @ WORKER(i)) [| {{|got, free|}} |] LOCK\n"
    )


SYSTEMS = {
    "12 interleaved": interleaved(12),
    "40 interleaved": interleaved(40),
    "64 interleaved": interleaved(64),
    "8 philosophers": philosophers(8),
    "10 philosophers": philosophers(10),
    "a lock with 30 workers": lock(30),
}


def walk(program, path, count):
    """A random walk of so many lines, as the program lets it go on."""
    dice = random.Random(SEED)
    work = subprocess.Popen([program, "check", "--large", path, "SYSTEM"], stdin=subprocess.PIPE, stdout=subprocess.PIPE)
    assert work.stdin and work.stdout

    def ask(line):
        work.stdin.write(line.encode() + b"\n")
        work.stdin.flush()
        return work.stdout.readline().decode().split()

    lines = []
    while len(lines) < count:
        may = ask("N")[1:]
        event = dice.choice(may)
        ask("E " + event)
        lines.append("E " + event)
        if len(lines) % 10 == 9:
            lines.append("R " + " ".join(sorted(dice.sample(may, min(3, len(may))))))
    work.stdin.close()
    work.wait()
    return "\n".join(lines[:count]) + "\n"


def run(command, environment, lines, out):
    """The seconds of one run, its greatest resident size in MB, and its seconds of the processor."""
    with open(lines, "rb") as source, open(out, "wb") as sink:
        start = time.perf_counter()
        child = subprocess.Popen(command, stdin=source, stdout=sink, env=environment)
        _, _, used = os.wait4(child.pid, 0)
        seconds = time.perf_counter() - start
    child.returncode = 0
    return seconds, used.ru_maxrss / 1024, used.ru_utime + used.ru_stime


def in_turn(ours, theirs, turns):
    """The pairs of runs: ours, theirs; which one goes first changes with each turn."""
    pairs = []
    for turn in range(turns):
        if turn % 2:
            second = theirs()
            pairs.append((ours(), second))
        else:
            first = ours()
            pairs.append((first, theirs()))
    return pairs


def measure(name, script, arguments, folder):
    """One line on the system."""
    path, printed = os.path.join(folder, "system.csp"), os.path.join(folder, "system.printed")
    with open(path, "w", encoding="ascii") as file:
        file.write(script)
    with open(printed, "wb") as file:
        subprocess.run([arguments.program, "print", path, "SYSTEM"], stdout=file, check=True)
    lines, none = os.path.join(folder, "lines"), os.devnull
    with open(lines, "w", encoding="ascii") as file:
        file.write(walk(arguments.program, path, arguments.lines))
    peer_environment = dict(os.environ, PEER_UNFOLD="1")
    ours = [arguments.program, "check", "--large", path, "SYSTEM"]
    theirs = [arguments.peer, "check", printed]
    outs = [os.path.join(folder, "ours"), os.path.join(folder, "theirs")]
    pairs = in_turn(
        lambda: run(ours, None, lines, outs[0]), lambda: run(theirs, peer_environment, lines, outs[1]), arguments.turns
    )
    with open(outs[0], "rb") as one, open(outs[1], "rb") as other:
        same = one.read() == other.read()
    openings = in_turn(
        lambda: run(ours, None, none, outs[0]), lambda: run(theirs, peer_environment, none, outs[1]), arguments.turns
    )
    ratio, processor = (statistics.median(peer[at] / our[at] for our, peer in pairs) for at in (0, 2))
    our, peer = (statistics.median(pair[at][0] for pair in pairs) for at in (0, 1))
    memory = [max(pair[at][1] for pair in pairs) for at in (0, 1)]
    opening = [1000 * statistics.median(pair[at][0] for pair in openings) for at in (0, 1)]
    print(
        f"{name:24} ratio {ratio:.2f}, of the processor {processor:.2f} (program {our:.3f} s, peer {peer:.3f} s), "
        f"opening {opening[0]:.1f} ms (peer {opening[1]:.1f}), memory {memory[0]:.0f} MB (peer {memory[1]:.0f}), replies {'the same' if same else 'DIFFERENT'}",
        flush=True,
    )
    return same


def main():
    parser = argparse.ArgumentParser(description="Measures `check --large` against a plain program.")
    parser.add_argument("program")
    parser.add_argument("peer")
    parser.add_argument("--lines", type=int, default=100_000)
    parser.add_argument("--turns", type=int, default=5)
    parser.add_argument("--only", nargs="*", default=[])
    arguments = parser.parse_args()
    arguments.program, arguments.peer = os.path.abspath(arguments.program), os.path.abspath(arguments.peer)
    room = "/dev/shm" if os.path.isdir("/dev/shm") else None
    same = True
    for name, script in SYSTEMS.items():
        if arguments.only and not any(word in name for word in arguments.only):
            continue
        with tempfile.TemporaryDirectory(dir=room) as folder:
            same = measure(name, script, arguments, folder) and same
    sys.exit(0 if same else 1)


main()
