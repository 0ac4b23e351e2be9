#!/usr/bin/env python3
"""What long histories cost with `--large`: time for each tenth of the reports, memory, and how long the parts of a journal take to be replayed.

    parts.py [--program FILE] [--reports 10000000] [--size 1000000] [--turns 3] [--folder /dev/shm] [--csv VERSION MACHINE LOAD]

- `serve --large --until-idle` is sent so many reports ahead over one connection, by a process of two states; the journal is in memory, in parts
  of `--size` records. For each tenth of the reports the seconds are printed, and the most memory that the server had by then (VmHWM).
- `check --large` is given the same lines.
- `replay --read-only` of all parts, and of the first one alone, each in turn.

The last lines hold the figures against their bounds: the last tenth against the second, the memory at the end against that after the first
tenth, that of `check`, and the replay of all parts against that of the first one, so many times. The program that `tests/variant.py` builds has
parts of 50 records: `--reports 300000 --size 50` shows in seconds that this script works; its figures say nothing. With --csv the figures are
printed as lines for a file of bench/results. The status is 1 where a bound isn't kept.
"""
import argparse
import contextlib
import csv
import os
import re
import shutil
import socket
import statistics
import subprocess
import sys
import tempfile
import threading
import time

HERE = os.path.dirname(os.path.abspath(__file__))
PROGRAM = os.path.join(os.path.dirname(HERE), "crates", "cspwatch", "out", "cspwatch")
SCRIPT = "channel a\nP = a -> Q\nQ = a -> P\n"
LINE = b"E a\n"
TENTHS = 10
PIECE = 1 << 16
TABLE = "long histories"

SLOWER = 1.05
"""At most so many times as long as the second tenth the last one may take."""

MORE_MEMORY = 20.0
"""By so many MB the server's memory may grow after the first tenth."""

CHECK_MEMORY = 12.0
"""So many MB `check --large` may have."""

REPLAY = 1.1
"""At most so many times as long for each part all parts may take as the first one alone."""


def peak_of(pid):
    """The most memory that a process had, in MB; None where it has ended."""
    with contextlib.suppress(OSError), open("/proc/%d/status" % pid, encoding="ascii") as file:
        if found := re.search(r"VmHWM:\s+([0-9]+) kB", file.read()):
            return int(found.group(1)) * 1024 / 1e6
    return None


def send(write, count):
    """Sends so many lines, as many at once as fit."""
    block = LINE * (PIECE // len(LINE))
    left = count * len(LINE)
    while left > 0:
        write(block[:left])
        left -= min(left, len(block))


def answered(read, pid, count):
    """The seconds that each tenth of so many replies took, and the most memory after it, in MB."""
    tenths, replies, began, tail = [], 0, time.perf_counter(), b""
    while replies < count:
        piece = read(PIECE)
        if not piece:
            raise SystemExit("the program ended after %d replies" % replies)
        replies += piece.count(b"\n")
        tail = (tail + piece)[-40:]
        while replies >= count * (len(tenths) + 1) // TENTHS and len(tenths) < TENTHS:
            now = time.perf_counter()
            tenths.append((now - began, peak_of(pid)))
            began = now
    if not tail.endswith(b"\nOK %d\n" % count):
        raise SystemExit("the last reply is %r" % tail)
    return tenths


def served(options, folder):
    """The tenths of a run of `serve`."""
    words = [options.program, "serve", "--large", "p.csp", "P", "j", "--listen", "127.0.0.1:0", "--until-idle"]
    with subprocess.Popen(words, cwd=folder, stdout=subprocess.PIPE) as server:
        port = int(server.stdout.readline().rsplit(b":", 1)[1])
        with socket.create_connection(("127.0.0.1", port)) as link:
            sender = threading.Thread(target=send, args=(link.sendall, options.reports))
            sender.start()
            tenths = answered(link.recv, server.pid, options.reports)
            sender.join()
        last = server.stdout.read()
    if last != b"S %d %d 0 0 open\n" % (options.reports, options.reports) or server.returncode:
        raise SystemExit("serve ended with %r, status %d" % (last, server.returncode))
    return tenths


def checked(options, folder):
    """The tenths of a run of `check`."""
    words = [options.program, "check", "--large", "p.csp", "P"]
    with subprocess.Popen(words, cwd=folder, stdin=subprocess.PIPE, stdout=subprocess.PIPE, bufsize=0) as check:
        sender = threading.Thread(target=send, args=(lambda piece: write_all(check.stdin, piece), options.reports))
        sender.start()
        tenths = answered(check.stdout.read, check.pid, options.reports)
        sender.join()
        check.stdin.close()
    if check.returncode:
        raise SystemExit("check ended with status %d" % check.returncode)
    return tenths


def write_all(file, piece):
    while piece:
        piece = piece[file.write(piece):]


def replayed(options, folder, count):
    """The seconds that `replay --read-only` of a journal of so many records takes, and the most memory that it had, in MB."""
    began, peak = time.perf_counter(), 0.0
    words = [options.program, "replay", "--read-only", "j"]
    with subprocess.Popen(words, cwd=folder, stdout=subprocess.PIPE) as replay:
        watcher = threading.Thread(target=lambda: replay.stdout.peek(1))
        watcher.start()
        while watcher.is_alive():
            peak = max(peak, peak_of(replay.pid) or 0.0)
            watcher.join(0.01)
        out = replay.stdout.read()
    seconds = time.perf_counter() - began
    if out != b"S %d %d 0 0 open\n" % (count, count) or replay.returncode:
        raise SystemExit("replay ended with %r, status %d" % (out, replay.returncode))
    return seconds, peak


def replays(options, folder):
    """The runs of `replay` of all parts, and of the first one."""
    first = os.path.join(folder, "first")
    os.mkdir(first)
    shutil.copy(os.path.join(folder, "j"), first)
    runs = ([], [])
    for turn in range(options.turns):
        for place in (0, 1) if turn % 2 else (1, 0):
            runs[place].append(replayed(options, *((folder, options.reports), (first, options.size))[place]))
    return runs


def told(what, figure, bound, unit):
    """A line that holds a figure against its bound, and whether it is kept."""
    kept = figure <= bound
    print("%s: %.3g %s, at most %.3g: %s" % (what, figure, unit, bound, "kept" if kept else "NOT KEPT"), flush=True)
    return kept


def measured(options, folder):
    """Prints all figures. The lines of results, and whether all bounds are kept."""
    lines = []
    tenths = served(options, folder)
    for place, (seconds, peak) in enumerate(tenths, 1):
        print("serve, %d reports: %.3f s for the last %d, at most %.1f MB" % (
            options.reports * place // TENTHS, seconds, options.reports // TENTHS, peak), flush=True)
        lines += [("serve, tenth %d" % place, "time", seconds, "s"), ("serve, tenth %d" % place, "peak memory", peak, "MB")]
    check = checked(options, folder)
    whole, alone = replays(options, folder)
    parts = options.reports / options.size
    all_parts, one_part = (statistics.median(seconds for seconds, _ in runs) for runs in (whole, alone))
    memory = max(peak for _, peak in whole)
    print("check: %.3f s, at most %.1f MB" % (sum(seconds for seconds, _ in check), check[-1][1]))
    print("replay: %.3f s for %g parts, at most %.1f MB, and %.3f s for the first one" % (all_parts, parts, memory, one_part))
    lines += [("check", "time", sum(seconds for seconds, _ in check), "s"), ("check", "peak memory", check[-1][1], "MB")]
    lines += [("replay of all parts", "time", all_parts, "s"), ("replay of all parts", "peak memory", memory, "MB"),
              ("replay of the first part", "time", one_part, "s")]
    kept = [
        told("the last tenth by the second one", tenths[-1][0] / tenths[1][0], SLOWER, "times"),
        told("memory of serve after the first tenth", tenths[-1][1] - tenths[0][1], MORE_MEMORY, "MB"),
        told("memory of check", check[-1][1], CHECK_MEMORY, "MB"),
        told("all parts by the first one, for each", all_parts / one_part / parts, REPLAY, "times"),
    ]
    return lines, all(kept)


def main():
    parser = argparse.ArgumentParser(description=__doc__.split("\n")[0])
    parser.add_argument("--program", default=PROGRAM)
    parser.add_argument("--reports", type=int, default=10_000_000)
    parser.add_argument("--size", type=int, default=1_000_000, help="how many records a part takes")
    parser.add_argument("--turns", type=int, default=3)
    parser.add_argument("--folder", default="/dev/shm")
    parser.add_argument("--csv", nargs=3, metavar=("VERSION", "MACHINE", "LOAD"))
    options = parser.parse_args()
    options.program = os.path.abspath(options.program)
    with tempfile.TemporaryDirectory(prefix="parts-", dir=options.folder) as folder:
        with open(os.path.join(folder, "p.csp"), "w", encoding="utf-8") as file:
            file.write(SCRIPT)
        lines, is_kept = measured(options, folder)
    if options.csv:
        version, machine, load = options.csv
        results = csv.writer(sys.stdout, lineterminator="\n")
        for row, column, figure, unit in lines:
            results.writerow(["%s / %s / %s" % (TABLE, row, column), "cspwatch", version, "%.3g" % figure, unit, machine, load])
    return 0 if is_kept else 1


if __name__ == "__main__":
    sys.exit(main())
