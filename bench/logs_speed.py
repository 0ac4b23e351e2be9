#!/usr/bin/env python3
"""How long `cspwatch-logs` takes for a log, how much memory, and how much faster four partitions of a stream are judged than one.

    logs_speed.py [--program FILE] [--lines 100000] [--stream-lines 500000] [--turns 5] [--csv VERSION MACHINE LOAD]

- A log by a map of ten rules, as one session: seconds, and the most memory of the command itself, also for a log ten times as long.
- A stream of Redis whose lines are of a thousand sessions: judged by one worker from one partition, and by four workers, each from one of
  four, by turns. It needs redis-server and a Python 3.11 with the package redis; where one is missing, that is said.

Measure with nothing else on the machine. With --csv the figures are printed as lines for a file of bench/results.
"""
import argparse
import csv
import os
import random
import re
import resource
import statistics
import subprocess
import sys
import tempfile
import time

HERE = os.path.dirname(os.path.abspath(__file__))
PYTHON_CLIENT = os.path.join(os.path.dirname(HERE), "clients", "python")
sys.dont_write_bytecode = True
sys.path[:0] = [PYTHON_CLIENT, os.path.join(PYTHON_CLIENT, "tests")]

import test_logs_streams as streams  # type: ignore[import]  # noqa: E402

PROGRAM = os.path.join(os.path.dirname(HERE), "crates", "cspwatch", "out", "cspwatch")
TABLE = "logs"
RULES = 10
WORKERS = 4
SESSIONS = 1000
LOOK = 0.02
"""The seconds between two looks at the memory of a process."""

SCRIPT = "channel step : {0..%d}\nP = step?x -> P\n" % (RULES - 1)
SPECIFICATION = '[specification]\nscript = "p.csp"\nprocess = "P"\n'
RULE = "\n[[rule]]\nmatch = '^[0-9T:.-]+ component \\d+ does step%d with (?P<what>\\w+)$'\nevent = \"step.%d\"\n"


def write(folder, name, text):
    with open(os.path.join(folder, name), "w", encoding="utf-8") as file:
        file.write(text)


def write_log(folder, name, count):
    chance = random.Random(1)
    with open(os.path.join(folder, name), "w", encoding="utf-8") as file:
        for place in range(count):
            file.write("2026-01-01T00:%02d:%02d.%03d component %d does step%d with item%d\n" % (
                place // 60000 % 60, place // 1000 % 60, place % 1000, chance.randrange(20), chance.randrange(RULES), place))


def run(python, folder, program, words):
    """Starts the command; what it prints is dropped."""
    around = {**os.environ, "CSPWATCH": program, "PYTHONPATH": PYTHON_CLIENT, "PYTHONDONTWRITEBYTECODE": "1"}
    return subprocess.Popen([python, "-m", "cspwatch_client.logs", *words], cwd=folder, env=around, stdout=subprocess.DEVNULL)


def watched(process):
    """The seconds until the process ends well, and the most memory that it had, in MB."""
    began, peak = time.monotonic(), 0.0
    while process.poll() is None:
        with open("/proc/%d/status" % process.pid, encoding="ascii") as file:
            if found := re.search(r"VmHWM:\s+([0-9]+) kB", file.read()):
                peak = int(found.group(1)) * 1024 / 1e6
        time.sleep(LOOK)
    if process.returncode != 0:
        raise SystemExit("cspwatch-logs ended with status %d" % process.returncode)
    return time.monotonic() - began, peak


def log_times(options, folder):
    """The median of the seconds for the log, and the most MB that the command took for it and for one that is ten times as long."""
    write(folder, "p.csp", SCRIPT)
    write(folder, "m.toml", SPECIFICATION + "".join(RULE % (number, number) for number in range(RULES)))
    write_log(folder, "log", options.lines)
    write_log(folder, "longer", 10 * options.lines)
    seconds, peaks = [], {}
    for name, turns in ("log", options.turns), ("longer", 1):
        for _ in range(turns):
            took, peaks[name] = watched(run(sys.executable, folder, options.program, ["--quiet", "m.toml", name]))
            seconds += [took] * (name == "log")
    return statistics.median(seconds), peaks["log"], peaks["longer"]


def judged(options, folder, url, name, count):
    """The seconds that so many workers take for all lines of the stream, each for its partition of so many."""
    for number in range(1, count + 1):
        path = os.path.join(folder, "%s.%d" % (name, number))
        if os.path.exists(path):
            os.remove(path)
    began = time.monotonic()
    words = ["--stream", "%s/%s" % (url, name), "m.toml"]
    workers = [run(streams.PYTHON, folder, options.program, [*words, "--partition", "%d/%d" % (number, count), "--record", "%s.%d" % (name, number)])
               for number in range(1, count + 1)]
    statuses = [worker.wait() for worker in workers]
    if not set(statuses) <= {0, 1}:
        raise SystemExit("workers ended with the statuses %s" % statuses)
    return time.monotonic() - began


def stream_times(options, folder):
    """The medians of the seconds with one partition and with four; None where something is missing."""
    if not streams.PYTHON or not streams.shutil.which("redis-server"):
        print("passed over: streams need redis-server and a Python 3.11 with the package redis")
        return None
    write(folder, "p.csp", streams.SCRIPT)
    write(folder, "m.toml", streams.MAP)
    lines = streams.lines_of(options.stream_lines, SESSIONS)
    redis = streams.Redis(folder)
    try:
        for count in 1, WORKERS:
            redis.add_to("log%d" % count, lines, count)
        url = "redis://127.0.0.1:%d" % redis.port
        found = {1: [], WORKERS: []}
        for _ in range(options.turns):
            for count, times in found.items():
                times.append(judged(options, folder, url, "log%d" % count, count))
    finally:
        redis.stop()
    return statistics.median(found[1]), statistics.median(found[WORKERS])


def main():
    parser = argparse.ArgumentParser(description=__doc__.split("\n")[0])
    parser.add_argument("--program", default=PROGRAM)
    parser.add_argument("--lines", type=int, default=100_000)
    parser.add_argument("--stream-lines", type=int, default=500_000)
    parser.add_argument("--turns", type=int, default=5)
    parser.add_argument("--csv", nargs=3, metavar=("VERSION", "MACHINE", "LOAD"))
    options = parser.parse_args()
    options.program = os.path.abspath(options.program)
    figures = []
    with tempfile.TemporaryDirectory(prefix="logs-speed-") as folder:
        seconds, peak, longer = log_times(options, folder)
        print("%d lines, ten rules: %.2f s, %.1f MB; ten times as many: %.1f MB" % (options.lines, seconds, peak, longer))
        figures += [("ten rules / seconds", seconds, "s"), ("ten rules / peak memory", peak, "MB"),
                    ("ten rules, ten times as many lines / peak memory", longer, "MB")]
    with tempfile.TemporaryDirectory(prefix="logs-speed-") as folder:
        if (times := stream_times(options, folder)) is not None:
            one, four = times
            print("%d lines of a stream: one partition %.2f s, four %.2f s: %.2f times" % (options.stream_lines, one, four, one / four))
            figures += [("a stream, one partition / seconds", one, "s"), ("a stream, four partitions / seconds", four, "s"),
                        ("a stream / times", one / four, "ratio")]
    print("%.1f s of a processor in all" % resource.getrusage(resource.RUSAGE_CHILDREN).ru_utime)
    if options.csv:
        version, machine, load = options.csv
        out = csv.writer(sys.stdout, lineterminator="\n")
        for subject, figure, unit in figures:
            out.writerow(["%s / %s" % (TABLE, subject), "cspwatch-logs", version, "%.2f" % figure, unit, machine, load])


if __name__ == "__main__":
    main()
