#!/usr/bin/env python3
"""1,000,000 reports in one session, by `check` and by `serve`; then the history is full, and `N` and `S` go on being answered.

    tests/load.py [--program FILE] [--connections 4] [--only check serve] [--folder DIR]

Every reply is compared. It prints what a run took: elapsed time, processor time, and the greatest memory (VmHWM of /proc) at the full
history; for `serve` also how long `replay` and a further run take to open the journal, which has 1,000,000 records then. The last line is
`N passed, M failed`. In the end `show` writes the 1,000,000 entries, and each line is compared.
"""
import argparse
import os
import subprocess
import sys
import tempfile
import threading
import time

sys.dont_write_bytecode = True

from sweeping import HISTORY, SCRIPT, Book, Link, Run, Server, add_options, begin, run, write_file  # noqa: E402

SECONDS = 1200
BATCH = 5000
# An event that the process accepts in both of its states, so that connections need no order.
EVENT = b"E c.1\n"
FULL = [(b"E c.1", b"ERR 23 history"), (b"R a b", b"ERR 23 history"), (b"N", b"N a c.0 c.1 c.2"), (b"S", b"S 1000000 1000000 0 0 open"),
        (b"R", b"ERR 23 history"),
        (b"N", b"N a c.0 c.1 c.2")]


def used(process):
    """The greatest memory in MB so far, and the processor seconds."""
    with open("/proc/%d/status" % process.pid, encoding="ascii") as file:
        peak = next(int(line.split()[1]) for line in file if line.startswith("VmHWM"))
    with open("/proc/%d/stat" % process.pid, encoding="ascii") as file:
        fields = file.read().rsplit(")", 1)[1].split()
    return peak / 1024, (int(fields[11]) + int(fields[12])) / os.sysconf("SC_CLK_TCK")


def by_check(options, folder, book):
    process = subprocess.Popen([options.program, "check", "p.csp", "P"], cwd=folder, stdin=subprocess.PIPE, stdout=subprocess.PIPE, stderr=subprocess.PIPE)
    start = time.monotonic()

    def send():
        for _ in range(HISTORY // BATCH):
            process.stdin.write(EVENT * BATCH)
        process.stdin.flush()

    sender = threading.Thread(target=send)
    sender.start()
    wrong = sum(process.stdout.readline() != b"OK %d\n" % place for place in range(1, HISTORY + 1))
    sender.join()
    seconds, (peak, processor) = time.monotonic() - start, used(process)
    out, err = process.communicate(b"".join(line + b"\n" for line, _ in FULL), timeout=60)
    problems = ["%d replies are wrong" % wrong] if wrong else []
    if (out, err, process.returncode) != (b"".join(reply + b"\n" for _, reply in FULL), b"", 6):
        problems.append("at the full history: %s" % ((out, err, process.returncode),))
    print("check: 1,000,000 reports in %.1f s, %.1f s of processor time, %.0f MB" % (seconds, processor, peak), flush=True)
    book.note("check", problems, {})


def report(port, count, places):
    """Reports so often over one connection, and adds the places that were answered."""
    link = Link(port, SECONDS)
    for at in range(0, count, BATCH):
        batch = min(BATCH, count - at)
        sender = threading.Thread(target=link.send, args=(EVENT * batch,))
        sender.start()
        places += [link.reply() for _ in range(batch)]
        sender.join()
    link.ask(b"Q")
    link.close()


def full_problems(port):
    """What is wrong with the replies of a session whose history is full."""
    link = Link(port, SECONDS)
    replies = [link.ask(line) for line, _ in FULL + [(b"Q", b"BYE")]]
    link.close()
    wanted = [reply for _, reply in FULL] + [b"BYE"]
    return [] if replies == wanted else ["at the full history: %s, wanted %s" % (replies, wanted)]


def by_serve(options, folder, book):
    server, start = Server(options.program, folder, options.connections + 1, SECONDS), time.monotonic()
    if not server.listening():
        return book.note("serve", ["serve: %s" % (server.end(),)], {})
    places = [[] for _ in range(options.connections)]
    counts = [HISTORY // options.connections + (at < HISTORY % options.connections) for at in range(options.connections)]
    threads = [threading.Thread(target=report, args=(server.port, count, of_one)) for count, of_one in zip(counts, places)]
    for thread in threads:
        thread.start()
    for thread in threads:
        thread.join()
    seconds, (peak, processor) = time.monotonic() - start, used(server.process)
    problems = full_problems(server.port)
    answered = sorted(int(reply[3:]) for of_one in places for reply in of_one if reply and reply.startswith(b"OK "))
    if answered != list(range(1, HISTORY + 1)):
        problems.append("%d reports were accepted" % len(answered))
    end, summary = server.end(), b"S 1000000 1000000 0 0 open\n"
    problems += [] if end == Run(summary, b"", 6) else ["serve ended with %s" % (end,)]
    size = os.path.getsize(os.path.join(folder, "j"))
    print("serve: 1,000,000 reports over %d connections in %.1f s, %.1f s of processor time, %.0f MB; the journal has %d bytes" % (
        options.connections, seconds, processor, peak, size), flush=True)
    book.note("serve", problems + reopened_problems(options, folder, summary), {})


def reopened_problems(options, folder, summary):
    """What is wrong where the full journal is opened again."""
    start = time.monotonic()
    done = run([options.program, "replay", "j"], folder, seconds=SECONDS)
    replayed = time.monotonic() - start
    problems = [] if done == Run(summary, b"", 0) else ["replay: %s" % (done,)]
    start = time.monotonic()
    server = Server(options.program, folder, 1, SECONDS)
    if not server.listening():
        return problems + ["serve: %s" % (server.end(),)]
    listens = time.monotonic() - start
    print("replay of 1,000,000 records: %.1f s; serve listens after %.1f s, with %.0f MB" % (replayed, listens, used(server.process)[0]), flush=True)
    problems += full_problems(server.port)
    end = server.end()
    problems += [] if end == Run(summary, b"", 6) else ["serve ended with %s" % (end,)]
    return problems + shown_problems(options, folder, summary)


def shown_problems(options, folder, summary):
    """What is wrong with what `show` writes of the full journal, line by line as it comes."""
    process = subprocess.Popen([options.program, "show", "j"], cwd=folder, stdout=subprocess.PIPE, stderr=subprocess.PIPE)
    start, numbers, wrong, peak = time.monotonic(), {}, 0, 0
    for place in range(1, HISTORY + 1):
        line = process.stdout.readline()
        seat = line.split(b" ")[1] if line.count(b" ") > 1 else b""
        numbers[seat] = numbers.get(seat, 0) + 1
        wrong += line != b"%d %s %d E c.1 OK\n" % (place, seat, numbers[seat])
        if place == HISTORY // 2:
            peak = used(process)[0]
    last, err, status = process.stdout.read(), process.stderr.read(), process.wait(60)
    print("show of 1,000,000 entries: %.1f s, %.0f MB" % (time.monotonic() - start, peak), flush=True)
    problems = ["show: %d lines are wrong" % wrong] if wrong else []
    return problems + ([] if (last, err, status) == (summary, b"", 0) else ["show ended with %s" % ((last, err, status),)])


def main():
    parser = argparse.ArgumentParser(description=__doc__.split("\n")[0])
    add_options(parser, "load")
    parser.add_argument("--connections", type=int, default=4)
    parser.add_argument("--only", nargs="+", choices=["check", "serve"], default=["check", "serve"])
    options = parser.parse_args()
    if not begin(options):
        return 1
    book = Book(options.keep)
    with tempfile.TemporaryDirectory(prefix="load-", dir=options.folder) as folder:
        write_file(os.path.join(folder, "p.csp"), SCRIPT)
        if "check" in options.only:
            by_check(options, folder, book)
        if "serve" in options.only:
            by_serve(options, folder, book)
    return book.end()


if __name__ == "__main__":
    sys.exit(main())
