#!/usr/bin/env python3
"""`serve` is ended by a signal at random moments of a run of 2,000 reports: each answered report is in the journal, which opens.

    tests/stops.py [--program FILE] [--rounds 200] [--reports 2000] [--openings 50] [--creations 50] [--seed 1] [--folder DIR]

Each round has a journal of its own, and one connection that sends 2,000 reports: in even rounds one after the other, in odd ones up to 64
ahead. After a number of replies that is drawn, and a pause that is, the server is killed (signal 9). Then it is checked that
- each reply is the one that a few lines of Python give;
- the journal holds the reports in their order, all that were answered and at most one more; where they were sent ahead, so many more as the
  connection's end may have thrown away replies of;
- `replay` tells their counts, and says the same of the file once more;
- a further run of `serve` goes on after them: `S`, `N` and the place of a next report, which has seat 2.

Then the server is killed while it opens a journal of 300 records and bytes past its last gate: the journal still holds these records. And
it is killed while it makes a new journal: what is left is counted, and the next run has to begin with no record where there is no file,
an empty one or a whole header (of a part of one nothing is promised).

A signal ends a program, not a disk: what was written stays, whether it was synced or not. `tests/failing_calls.py` ends the program before,
in and after each call on the file; `tests/stress.py --kill` has several connections.

The last line is `N passed, M failed`, over the rounds.
"""
import argparse
import os
import random
import sys
import tempfile
import time

sys.dont_write_bytecode = True

from sweeping import (  # noqa: E402
    NAMES, SCRIPT, Book, History, Link, Run, Server, add_options, begin, journal_bytes, journal_of, read_file, report_of, run, shown,
    summary_of, write_file)

AHEAD = 64
# The longest pause between a reply and the signal, in seconds: some reports' time.
PAUSE = 0.0002
ROUND_SECONDS = 60


def a_report(rng):
    if rng.random() < 0.6:
        return b"E " + rng.choice(NAMES)
    return b" ".join([b"R"] + rng.sample(NAMES, rng.randint(0, 3)))


def wait(seconds):
    """Waits without giving the processor away, since a sleep would be too long."""
    end = time.perf_counter() + seconds
    while time.perf_counter() < end:
        pass


def talk(server, rng, lines, ahead):
    """The replies to as many lines as were answered before the server was killed."""
    link = Link(server.port)
    last, pause = rng.randrange(len(lines) + 1), rng.random() * PAUSE
    replies, sent = [], 0
    while len(replies) < last:
        if sent == len(replies):
            batch = lines[sent:sent + (rng.randint(1, AHEAD) if ahead else 1)]
            link.send(b"".join(line + b"\n" for line in batch))
            sent += len(batch)
        reply = link.reply()
        if reply is None:
            break
        replies.append(reply)
    if sent < len(lines):
        link.send(lines[sent] + b"\n")
    wait(pause)
    server.kill()
    replies += link.rest()
    link.close()
    return replies


def entries_of(lines):
    history = History()
    for line in lines:
        history.add(1, *in_order(line))
    return history


def in_order(line):
    kind, names = report_of(line)
    return kind, [name for name in NAMES if name in names]


def journal_problems(data, lines, answered, more):
    """What is wrong with the journal after so many of the lines were answered, and its entries. It may have so many more."""
    held = journal_of(data)
    if isinstance(held, str):
        return ["the journal: %s" % held], []
    if (held.script, held.root) != (SCRIPT, b"P"):
        return ["the journal has the script %s" % shown(held.script)], []
    wanted = entries_of(lines).entries[:len(held.records)]
    problems = [] if held.records == wanted else ["the journal has other entries than were reported"]
    if not answered <= len(held.records) <= answered + more:
        problems.append("%d reports were answered, the journal has %d" % (answered, len(held.records)))
    return problems, held.records


def replay_problems(program, folder, records):
    """What is wrong with `replay` of the journal, which was left with these records."""
    summary, status = summary_of(records)
    wanted, problems = Run(summary, b"", status), []
    for _ in range(2):
        done = run([program, "replay", "j"], folder, seconds=ROUND_SECONDS)
        problems += [] if done == wanted else ["replay: %s, wanted %s" % (done, wanted)]
    return problems


def next_run_problems(program, folder, records):
    """What is wrong with a further run on the journal, which was left with these records, or is to be made anew."""
    history, problems = History(), []
    for seat, _, kind, names, _ in records:
        history.add(seat, kind, list(names))
    seat = max([record[0] for record in records], default=0) + 1
    server = Server(program, folder, seconds=ROUND_SECONDS)
    if not server.listening():
        return ["serve: %s" % (server.end(),)]
    link = Link(server.port)
    before = history.rejected
    for line in (b"S", b"N", b"E a", b"R a b", b"S", b"Q"):
        wanted = history.answer(line, seat)
        reply = link.ask(line)
        problems += [] if reply == wanted else ["%s: %s, wanted %s" % (line, reply, wanted)]
    link.close()
    end = server.end()
    if end != Run(history.summary() + b"\n", b"", int(history.rejected > before)):
        problems.append("serve ended with %s" % (end,))
    if read_file(os.path.join(folder, "j")) != journal_bytes(history.entries):
        problems.append("the journal has other bytes at the end than its entries")
    return problems


def going_on_problems(program, folder, records):
    return replay_problems(program, folder, records) + next_run_problems(program, folder, records)


def one_round(options, number, book):
    rng = random.Random("%d round %d" % (options.seed, number))
    lines = [a_report(rng) for _ in range(options.reports)]
    with tempfile.TemporaryDirectory(prefix="stops-", dir=options.folder) as folder:
        write_file(os.path.join(folder, "p.csp"), SCRIPT)
        server = Server(options.program, folder, seconds=ROUND_SECONDS)
        if not server.listening():
            return book.note("round", ["serve: %s" % (server.end(),)], {})
        ahead = number % 2 == 1
        replies = talk(server, rng, lines, ahead)
        end = server.end()
        data = read_file(os.path.join(folder, "j"))
        problems = [] if end.status == -9 else ["the server ended with %s" % (end,)]
        history = History()
        if replies != [history.answer(line) for line in lines[:len(replies)]]:
            problems.append("the replies are not the wanted ones")
        found, records = journal_problems(data, lines, len(replies), more=AHEAD if ahead else 1)
        problems += found or going_on_problems(options.program, folder, records)
    book.count("stops", "rounds")
    book.count("stops", "reports answered", len(replies))
    book.count("stops", "journals with more reports than were answered", int(len(records) > len(replies)))
    book.count("stops", "journals with bytes past the first closed gate", int(journal_bytes(records) != data))
    book.note("round", problems, {"j": data})


def time_to_listen(options, data):
    """How long the server takes to open these bytes and to listen, in seconds."""
    with tempfile.TemporaryDirectory(prefix="stops-", dir=options.folder) as folder:
        write_file(os.path.join(folder, "p.csp"), SCRIPT)
        write_file(os.path.join(folder, "j"), data)
        server = Server(options.program, folder)
        start = time.perf_counter()
        server.listening()
        seconds = time.perf_counter() - start
        server.kill()
        server.end()
    return seconds


def killed_early(options, folder, rng, longest):
    """Ends a server at a moment from its start to `longest` after it. Whether it listened by then."""
    server = Server(options.program, folder)
    wait(rng.random() * longest)
    server.kill()
    listened = server.listening()
    server.end()
    return listened


def one_opening(options, number, longest, book):
    rng = random.Random("%d opening %d" % (options.seed, number))
    history = entries_of([a_report(rng) for _ in range(300)])
    data = journal_bytes(history.entries)
    with tempfile.TemporaryDirectory(prefix="stops-", dir=options.folder) as folder:
        write_file(os.path.join(folder, "p.csp"), SCRIPT)
        write_file(os.path.join(folder, "j"), data + b"junk")
        listened = killed_early(options, folder, rng, longest)
        left = read_file(os.path.join(folder, "j"))
        problems = [] if left in (data, data + b"junk") else ["the journal was %d bytes long, and is %d" % (len(data) + 4, len(left))]
        problems += going_on_problems(options.program, folder, history.entries)
    book.count("openings", "kills")
    book.count("openings", "listening already", int(listened))
    book.count("openings", "cut already", int(left == data))
    book.note("opening", problems, {"j": left})


def one_creation(options, number, longest, book):
    rng = random.Random("%d creation %d" % (options.seed, number))
    with tempfile.TemporaryDirectory(prefix="stops-", dir=options.folder) as folder:
        write_file(os.path.join(folder, "p.csp"), SCRIPT)
        killed_early(options, folder, rng, longest)
        left = read_file(os.path.join(folder, "j"))
        what = {None: "no file", b"": "empty file", journal_bytes([]): "whole header"}.get(left, "a part of the header")
        problems = [] if what == "a part of the header" else next_run_problems(options.program, folder, [])
    book.count("creations", "kills")
    book.count("creations", what)
    book.note("creation", problems, {"j": left or b""})


def main():
    parser = argparse.ArgumentParser(description=__doc__.split("\n")[0])
    add_options(parser, "stops")
    parser.add_argument("--rounds", type=int, default=200)
    parser.add_argument("--reports", type=int, default=2000)
    parser.add_argument("--openings", type=int, default=50)
    parser.add_argument("--creations", type=int, default=50)
    options = parser.parse_args()
    if not begin(options):
        return 1
    book, start = Book(options.keep), time.monotonic()
    print("seed %d" % options.seed, flush=True)
    for number in range(options.rounds):
        one_round(options, number, book)
    book.tell("stops")
    records = journal_bytes(entries_of([a_report(random.Random(options.seed)) for _ in range(300)]).entries)
    longest = 1.3 * min(time_to_listen(options, records) for _ in range(3))
    for number in range(options.openings):
        one_opening(options, number, longest, book)
    book.tell("openings")
    longest = 1.3 * min(time_to_listen(options, b"") for _ in range(3))
    for number in range(options.creations):
        one_creation(options, number, longest, book)
    book.tell("creations")
    print("%.0f seconds" % (time.monotonic() - start))
    return book.end()


if __name__ == "__main__":
    sys.exit(main())
