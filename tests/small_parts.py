#!/usr/bin/env python3
"""Journals in parts, by a program whose parts take 50 records, which `tests/variant.py` builds where none is named: real files, real servers.

    tests/small_parts.py [--program FILE] [--only reports reading follow beside damage kills calls] [--kills 200] [--every 1] [--seed 1]
        [--jobs 4] [--keep DIR] [--folder DIR] [--seconds 10]

What is wanted comes from `tests/reference/parts.py`, which is written from docs/PARTS.md, and from the few lines of Python of `sweeping.py`
that judge the reports; SHA-256 is that of hashlib.

- `reports`: `serve --large` is sent reports over more than three parts: one by one by the client for Python, many ahead, by several connections
  at once, and by runs that go on at each end of a part. Each reply has its place, and after each reply the files are those that docs/PARTS.md
  asks for, byte for byte. Another script is refused, and so is a second run; the log of a service says when a part is begun.
- `reading`: `replay`, `replay --read-only` and `show`, in all its ways, of journals that end around the end of a part.
- `follow`: `show --follow` beside a server goes on over the ends of parts; what becomes another journal or gets a fault ends it.
- `beside`: `show` and `replay --read-only` while reports come: a beginning of the history, with all that was answered before.
- `damage`: each byte of three parts is changed to another value, each part is cut at each length, parts are missing, exchanged, of another
  script, of another root, or too many: `replay --read-only` and `show` answer as the reference does, and write nothing; `replay` leaves what
  the reference says; `serve` refuses what they refuse, and writes nothing.
- `kills`: the server is killed at random moments, most of them around the end of a part, and started again on the same files: they hold each
  report that was answered, once, at its place.
- `calls`: each call on a file or on the folder fails once, and from there on, while a part is begun, and is the last one of a killed program
  (`failing_calls.c`): the reply is `ERR 30 journal`, and the files hold each report that was answered. And each call of what reads three
  parts fails: all of them are shown, or a fault is reported.

The last line is `N passed, M failed`.
"""
import argparse
import concurrent.futures
import contextlib
import json
import os
import random
import re
import shutil
import signal
import subprocess
import sys
import tempfile
import threading
import time

sys.dont_write_bytecode = True

import variant  # noqa: E402
from part_stops import (  # noqa: E402
    try_calls, try_kills)
from part_files import (  # noqa: E402
    LARGE, LATE, LOOKS, SIZE, SOON, WAYS, Wanted, asked, client_of, ended_problems, files_in, files_with, held_by, held_problems,
    history_of, history_with, line_of, name_at, reading_problems, replay_problems, reports, serving, state_of, write_files)
from sweeping import (  # noqa: E402
    HERE, NAMES, SCRIPT, Book, History, Link, Run, Server, add_options, begin, read_file, report_of, run, shown, write_file)

sys.path.insert(0, os.path.join(os.path.dirname(HERE), "clients", "python"))

from cspwatch_client import Status  # noqa: E402
from reference import parts as reference  # noqa: E402


KINDS = ["reports", "reading", "follow", "beside", "damage", "kills", "calls"]


# --- Reports ---

def one_by_one(options, folder):
    """One connection, and a look at the files after each reply."""
    history = History()
    write_files(folder, [])
    server = Server(options.program, folder, more=LARGE)
    if not server.listening():
        yield "it ended with %s" % (server.end(),)
        return
    with client_of(server) as client:
        for line in reports(3 * SIZE + 25):
            wanted = history.answer(line)
            if (reply := asked(client, line)) != wanted:
                yield "%s was answered %s, wanted %s" % (line, reply, wanted)
            yield from held_problems(folder, history.entries)
        if (status := client.status()) != Status(len(history.entries), history.events, history.refusals, history.rejected, False):
            yield "the status is %s" % (status,)
    yield from ended_problems(server.end(), history)
    yield from held_problems(folder, history.entries)


def going_on(options, folder):
    """Runs that end around the ends of parts, each a seat of its own."""
    history = History()
    write_files(folder, [])
    for seat, count in enumerate((SIZE - 1, 1, 1, SIZE - 1, SIZE, 0, 2 * SIZE + 1), 1):
        before = history.rejected
        server = Server(options.program, folder, more=LARGE)
        if not server.listening():
            yield "run %d ended with %s" % (seat, server.end())
            return
        # A seat without reports is given again.
        given = max([entry[0] for entry in history.entries], default=0) + 1
        link = Link(server.port)
        for line in reports(count, len(history.entries)) + [b"N", b"S"]:
            wanted = history.answer(line, given)
            if (reply := link.ask(line)) != wanted:
                yield "%s was answered %s, wanted %s" % (line, reply, wanted)
        link.close()
        yield from ended_problems(server.end(), history, before)
        yield from held_problems(folder, history.entries)


def ahead(options, folder):
    """Lines that are sent ahead, so that a group of them goes over the ends of parts."""
    history = History()
    write_files(folder, [])
    server = Server(options.program, folder, more=LARGE)
    if not server.listening():
        yield "it ended with %s" % (server.end(),)
        return
    link = Link(server.port)
    for count in (1, SIZE - 1, 1, SIZE, SIZE + 1, 2 * SIZE, 2 * SIZE + 1, 256, 3):
        lines = reports(count, len(history.entries))
        link.send(b"".join(line + b"\n" for line in lines))
        wanted = [history.answer(line) for line in lines]
        replies = [link.reply() for _ in lines]
        if replies != wanted:
            yield "%d lines ahead were answered %s, wanted %s" % (count, replies, wanted)
        yield from held_problems(folder, history.entries)
    link.close()
    yield from ended_problems(server.end(), history)


def talk(server, own):
    """One of several connections: its reports and their replies."""
    link = Link(server.port)
    lines = reports(80, own)
    link.send(b"".join(line + b"\n" for line in lines[:40]))
    replies = [link.reply() for _ in lines[:40]]
    replies += [link.ask(line) for line in lines[40:]]
    link.ask(b"Q")
    link.close()
    return lines, replies


def at_once(options, folder):
    """Several connections: each reply's place is that of its report in the journal, and no other's."""
    count = 6
    write_files(folder, [])
    server = Server(options.program, folder, connections=count, more=LARGE)
    if not server.listening():
        yield "it ended with %s" % (server.end(),)
        return
    with concurrent.futures.ThreadPoolExecutor(count) as pool:
        talks = list(pool.map(lambda own: talk(server, own), range(count)))
    end = server.end()
    entries = held_by(files_in(folder))
    if isinstance(entries, str):
        yield "the files: %s" % entries
        return
    history = history_with(entries)
    yield from held_problems(folder, history.entries)
    yield from ended_problems(end, history)
    places = set()
    for lines, replies in talks:
        own = [int(reply.split(b" ")[1]) for reply in replies]
        found = [history.entries[place - 1] for place in own if place <= len(entries)]
        kinds = [(kind, tuple(name for name in NAMES if name in names)) for kind, names in map(report_of, lines)]
        if own != sorted(own) or places & set(own) or [entry[2:4] for entry in found] != kinds or len({entry[0] for entry in found}) != 1:
            yield "the replies of a connection are %s" % (replies,)
        if [b"OK" if entry[4] else b"NO" for entry in found] != [reply.split(b" ")[0] for reply in replies]:
            yield "the verdicts of a connection are others than in the journal"
        places |= set(own)
    if places != set(range(1, len(entries) + 1)):
        yield "the journal has %d entries, and %d were answered" % (len(entries), len(places))


def elsewhere(options, folder):
    """Parts that stand in another folder, and were given another name; beside them files that are no parts."""
    history = history_of(reports(2 * SIZE + 3))
    os.mkdir(os.path.join(folder, "logs"))
    write_files(folder, [])
    for place, data in enumerate(files_with(history.entries), 1):
        write_file(os.path.join(folder, "logs", name_at(place, "run.journal")), data)
    for other in ("run.journal.1", "run.journal.04", "run.journal.4x", "run.journal.x", "run.journal.", "xrun.journal.4", "run.journal.4.5"):
        write_file(os.path.join(folder, "logs", other), b"no part")
    for path in ("logs/run.journal", os.path.join(folder, "logs", "run.journal")):
        wanted = Run(history.summary() + b"\n", b"", 1)
        for words in (["replay", path], ["replay", "--read-only", path]):
            if (done := run([options.program, *words], folder)) != wanted:
                yield "%s: %s, wanted %s" % (" ".join(words), done, wanted)
    with tempfile.TemporaryDirectory(prefix="parts-", dir=options.folder) as other:
        write_files(other, files_with(history.entries), "k")
        if (done := run([options.program, "replay", "k"], other)) != Run(history.summary() + b"\n", b"", 1):
            yield "by another name: %s" % (done,)


def refused(options, folder):
    """A second run on the same parts, another script, another root, and the journal without --large."""
    history = history_of(reports(2 * SIZE + 3))
    write_files(folder, files_with(history.entries))
    write_file(os.path.join(folder, "other.csp"), SCRIPT + b"-- another one\n")
    with serving(options, folder) as server:
        before = state_of(folder)
        if server is None:
            yield "it doesn't listen"
        for words in (["replay", "j"], ["serve", "p.csp", "P", "j", "--listen", "127.0.0.1:0", *LARGE]):
            if (done := run([options.program, *words], folder)) != Run(b"", b"j: cannot open\n", 5):
                yield "%s while a server has the journal: %s" % (words[0], done)
    of_another = Run(b"", b"j: 54 specification\n", 4)
    for words in (["other.csp", "P", "j", *LARGE], ["p.csp", "Q", "j", *LARGE], ["p.csp", "P", "j"]):
        done = run([options.program, "serve", *words, "--listen", "127.0.0.1:0"], folder)
        if done != of_another:
            yield "serve %s: %s, wanted %s" % (" ".join(words), done, of_another)
        # Without the word the first part is opened as a journal of one file, and cut where it ends.
        if state_of(folder) != before if LARGE[0] in words else files_in(folder) != files_with(history.entries):
            yield "the files were changed by serve %s" % " ".join(words)


def without_first(options, folder):
    """Further parts where the first one is gone: nothing is begun, and no file is left."""
    write_files(folder, [None, *files_with(history_of(reports(2 * SIZE + 3)).entries)[1:]])
    before = state_of(folder)
    for words, told, status in ((["serve", "p.csp", "P", "j", "--listen", "127.0.0.1:0", *LARGE], b"j: 50 header\n", 4),
                                (["replay", "j"], b"j: cannot read\n", 5), (["show", "j"], b"j: cannot read\n", 5)):
        if (done := run([options.program, *words], folder)) != Run(b"", told, status):
            yield "%s without the first part: %s" % (words[0], done)
    if state_of(folder) != before:
        yield "the files were changed"


def logged(options, folder):
    """The log of a service says of each part but the first when it has its first report."""
    history, seat = History(), 1001
    write_files(folder, [])
    server = Server(options.program, folder, connections=0, more=[*LARGE, "--until-idle", "--log", "log"])
    if not server.listening():
        yield "it ended with %s" % (server.end(),)
        return
    link = Link(server.port)
    lines = reports(3 * SIZE + 1)
    link.send(b"".join(line + b"\n" for line in lines[:-1]))
    replies = [link.reply() for _ in lines[:-1]] + [link.ask(lines[-1])]
    if replies != [history.answer(line, seat) for line in lines]:
        yield "the replies are %s" % (replies,)
    link.ask(b"Q")
    link.close()
    yield from ended_problems(server.end(), history)
    yield from held_problems(folder, history.entries)
    told = [json.loads(line) for line in (read_file(os.path.join(folder, "log")) or b"").splitlines()]
    if (begun := [line.get("part") for line in told if line["what"] == "part"]) != [2, 3, 4]:
        yield "the log says that the parts %s were begun" % begun


def each_test(options, book, kind, tests):
    """Runs these tests, each in a folder of its own."""
    for test in tests:
        with tempfile.TemporaryDirectory(prefix="parts-", dir=options.folder) as folder:
            problems = ["%s: %s" % (test.__name__, problem) for problem in test(options, folder)]
            left = {name: data for name, (data, _) in state_of_files(folder).items()} if problems else {}
        book.count(kind, "tests")
        book.note(kind, problems[:20], left)


def state_of_files(folder):
    """The same as `state_of`, of a folder that may have folders."""
    with contextlib.suppress(IsADirectoryError):
        return state_of(folder)
    return {}


def try_reports(options, book):
    each_test(options, book, "reports", [one_by_one, going_on, ahead, at_once, elsewhere, refused, without_first, logged])


# --- Reading ---

def try_reading(options, book):
    for count in (0, 1, SIZE - 1, SIZE, SIZE + 1, 2 * SIZE - 1, 2 * SIZE, 2 * SIZE + 1, 3 * SIZE + 20):
        for after in (b"", b"x", b"junk"):
            files = files_with(history_of(reports(count)).entries)
            files[-1] += after
            with tempfile.TemporaryDirectory(prefix="parts-", dir=options.folder) as folder:
                write_files(folder, files)
                wanted = Wanted(files, WAYS)
                problems = [*reading_problems(options, folder, wanted), *replay_problems(options, folder, wanted)]
            book.count("reading", "journals")
            book.note("reading", ["%d reports and %s: %s" % (count, after, problem) for problem in problems], dict(zip(map(name_at, range(1, 9)), files)))


# --- Following ---

class Follower:
    """A run of `show --follow`."""

    def __init__(self, options, folder, words=()):
        self.output = os.path.join(folder, "-".join(["followed", *words]))
        with open(self.output, "wb") as file:
            self.process = subprocess.Popen([options.program, "show", "--follow", *words, "j"], cwd=folder, stdout=file, stderr=subprocess.PIPE)

    def lines(self):
        return (read_file(self.output) or b"").decode().splitlines()

    def reaches(self, wanted):
        """Whether it has printed just these lines within some seconds."""
        end = time.monotonic() + SOON
        while time.monotonic() < end and len(self.lines()) < len(wanted):
            time.sleep(0.05)
        return self.lines() == wanted

    def told(self):
        """Its status and what it reported, once it has ended by itself."""
        try:
            _, errors = self.process.communicate(timeout=SOON)
        except subprocess.TimeoutExpired:
            self.stop()
            return None, b""
        return self.process.returncode, errors

    def stop(self):
        self.process.send_signal(signal.SIGTERM)
        self.process.communicate(timeout=SOON)
        return self.process.returncode


FOLLOWED = {"text": ([], (False, False, False)), "json": (["--format", "json"], (False, False, True)), "rejected": (["--rejected"], (True, False, False))}


def shown_lines(files, way):
    """The lines of `show` but for the last, the summary."""
    return Wanted(files, [way]).shows[way].out.decode().splitlines()[:-1]


def beside_a_server(options, folder):
    history = History()
    write_files(folder, [])
    server = Server(options.program, folder, more=LARGE)
    if not server.listening():
        yield "it ended with %s" % (server.end(),)
        return
    followers = {name: Follower(options, folder, words) for name, (words, _) in FOLLOWED.items()}
    link = Link(server.port)
    for count in (3, SIZE - 3, 1, SIZE - 1, 2, 2 * SIZE):
        lines = reports(count, len(history.entries))
        link.send(b"".join(line + b"\n" for line in lines))
        for line in lines:
            history.answer(line)
            link.reply()
        for name, (_, way) in FOLLOWED.items():
            wanted = shown_lines(files_with(history.entries), way)
            if not followers[name].reaches(wanted):
                yield "%s: after %d reports %d lines are shown, wanted %d" % (name, len(history.entries), len(followers[name].lines()), len(wanted))
    link.close()
    yield from ended_problems(server.end(), history)
    time.sleep(1.2)
    for name, (_, way) in FOLLOWED.items():
        if followers[name].lines() != shown_lines(files_with(history.entries), way):
            yield "%s: the lines at the end are others" % name
        if followers[name].stop() != -signal.SIGTERM:
            yield "%s: it ended before it was stopped" % name
    yield from held_problems(folder, history.entries)


def other_journal(options, folder):
    """Parts that become those of another history, or get a fault, while they are followed."""
    files = files_with(history_of(reports(2 * SIZE + 20)).entries)
    fewer = files_with(history_of(reports(2 * SIZE + 10)).entries)
    wanted = shown_lines(files, (False, False, False))
    for changed, told in ((fewer[2], b"j: is another journal now\n"), (files[2].replace(b"part 3", b"part 4"), b"j: 55 part 3\n")):
        write_files(folder, files)
        follower = Follower(options, folder)
        if not follower.reaches(wanted):
            yield "%d lines of the whole journal are shown" % len(follower.lines())
        write_file(os.path.join(folder, "new"), changed)
        os.replace(os.path.join(folder, "new"), os.path.join(folder, "j.3"))
        if (found := follower.told()) != (4, told):
            yield "%s, wanted %s" % (found, told)


def try_follow(options, book):
    each_test(options, book, "follow", [beside_a_server, other_journal])


# --- Beside a server ---

def looked_at(options, folder, end, answered, seen, problems):
    """Looks at the journal again and again, until reports have ended."""
    while not end.is_set():
        least = len(answered)
        for words in (["show", "j"], ["replay", "--read-only", "j"]):
            done = run([options.program, *words], folder)
            found = re.fullmatch(rb"((?s:.*)\n)?S ([0-9]+) [0-9]+ [0-9]+ [0-9]+ open\n", done.out)
            if not found or done.status not in (0, 1) or int(found.group(2)) < least:
                problems.append("%s after %d answers: %s, %s, %s" % (words[0], least, shown(done.out[-100:]), done.err, done.status))
            elif words[0] == "show":
                seen.append(done.out)


def while_reports_come(options, folder):
    history, answered, seen, problems, end = History(), [], [], [], threading.Event()
    write_files(folder, files_with([]))
    server = Server(options.program, folder, seconds=120, more=LARGE)
    if not server.listening():
        yield "it ended with %s" % (server.end(),)
        return
    watchers = [threading.Thread(target=looked_at, args=(options, folder, end, answered, seen, problems)) for _ in range(2)]
    for watcher in watchers:
        watcher.start()
    link = Link(server.port)
    for line in reports(60 * SIZE):
        if len(seen) >= LOOKS and len(answered) > 6 * SIZE:
            break
        history.answer(line)
        answered.append(link.ask(line))
        time.sleep(0.001)
    end.set()
    for watcher in watchers:
        watcher.join()
    link.close()
    yield from ended_problems(server.end(), history)
    yield from problems
    whole = shown_lines(files_with(history.entries), (False, False, False))
    for text in seen:
        lines = text.decode().splitlines()
        if lines[:-1] != whole[:len(lines) - 1]:
            yield "show printed %d lines that aren't the first ones" % len(lines)
    if len({len(text) for text in seen}) < LOOKS / 8:
        yield "only %d looks were different" % len({len(text) for text in seen})


def read_slowly(options, folder):
    """Readers of which each read begins late, so that reports come to the last part after its size was asked for."""
    if shutil.which("strace") is None or run(["strace", "-f", "true"], folder).status != 0:
        print("left out: readers that are slow: there is no strace, or it may not be used", flush=True)
        return
    slow = ["strace", "-f", "-o", os.path.join(folder, "trace"), "-e", "trace=pread64,read", "-e", "inject=pread64,read:delay_enter=%d" % LATE]
    for words in (["show", "j"], ["replay", "--read-only", "j"]):
        history = history_of(reports(2 * SIZE + 3))
        least = len(history.entries)
        write_files(folder, files_with(history.entries))
        server = Server(options.program, folder, seconds=60, more=LARGE)
        if not server.listening():
            yield "it ended with %s" % (server.end(),)
            return
        link, before = Link(server.port), history.rejected
        with tempfile.TemporaryFile() as output, tempfile.TemporaryFile() as told:
            reader = subprocess.Popen([*slow, options.program, *words], cwd=folder, stdout=output, stderr=told)
            while reader.poll() is None:
                # One that is full isn't added to.
                if len(history.entries) < 3 * SIZE - 1:
                    line = reports(1, len(history.entries))[0]
                    if (reply := link.ask(line)) != (wanted := history.answer(line, 2)):
                        yield "%s was answered %s, wanted %s" % (line, reply, wanted)
                time.sleep(LATE / 5e6)
            out, errors = (file.seek(0) or file.read() for file in (output, told))
        found = re.fullmatch(rb"((?s:.*)\n)?S ([0-9]+) [0-9]+ [0-9]+ [0-9]+ open\n", out)
        if not found or int(found.group(2)) < least:
            yield "%s while reports come, with slow reads: %s, %s" % (words[0], shown(out[-100:]), errors)
        link.close()
        yield from ended_problems(server.end(), history, before)
        yield from held_problems(folder, history.entries)


def try_beside(options, book):
    each_test(options, book, "beside", [while_reports_come, read_slowly])


# --- Damage ---

def damages(options):
    """Each damaged journal of three parts: what it is, its files, and a place from which on each change is seen."""
    rng = random.Random("%d damage" % options.seed)
    entries = history_of(reports(2 * SIZE + 4)).entries
    files = files_with(entries)
    for place, data in enumerate(files):
        for at in range(len(data)):
            for new in {data[at] ^ 1 << rng.randrange(8), rng.choice([byte for byte in b"+-.0123456789 ERx\n" if byte != data[at]])}:
                changed = data[:at] + bytes([new]) + data[at + 1:]
                # Of a full part all up to its last LF is summed.
                is_summed = place < 2 and at < len(data) - 1
                yield "byte %d of part %d is %d" % (at, place + 1, new), files[:place] + [changed] + files[place + 1:], is_summed
        for length in range(len(data)):
            yield "part %d has %d bytes" % (place + 1, length), files[:place] + [data[:length]] + files[place + 1:], place < 2
            if place < 2:
                # The same, where it is the last part.
                yield "part %d, the last one, has %d bytes" % (place + 1, length), files[:place] + [data[:length]], False
    yield from wrong_parts(files, entries)


def wrong_parts(files, entries):
    """Journals of which a whole part is wrong."""
    first, second, third = files
    other_script, other_root = files_with(entries, SCRIPT + b"-- another one\n"), files_with(entries, root=b"Q")
    fewer = files_with(entries[:-1])
    shorter = reference.files_of(SCRIPT, b"P", [line_of(entry) for entry in entries], SIZE - 1)
    longer = reference.files_of(SCRIPT, b"P", [line_of(entry) for entry in entries], SIZE + 1)
    empty = reference.header(SCRIPT, b"P", 4, len(entries), "0" * 64) + b"."
    lines = [
        ("part 2 is missing", [first, None, third], True), ("part 1 is empty", [b"", second, third], True),
        ("parts 2 and 3 are exchanged", [first, third, second], True), ("parts 1 and 2 are exchanged", [second, first, third], True),
        ("part 3 twice", [first, second, third, third], True), ("part 2 once more at the end", [first, second, third, second], True),
        ("an empty part after one that isn't full", [first, second, third, b""], True),
        ("a header after one that isn't full", [first, second, third, empty], True),
        ("a part after a missing one", [first, second, None, third], True), ("part 10 alone after three", [*files, *[None] * 6, third], True),
        ("an empty part after two full ones", [first, second, b""], False), ("two empty parts after full ones", [first, second, b"", b""], True),
        ("parts of another size", shorter, True), ("parts that are too long", longer, True), ("a first part alone", [first], False),
    ]
    for what, others in (("script", other_script), ("root", other_root)):
        lines += [("part %d is of another %s" % (place + 1, what), files[:place] + [others[place]] + files[place + 1:], True) for place in range(3)]
        lines += [("parts 2 and 3 are of another %s" % what, [first, *others[1:]], True)]
    lines += [("the last part is that of fewer records", [first, second, fewer[2]], False)]
    yield from lines


def served_problems(options, folder, wanted):
    """What is wrong with a server on files that are refused."""
    before = state_of(folder)
    done = run([options.program, "serve", "p.csp", "P", "j", "--listen", "127.0.0.1:0", "--connections", "1", *LARGE], folder)
    if done != wanted.replay:
        yield "serve: %s, wanted %s" % (done, wanted.replay)
    if state_of(folder) != before:
        yield "the files were changed by a server that refused them"


def damage_problems(options, damage, is_sample):
    """What is wrong with a damaged journal, and whether it is refused."""
    what, files, is_seen = damage
    with tempfile.TemporaryDirectory(prefix="parts-", dir=options.folder) as folder:
        write_files(folder, files)
        there = [data or b"" for data in files]
        wanted = Wanted(there)
        problems = list(reading_problems(options, folder, wanted))
        if is_seen and not wanted.is_refused:
            problems.append("the reference doesn't see it")
        # An empty first file is that of a new journal.
        if wanted.is_refused and is_sample and there[0]:
            problems += served_problems(options, folder, wanted)
        if is_sample or not wanted.is_refused:
            problems += replay_problems(options, folder, wanted)
    return ["%s: %s" % (what, problem) for problem in problems], wanted


def try_damage(options, book):
    rng = random.Random("%d sample" % options.seed)
    with concurrent.futures.ThreadPoolExecutor(options.jobs) as pool:
        chosen = list(damages(options))[::options.every]
        waiting = [(damage, pool.submit(damage_problems, options, damage, rng.random() < 0.1)) for damage in chosen]
        for damage, future in waiting:
            problems, wanted = future.result()
            told = wanted.read_only.err.decode("latin-1").split(" ")
            book.count("damage", " ".join(told[1:3]).strip() if wanted.is_refused else "open")
            book.note("damage", problems, {name_at(place): data for place, data in enumerate(damage[1], 1) if data is not None})


def main():
    parser = argparse.ArgumentParser(description=__doc__.split("\n")[0])
    add_options(parser, "parts")
    parser.add_argument("--only", nargs="+", choices=KINDS, default=KINDS)
    parser.add_argument("--kills", type=int, default=200)
    parser.add_argument("--every", type=int, default=1, help="of the damaged journals each so-manieth")
    parser.add_argument("--jobs", type=int, default=os.cpu_count() or 1, help="how many of the short runs are made side by side")
    parser.set_defaults(program=None)
    options = parser.parse_args()
    try:
        options.program = options.program or variant.built(SIZE)
    except variant.Unbuilt as why:
        print("there is no variant: %s" % why)
        print("0 passed, 1 failed")
        return 1
    if not begin(options):
        return 1
    print("seed %d" % options.seed, flush=True)
    book = Book(options.keep)
    for kind in options.only:
        began = time.monotonic()
        {"reports": try_reports, "reading": try_reading, "follow": try_follow, "beside": try_beside, "damage": try_damage, "kills": try_kills,
         "calls": try_calls}[kind](options, book)
        book.tell(kind)
        print("%s: %.0f seconds" % (kind, time.monotonic() - began), flush=True)
    return book.end()


if __name__ == "__main__":
    sys.exit(main())
