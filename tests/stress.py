#!/usr/bin/env python3
"""Many connections of `serve` at once, and every answer explained by the journal.

    tests/stress.py [--program FILE] [--connections 64] [--lines 10000] [--rounds 1] [--seed 1] [--folder DIR]
    tests/stress.py --kill 200 [--connections 8] ..

Half of the connections send a line when they have read the reply to the one before; the others send up to 200 lines ahead. After each
round the journal is read, and it is checked that
- each entry has the verdict of the process after the accepted events before it, and is its seat's next;
- each `OK n` or `NO n` is the answer to entry n, which is that very report, of that connection's seat, and places rise;
- each `S` tells the counts, and each `N` the next events, of a beginning of the history that has all that the connection was told before;
- no entry is without its answer;
- the last line is the summary of the history, the status tells whether a report was rejected, and `replay` agrees.

With --kill the server is killed (signal 9) at a random moment of each round, and the next round goes on with the journal; a new one is
begun after five, before a history is full. Then each answered report has to be in the journal, the entries of the round before are its beginning, of each
connection that waits for its replies one entry at most is without an answer, and `replay` tells the summary.

The last line is `N passed, M failed`, over the rounds. The journal is in a folder in memory where there is one (--folder says another).
"""
import argparse
import os
import random
import re
import signal
import socket
import subprocess
import sys
import tempfile
import threading
import time

HERE = os.path.dirname(os.path.abspath(__file__))
PROGRAM = os.path.join(os.path.dirname(HERE), "crates", "cspwatch", "out", "cspwatch")
SCRIPT = "channel a, b, c\nP = a -> Q [] c -> P\nQ = b -> P [] c -> Q\n"
# What each state of the process offers, and the state after it. The process is deterministic: it refuses just what it doesn't offer.
NEXT = {"P": {"a": "Q", "c": "P"}, "Q": {"b": "P", "c": "Q"}}
NAMES = ["a", "b", "c", "_tick"]
AHEAD = 200
ROUNDS_OF_A_JOURNAL = 5


def a_line(rng):
    kind = rng.random()
    if kind < 0.5:
        return "E " + rng.choice(NAMES)
    if kind < 0.75:
        return " ".join(["R"] + rng.sample(NAMES, rng.randint(0, 4)))
    return "S" if kind < 0.88 else "N"


class Talker(threading.Thread):
    """A client: its lines, and the replies to as many of them as were answered."""

    def __init__(self, port, seed, count, ahead):
        super().__init__()
        rng = random.Random(seed)
        self.lines = [a_line(rng) for _ in range(count)]
        self.sizes = [rng.randint(1, AHEAD) if ahead else 1 for _ in range(count)]
        self.ahead, self.replies, self.trouble = ahead, [], None
        self.link = socket.create_connection(("127.0.0.1", port), timeout=120)
        self.link.setsockopt(socket.IPPROTO_TCP, socket.TCP_NODELAY, 1)

    def talk(self, source):
        """Whether all lines were answered."""
        at = 0
        while at < len(self.lines):
            batch = self.lines[at:at + self.sizes[at]]
            at += len(batch)
            self.link.sendall("".join(line + "\n" for line in batch).encode())
            for _ in batch:
                reply = source.readline()
                if not reply.endswith(b"\n"):
                    return False
                self.replies.append(reply[:-1].decode())
        return True

    def run(self):
        try:
            with self.link.makefile("rb") as source:
                if not self.talk(source):
                    self.trouble = "the server ended the connection"
                    return
                self.link.sendall(b"Q\n")
                if source.readline() != b"BYE\n":
                    self.trouble = "no BYE"
        except OSError as error:
            self.trouble = str(error)
        finally:
            self.link.close()


HEADER = re.compile(
    rb"(?:cspwatch journal [12]\nroot P\n|cspwatch large journal 1\nroot P\npart [0-9]+\nbefore [0-9]+\nprevious [0-9a-f-]+\n)script ([0-9]+)\n")
"""What a journal, or a part of a large one, begins with before its script."""


class History:
    """The entries of a journal as (seat, number, kind, names, verdict), and of each beginning the counts and the state. A large journal
    may have several files."""

    def __init__(self, *files):
        self.entries, self.problems = [], []
        self.counts, self.states = [(0, 0, 0)], ["P"]
        self.numbers = {}
        for data in files:
            for entry in entries_of(data):
                self.add(entry)
        # The shortest beginning from each length on that is in a state.
        self.soonest = {state: [None] * (len(self.states) + 1) for state in NEXT}
        for at in range(len(self.states) - 1, -1, -1):
            for state in NEXT:
                self.soonest[state][at] = at if self.states[at] == state else self.soonest[state][at + 1]

    def add(self, entry):
        seat, number, kind, names, verdict = entry
        state = self.states[-1]
        if kind == "E":
            (name,) = names
            expected = name in NEXT[state]
            after = NEXT[state].get(name, state)
        else:
            expected, after = not any(name in NEXT[state] for name in names), state
        if verdict != expected or number != self.numbers.get(seat, 0) + 1:
            self.problems.append("entry %d is %s, in state %s" % (len(self.entries) + 1, entry, state))
        self.numbers[seat] = number
        events, refusals, rejected = self.counts[-1]
        self.counts.append((events + (kind == "E" and verdict), refusals + (kind == "R" and verdict), rejected + (not verdict)))
        self.entries.append(entry)
        self.states.append(after)

    def summary(self, length):
        return "S %d %d %d %d open" % ((length,) + self.counts[length])


def entries_of(data):
    """The entries of a journal of any version, of a large one those of a part."""
    header = HEADER.match(data)
    at = header.end() + int(header.group(1)) + 1
    while data[at:at + 1] == b"+":
        end = data.index(b"\n", at)
        seat, number, kind, *marks = data[at + 1:end].decode().split(" ")
        names = frozenset(NAMES[int(mark) - 1] if mark.isdigit() else mark for mark in marks)
        yield int(seat), int(number), kind[0], names, kind[1] == "+"
        at = end + 1
    if at >= len(data):
        raise ValueError("the journal ends without a gate")


class Explained:
    """The answers of one connection, held against the history."""

    def __init__(self, history, begun):
        self.history, self.seen, self.seat = history, begun, None
        self.answered, self.problems = 0, []

    def answer(self, line, reply):
        if reply[:3] in ("OK ", "NO "):
            good = self.entry(line, reply)
        elif reply[:2] == "S ":
            good = self.status(line, reply)
        elif reply[:1] == "N":
            good = self.next(line, reply)
        else:
            good = False
        if not good:
            self.problems.append("%s: %s, seen %d" % (line, reply, self.seen))

    def entry(self, line, reply):
        place = int(reply[3:])
        if not self.seen < place <= len(self.history.entries):
            return False
        seat, _, kind, names, verdict = self.history.entries[place - 1]
        self.seat = self.seat or seat
        self.seen = place
        self.answered += 1
        return (seat, kind, names, verdict) == (self.seat, line[0], frozenset(line.split(" ")[1:]), reply[:2] == "OK")

    def status(self, line, reply):
        length = int(reply.split(" ")[1])
        if line != "S" or not self.seen <= length <= len(self.history.entries):
            return False
        self.seen = length
        return reply == self.history.summary(length)

    def next(self, line, reply):
        state = next((state for state in NEXT if reply == " ".join(["N"] + sorted(NEXT[state]))), None)
        if line != "N" or state is None or self.history.soonest[state][self.seen] is None:
            return False
        self.seen = self.history.soonest[state][self.seen]
        return True


def unexplained(talkers, history, begun, killed):
    """What no history explains, or what is missing."""
    problems = list(history.problems)
    seats = []
    for number, talker in enumerate(talkers, 1):
        if talker.trouble and not killed:
            problems.append("connection %d: %s after %d replies" % (number, talker.trouble, len(talker.replies)))
        told = Explained(history, begun)
        for line, reply in zip(talker.lines, talker.replies):
            told.answer(line, reply)
        problems += ["connection %d: %s" % (number, problem) for problem in told.problems]
        if told.seat:
            seats.append(told.seat)
            missing = history.numbers[told.seat] - told.answered
            if missing and not killed or missing > 1 and not talker.ahead:
                problems.append("connection %d: %d entries without an answer" % (number, missing))
    if len(set(seats)) < len(seats):
        problems.append("two connections have one seat")
    return problems


class Run:
    """A server in a folder, with its clients."""

    def __init__(self, options, folder, rng):
        self.options, self.folder, self.rng = options, folder, rng
        with open(os.path.join(folder, "p.csp"), "w", encoding="utf-8") as file:
            file.write(SCRIPT)

    def history(self):
        path = os.path.join(self.folder, "j")
        if not os.path.exists(path):
            return None
        with open(path, "rb") as file:
            return History(file.read())

    def begin(self):
        words = [self.options.program, "serve", "p.csp", "P", "j", "--listen", "127.0.0.1:0", "--connections", str(self.options.connections)]
        self.process = subprocess.Popen(words, cwd=self.folder, stdout=subprocess.PIPE, stderr=subprocess.PIPE)
        port = int(self.process.stdout.readline().rsplit(b":", 1)[1])
        self.talkers = [Talker(port, self.rng.random(), self.options.lines, ahead=number % 2 == 1) for number in range(self.options.connections)]
        for talker in self.talkers:
            talker.start()

    def replayed(self):
        done = subprocess.run([self.options.program, "replay", "j"], cwd=self.folder, capture_output=True)
        return done.stdout.decode(), done.returncode

    def load(self):
        """The problems of a round without a kill."""
        start = time.monotonic()
        self.begin()
        out, err = self.process.communicate(timeout=1200)
        for talker in self.talkers:
            talker.join()
        seconds = time.monotonic() - start
        history = self.history()
        problems = unexplained(self.talkers, history, 0, False)
        summary = history.summary(len(history.entries)) + "\n"
        rejected = history.counts[-1][2] > 0
        if (out.decode(), err, self.process.returncode) != (summary, b"", int(rejected)):
            problems.append("it ended with %s, wanted %r, status %d" % ((out, err, self.process.returncode), summary, rejected))
        if self.replayed() != (summary, int(rejected)):
            problems.append("replay says %s, wanted %r" % (self.replayed(), summary))
        lines = sum(len(talker.replies) for talker in self.talkers)
        return problems, "%d lines answered in %.1f s, %d entries" % (lines, seconds, len(history.entries))

    def kill(self):
        """The problems of a round that is ended by a kill."""
        before = self.history()
        self.begin()
        time.sleep(self.rng.random() * self.options.seconds)
        self.process.send_signal(signal.SIGKILL)
        self.process.communicate()
        for talker in self.talkers:
            talker.join()
        history = self.history()
        begun = len(before.entries) if before else 0
        problems = unexplained(self.talkers, history, begun, True)
        if before and history.entries[:begun] != before.entries:
            problems.append("the entries of the run before are no more there")
        replayed = self.replayed()
        if replayed != (history.summary(len(history.entries)) + "\n", int(history.counts[-1][2] > 0)):
            problems.append("replay says %s, wanted %s" % (replayed, history.summary(len(history.entries))))
        lines = sum(len(talker.replies) for talker in self.talkers)
        return problems, "%d lines answered, %d entries of this round" % (lines, len(history.entries) - begun)


def rounds_of(options, rng):
    """What is wrong in each round, and what was done."""
    for number in range(options.kill or options.rounds):
        if number % ROUNDS_OF_A_JOURNAL == 0 or not options.kill:
            folder = tempfile.TemporaryDirectory(prefix="stress-", dir=options.folder)
            run = Run(options, folder.name, rng)
        yield run.kill() if options.kill else run.load()


def main():
    parser = argparse.ArgumentParser(description=__doc__.split("\n")[0])
    parser.add_argument("--program", default=PROGRAM)
    parser.add_argument("--connections", type=int)
    parser.add_argument("--lines", type=int, default=10_000)
    parser.add_argument("--rounds", type=int, default=1)
    parser.add_argument("--seed", type=int, default=1)
    parser.add_argument("--folder", default="/dev/shm" if os.path.isdir("/dev/shm") else None)
    parser.add_argument("--kill", type=int, default=0, help="how many rounds are ended by a kill")
    parser.add_argument("--seconds", type=float, default=0.5, help="the longest time before a kill")
    options = parser.parse_args()
    options.program = os.path.abspath(options.program)
    options.connections = options.connections or (8 if options.kill else 64)
    passed = failed = 0
    for number, (problems, done) in enumerate(rounds_of(options, random.Random(options.seed)), 1):
        failed += bool(problems)
        passed += not problems
        for problem in problems[:20]:
            print("round %d: %s" % (number, problem))
        if problems or not options.kill or number % 20 == 0:
            print("round %d: %s" % (number, done), flush=True)
    print("%d passed, %d failed" % (passed, failed))
    return 1 if failed else 0


if __name__ == "__main__":
    sys.exit(main())
