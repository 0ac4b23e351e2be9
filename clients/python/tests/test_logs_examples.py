"""The recorded logs of real systems, over the program. Run by `python3 -m unittest discover -s clients/python/tests`."""
import os
import re
import subprocess
import sys
import unittest

sys.path[:0] = [os.path.dirname(os.path.abspath(__file__))]

from logs_folder import CLIENTS, NEEDS  # noqa: E402
from stand_in import program  # noqa: E402

PROGRAM = program()
REAL = os.path.join(os.path.dirname(CLIENTS), "examples", "real")
ROWS = os.path.join(REAL, "rows.py")

SUMMARY = re.compile(r"(\d+) lines, (\d+) reports: (\d+) accepted, (\d+) rejected, (\d+) not judged; .*")
LOCK = re.compile(r"\[(\d+)\] LOG:  statement: WITH .* id = (\d) FOR UPDATE NOWAIT")
END = re.compile(r"\[(\d+)\] (LOG:  duration|ERROR:  could not obtain lock)")
COMMIT = re.compile(r"\[(\d+)\] LOG:  statement: COMMIT")
TICK = 100
"""Milliseconds."""


def lines_of(*path):
    with open(os.path.join(REAL, *path), encoding="utf-8") as file:
        return file.read().splitlines()


def summary(*path):
    """The numbers of lines and reports, and of those that were accepted, rejected and not judged, as they are kept of a log."""
    return [int(number) for number in SUMMARY.fullmatch(lines_of(*path)[-1]).groups()]


def lock_given_twice(lines):
    """The number of the first line by which a client has a row that another one hasn't given back yet; None where there is none."""
    asks, owners = {}, {}
    for number, line in enumerate(lines, 1):
        if found := LOCK.search(line):
            asks[found[1]] = found[2]
        elif found := COMMIT.search(line):
            owners = {row: pid for row, pid in owners.items() if pid != found[1]}
        elif (found := END.search(line)) and found[1] in asks:
            row = asks.pop(found[1])
            if found[2].startswith("LOG") and row in owners:
                return number
            if found[2].startswith("LOG"):
                owners[row] = found[1]
    return None


@NEEDS
@unittest.skipUnless(PROGRAM, "there is no program")
class RealExamples(unittest.TestCase):
    def test_verdicts_and_rows(self):
        done = subprocess.run([sys.executable, "-B", ROWS, "--program", PROGRAM], stdout=subprocess.PIPE, stderr=subprocess.STDOUT, timeout=300)
        self.assertEqual((done.returncode, done.stdout.decode()), (0, "17 passed, 0 failed\n"))


class WhatWasRecorded(unittest.TestCase):
    """What is kept of the newer logs, against what the logs themselves say: counted and searched without the tool."""

    def test_locks_on_rows(self):
        lines = lines_of("postgres", "rows-good.log")
        reports = 2 * sum(bool(LOCK.search(line) or COMMIT.search(line)) for line in lines)
        self.assertEqual((lock_given_twice(lines), summary("postgres", "rows-good.verdicts")), (None, [len(lines), reports, reports, 0, 0]))
        lines = lines_of("postgres", "rows-bad.log")
        first = lines_of("postgres", "rows-bad.verdicts")[0]
        self.assertEqual(first.split(":")[1], str(lock_given_twice(lines)))
        self.assertEqual(summary("postgres", "rows-bad.verdicts")[3:], [1, 0])

    def test_deadlocks(self):
        """Of two waits that nobody ends, the first tick beyond the thirty of the earlier one is rejected."""
        self.assertEqual(summary("postgres", "deadlock-good.verdicts")[3:], [0, 0])
        starts = [line for line in lines_of("postgres", "deadlock-bad.log") if "amount - 1" in line and "statement" in line]
        hours, minutes, seconds = starts[0].split()[1].split(":")
        began = (int(hours) * 60 + int(minutes)) * 60000 + round(float(seconds) * 1000)
        late = (began // TICK + 31) * TICK
        told = "tick at %02d:%02d:%02d.%03d, before" % (late // 3600000, late // 60000 % 60, late // 1000 % 60, late % 1000)
        self.assertIn(told, lines_of("postgres", "deadlock-bad.verdicts")[1])

    def test_a_lock_with_a_lease(self):
        """Three workers, three rounds, three lines each; the second worker gets a lock and gives it back while the first one has it."""
        self.assertEqual(summary("etcd", "lock-good.verdicts"), [27, 27, 27, 0, 0])
        self.assertEqual(summary("etcd", "lock-bad.verdicts"), [6, 6, 4, 2, 0])
        self.assertRegex(lines_of("etcd", "lock-bad.verdicts")[0], r"^lock-bad-w2\.log:2: E got\.2: NO ")

    def test_a_leader_without_votes(self):
        """A node that is a cluster of its own becomes leader by its own vote alone, and is told to be followed: two reports."""
        logs = [line for number in (1, 2, 3) for line in lines_of("etcd", "raft-good-n%d.log" % number)]
        self.assertEqual(summary("etcd", "raft-good.verdicts"), [len(logs), len(logs), len(logs), 0, 0])
        verdicts = lines_of("etcd", "raft-bad.verdicts")
        self.assertEqual(summary("etcd", "raft-bad.verdicts")[3:], [2, 0])
        self.assertTrue(verdicts[1].endswith(lines_of("etcd", "raft-bad-n3.log")[8].strip()) and "became leader" in verdicts[1])


if __name__ == "__main__":
    unittest.main()
