"""Logs that are rotated and cut while nobody reads them, and servers that end. Run by `python3 -m unittest discover -s clients/python/tests`."""
import contextlib
import gzip
import json
import os
import signal
import sys
import time
import unittest

sys.path[:0] = [os.path.dirname(os.path.abspath(__file__))]

from logs_folder import NEEDS, RULES, SPECIFICATION, InFolder  # noqa: E402
from stand_in import SECONDS, SeatService  # noqa: E402

if sys.version_info >= (3, 11):
    from cspwatch_client.logs.following import Followed, older_of


def lines_of(*numbers):
    return "".join("open %d\n" % number for number in numbers).encode("ascii")


def takes_signals(process):
    """Whether the process has a handler for SIGTERM by now."""
    with open("/proc/%d/status" % process, encoding="ascii") as file:
        caught = next(int(line.split()[1], 16) for line in file if line.startswith("SigCgt:"))
    return bool(caught >> (signal.SIGTERM - 1) & 1)


@NEEDS
class Marks(InFolder):
    """A log is found again by what it holds."""

    BEFORE, AFTER = b"first\nsecond\n", b"third\nfour"

    def setUp(self):
        super().setUp()
        self.file("a.log", self.BEFORE)
        source = Followed(self.path("a.log"))
        source.read()
        self.mark = source.mark()
        os.close(source.descriptor)

    def rest(self):
        """What is read by one who comes back: file, number and text of each line; and what can't be known."""
        source = Followed(self.path("a.log"), self.mark, keeps_rest=True)
        found = []
        for _ in range(20):
            found += [(os.path.basename(line.file), line.number, line.text) for line in source.read()]
        os.close(source.descriptor)
        return found, [text.replace(self.folder + "/", "") for text in source.lost]

    def test_the_same_file(self):
        self.file("a.log", self.BEFORE + self.AFTER)
        self.assertEqual(self.rest(), ([("a.log", 3, "third")], []))

    def test_rotated(self):
        os.rename(self.path("a.log"), self.path("a.log.1"))
        self.file("a.log.1", self.BEFORE + self.AFTER)
        self.file("a.log", b"new\n")
        self.assertEqual(self.rest(), ([("a.log.1", 3, "third"), ("a.log.1", 4, "four"), ("a.log", 1, "new")], []))

    def test_rotated_twice_and_compressed(self):
        self.file("a.log.2.gz", gzip.compress(self.BEFORE + self.AFTER))
        self.file("a.log.1", b"between\n")
        os.unlink(self.path("a.log"))
        self.file("a.log", b"new\n")
        expected = [("a.log.2.gz", 3, "third"), ("a.log.2.gz", 4, "four"), ("a.log.1", 1, "between"), ("a.log", 1, "new")]
        self.assertEqual(self.rest(), (expected, []))

    def test_rotated_by_date(self):
        for name, content in (("a.log-20260103", b"third file\n"), ("a.log-20260102", self.BEFORE + self.AFTER), ("a.log-20260101", b"old\n")):
            self.file(name, content)
        self.file("a.log", b"new\n")
        expected = [("a.log-20260102", 3, "third"), ("a.log-20260102", 4, "four"), ("a.log-20260103", 1, "third file"), ("a.log", 1, "new")]
        self.assertEqual(self.rest(), (expected, []))

    def test_copied_and_cut(self):
        self.file("a.log.1", self.BEFORE + self.AFTER)
        for now in (b"", b"new\n", b"a new one that is longer than the old one was\n"):
            self.file("a.log", now)
            expected = [("a.log.1", 3, "third"), ("a.log.1", 4, "four")] + [("a.log", 1, line) for line in now.decode().splitlines()]
            self.assertEqual(self.rest(), (expected, []))

    def test_what_can_not_be_known(self):
        lost = "a.log: what was read to byte 13 (line 2) isn't there any more, in it or in a.log.1; what was written there after it can't be known"
        for now in (b"", b"new\nand longer than before\n"):
            self.file("a.log", now)
            self.file("a.log.1", b"another\n")
            self.file("a.log.2.gz", b"\x1f\x8b damaged")
            self.assertEqual(self.rest(), ([("a.log", number, line) for number, line in enumerate(now.decode().splitlines(), 1)], [lost]))

    def test_of_a_log_without_a_line_the_file_tells(self):
        self.file("b.log", b"beg")
        source = Followed(self.path("b.log"), keeps_rest=True)
        source.read()
        self.mark = source.mark()
        os.close(source.descriptor)
        os.rename(self.path("b.log"), self.path("a.log.1"))
        self.file("a.log", b"new\n")
        self.assertEqual(self.rest(), ([("a.log.1", 1, "beg"), ("a.log", 1, "new")], []))
        os.unlink(self.path("a.log.1"))
        found, lost = self.rest()
        self.assertEqual((found, len(lost)), ([("a.log", 1, "new")], 1))

    def test_which_files_are_older(self):
        for name in ("a.log.10", "a.log.2", "a.log.1.gz", "a.log-20260101.xz", "a.log-20260102", "a.log.old", "b.log.1", "a.logs.1", "a.log.x.1"):
            self.file(name, b"")
        names = [os.path.basename(path) for path in older_of(self.path("a.log"))]
        self.assertEqual(names, ["a.log.1.gz", "a.log.2", "a.log.10", "a.log-20260102", "a.log-20260101.xz"])


@NEEDS
class WhileItIsRead(InFolder):
    def lines(self, source, rounds=9):
        return [(os.path.basename(line.file), line.number, line.text) for _ in range(rounds) for line in source.read()]

    def test_a_copy_is_made_and_the_log_is_cut(self):
        self.file("a.log", b"one\ntw")
        source = Followed(self.path("a.log"))
        self.assertEqual(self.lines(source), [("a.log", 1, "one")])
        self.file("a.log.1", b"one\ntwo\nthree\n")
        self.file("a.log", b"new and longer\n")
        self.assertEqual(self.lines(source), [("a.log.1", 2, "two"), ("a.log.1", 3, "three"), ("a.log", 1, "new and longer")])
        self.assertEqual(source.lost, [])

    def test_it_is_cut_without_a_copy(self):
        self.file("a.log", b"one\n")
        source = Followed(self.path("a.log"))
        self.assertEqual(self.lines(source), [("a.log", 1, "one")])
        # The new text is longer than the old one, so that the size says nothing.
        self.file("a.log", b"new and longer\n")
        self.assertEqual(self.lines(source), [("a.log", 1, "new and longer")])
        self.assertEqual([text.split(": ")[1][:26] for text in source.lost], ["it was cut after line 1, a"])

    def test_two_rotations_between_two_looks(self):
        self.file("a.log", b"one\n")
        source = Followed(self.path("a.log"))
        self.lines(source)
        os.rename(self.path("a.log"), self.path("a.log.2"))
        self.file("a.log.1", b"between\n")
        self.file("a.log", b"new\n")
        self.assertEqual(self.lines(source), [("a.log.1", 1, "between"), ("a.log", 1, "new")])


@NEEDS
class Runs(InFolder):
    """Whole runs over a service that keeps what it was told."""

    def setUp(self):
        super().setUp()
        self.file("m.toml", SPECIFICATION + RULES)
        self.file("a.log", lines_of(0, 1))

    def begin(self, service, *words):
        run = self.start("--follow", "--server", service.address, "--seat", "3", "--state", "s", *words, "m.toml", "a.log")
        self.addCleanup(self.clear, run)
        return run

    def clear(self, run):
        if run.poll() is None:
            run.kill()
        with contextlib.suppress(ValueError):
            run.communicate()

    def until(self, condition):
        latest = time.monotonic() + SECONDS
        while not condition():
            self.assertLess(time.monotonic(), latest)
            time.sleep(0.02)

    def told(self, service, count):
        self.until(lambda: len(service.reports.get(3, ())) >= count)
        return [line[-1] for line in service.reports[3]]

    def end(self, run, by=signal.SIGTERM):
        if by == signal.SIGTERM:
            self.until(lambda: takes_signals(run.pid))
        run.send_signal(by)
        out, errors = run.communicate(timeout=SECONDS)
        return run.returncode, out.decode().splitlines(), errors.decode().splitlines()

    def test_rotated_while_it_was_away(self):
        with SeatService() as service:
            first = self.begin(service)
            self.told(service, 2)
            self.assertEqual(self.end(first)[0], 0)
            os.rename(self.path("a.log"), self.path("a.log.1"))
            with open(self.path("a.log.1"), "ab") as file:
                file.write(lines_of(1))
            self.file("a.log", lines_of(0, 0, 1))
            second = self.begin(service)
            self.assertEqual(self.told(service, 6), list("011001"))
            status, out, errors = self.end(second)
            self.assertEqual((status, out, errors), (0, ["4 lines, 4 reports: 4 accepted, 0 rejected, 0 not judged; 0 ignored, 0 without a rule"], []))
            # Nothing came, and the reports of the runs before count.
            third = self.begin(service)
            self.assertEqual(self.end(third)[0], 0)
            self.assertEqual(len(service.reports[3]), 6)

    def test_lines_of_another_file_are_not_those_that_were_judged(self):
        with SeatService() as service:
            first = self.begin(service)
            self.told(service, 2)
            self.end(first)
            # Two more of the old file were judged after the state was written, and then it was removed.
            service.reports[3] += ["E open.1", "E open.1"]
            os.unlink(self.path("a.log"))
            self.file("a.log", lines_of(0, 0, 0))
            second = self.begin(service)
            self.assertEqual(self.told(service, 7), list("0111000"))
            status, _, errors = self.end(second)
            self.assertEqual((status, len(errors)), (2, 2))
            self.assertEqual(errors[0].split(" isn't")[0], "a.log: what was read to byte 14 (line 2)")
            self.assertEqual(errors[1], "cspwatch-logs: 2 reports that stand in the history are of lines that aren't known")

    def test_killed_at_any_moment(self):
        self.file("a.log", b"")
        wanted = [number % 2 for number in range(300)]
        with SeatService() as service:
            for part in range(6):
                run = self.begin(service)
                with open(self.path("a.log"), "ab") as file:
                    file.write(lines_of(*wanted[50 * part : 50 * part + 50]))
                if part % 2:
                    for number in (2, 1):
                        with contextlib.suppress(FileNotFoundError):
                            os.rename(self.path("a.log.%d" % number), self.path("a.log.%d" % (number + 1)))
                    os.rename(self.path("a.log"), self.path("a.log.1"))
                    self.file("a.log", b"")
                self.told(service, 50 * part + 5 * part + 1)
                self.end(run, signal.SIGKILL)
            last = self.begin(service)
            self.assertEqual(self.told(service, 300), [str(number) for number in wanted])
            status, _, errors = self.end(last)
            self.assertEqual((status, errors, len(service.reports[3])), (0, [], 300))

    def test_numbers_and_joins_go_on(self):
        self.file("m.toml", SPECIFICATION + "[places.n]\nsize = 2\nfree = 'close.{n}'\n" + RULES.replace("\\d", "\\w+")
                  + "[[join]]\nbegin = '^a (?P<n>.)'\nend = '^z (?P<n>.)'\nline = 'close {n}'\n")
        self.file("a.log", "open x\nopen y\na y\n")
        with SeatService() as service:
            first = self.begin(service)
            self.assertEqual(self.told(service, 2), ["0", "1"])
            self.end(first)
            with open(self.path("a.log"), "ab") as file:
                file.write(b"z y\nopen w\n")
            second = self.begin(service)
            self.told(service, 4)
            self.assertEqual(service.reports[3][2:], ["E close.1", "E open.1"])
            self.end(second)

    def test_a_last_line_without_its_end_is_left(self):
        self.file("a.log", b"open 0\nop")
        with SeatService() as service:
            first = self.begin(service)
            self.told(service, 1)
            self.assertEqual(self.end(first)[1][0].split(":")[0], "1 lines, 1 reports")
            with open(self.path("a.log"), "ab") as file:
                file.write(b"en 1\n")
            second = self.begin(service)
            self.assertEqual(self.told(service, 2), ["0", "1"])
            self.end(second)

    def test_states_of_others(self):
        with SeatService() as service:
            first = self.begin(service)
            self.told(service, 2)
            self.end(first)
            state = json.loads(self.text("s"))
            for key, value, reason in (
                ("seat", 4, "this is the state of seat 4"),
                ("judged", 9, "it has 9 reports of the seat, and the history 2: that is another history"),
                ("map", "0", "the map was another one when this was written; a map that changes begins a seat of its own"),
                ("form", "x", "this is no state of cspwatch-logs"),
                ("logs", {"a.log": [1]}, "this is no state of cspwatch-logs"),
            ):
                self.file("s", json.dumps({**state, key: value}))
                run = self.begin(service)
                out, errors = run.communicate(timeout=SECONDS)
                self.assertEqual((run.returncode, errors.decode().splitlines()), (5, ["s: " + reason]))
            self.file("s", "")
            self.assertEqual(self.begin(service).wait(SECONDS), 5)

    def test_words(self):
        for words, reason in ((["--state", "s"], "--state goes with --follow, --seat and logs"), (["--patience", "3"], "--patience goes with --seat, by which the server knows what it has judged")):
            self.assertEqual(self.logs(*words, "m.toml", "a.log"), (2, [], ["cspwatch-logs: " + reason]))

    def test_the_server_ends_and_comes_back(self):
        for how in ({"cut": 2}, {"lose": 2}):
            self.file("a.log", lines_of(0, 1, 0, 1, 1))
            with SeatService(**how) as service:
                run = self.start("--follow", "--server", service.address, "--seat", "3", "m.toml", "a.log")
                self.addCleanup(self.clear, run)
                self.assertEqual(self.told(service, 5), list("01011"))
                status, out, errors = self.end(run)
                if "cut" in how:
                    lost = "a.log:3: E open.0: its verdict was lost with the connection; it is report 3 of the seat in the journal (cspwatch show)"
                    self.assertEqual((status, errors), (2, [lost]))
                    self.assertIn("; 1 whose verdict was lost, ", out[-1])
                else:
                    self.assertEqual((status, errors), (0, []))

    def test_without_patience_the_run_ends(self):
        with SeatService(lose=1) as service:
            found = self.logs("--follow", "--server", service.address, "--seat", "3", "--patience", "0", "m.toml", "a.log")
            self.assertEqual((found[0], found[2]), (5, [service.address + ": the connection has ended (1 reports were not answered)"]))


if __name__ == "__main__":
    unittest.main()
