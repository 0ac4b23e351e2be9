"""Times of lines: ticks, several logs, zones, and lines that take too long. Run by `python3 -m unittest discover -s clients/python/tests`.

The verdicts are worked out by hand from the scripts; those with deadlines need the program.
"""
import os
import signal
import sys
import time
import unittest

sys.path[:0] = [os.path.dirname(os.path.abspath(__file__))]

from logs_folder import NEEDS, SPECIFICATION, InFolder  # noqa: E402
from stand_in import program  # noqa: E402

if sys.version_info >= (3, 11):
    from cspwatch_client.logs.maps import MapFault, read_map
    from cspwatch_client.logs.times import SECOND, StampFormat, same_zones

PROGRAM = program()
RULE = "[[rule]]\nmatch = 'a'\nevent = 'a'\n"
TIME = "[time]\npattern = '^\\S+'\nformat = '%H:%M:%S.%f'\n"
TICKS = TIME + "tick = '100ms'\nevent = 'tock'\n"

FAULTS = [
    (TIME + "tick = '0ms'\nevent = 'tock'\n" + RULE, 4, "time.tick", "a number above 0 with one of us, ms, s, min, h is wanted, such as \"100ms\", not '0ms'"),
    (TIME + "tick = 100\nevent = 'tock'\n" + RULE, 4, "time.tick", "a text is wanted, not 100"),
    (TIME + "tick = '100ms'\n" + RULE, 4, "time.tick", "`tick` goes with `event`"),
    (TIME + "event = 'tock'\n" + RULE, 4, "time.event", "`event` goes with `tick`"),
    (TIME + "longest = '1s'\n" + RULE, 4, "time.longest", "`longest` goes with `tick`"),
    ("[time]\npattern = 'a'\nformat = '%Q'\n" + RULE, 3, "time.format",
     "%Q: there is no %Q; there are %Y, %m, %b, %d, %H, %M, %S, %f, %z, %Z, %a, %%"),
    ("[time]\npattern = 'a'\nformat = '%Y'\n" + RULE, 3, "time.format", "%Y: a format needs hours and minutes (%H and %M)"),
    ("[time]\nfield = 'a'\nformat = 'iso'\n" + RULE, 2, "time.field", "there is no table [json]; write `pattern`"),
    ("[json.fields]\na = 'a'\n" + TIME + "[[rule]]\nmatch = {a = 'a'}\nevent = 'a'\n", 4, "time.pattern",
     "this map reads JSON; write `field`, one of [json.fields]"),
    ("[json.fields]\na = 'a'\n[time]\nfield = 'b'\nformat = 'iso'\n[[rule]]\nmatch = {a = 'a'}\nevent = 'a'\n", 4, "time.field", "json.fields has no 'b'"),
    (TIME + "field = 'x'\n" + RULE, 4, "time.field", "write either `pattern` or `field`"),
    ("[order]\nrules = ['a']\n" + RULE, 1, "order", "lines are put in order by their times, and there is no table [time]"),
    (TIME + "[order]\nrules = ['b']\n" + RULE, 5, "order.rules", "no rule has `name = \"b\"`"),
    (TIME + "zones = 'all'\n" + RULE, 4, "time.zones", "'same' or 'any' is wanted, not 'all'"),
    ("[time]\n[[time.log]]\nfile = 'a'\npattern = 'a'\nformat = 'x'\n" + RULE, 5, "time.log.format", "x: a format needs hours and minutes (%H and %M)"),
    ("[sessions]\nafter_no = 'end'\n" + RULE, 2, "sessions.after_no", "'go on' or 'stop' is wanted, not 'end'"),
    ("[sessions]\nskip_until = 'x'\n" + RULE, 2, "sessions.skip_until", "no rule has `name = \"x\"`"),
    ("[sessions]\nbegin = 'a'\n" + RULE, 2, "sessions.begin", "`begin` goes with `key`; without a key the whole log is one session"),
]

DEADLINE = """channel req, ack, tock
IDLE = tock -> IDLE [] req -> WAIT(3)
WAIT(n) = ack -> IDLE [] n > 0 & tock -> WAIT(n-1)
"""
DEADLINE_MAP = "[specification]\nscript = 'd.csp'\nprocess = 'IDLE'\n" + TICKS
DEADLINE_RULES = "[[rule]]\nmatch = 'req$'\nevent = 'req'\n[[rule]]\nmatch = 'ack$'\nevent = 'ack'\n"


@NEEDS
class Faults(InFolder):
    def test_each_says_file_line_and_key(self):
        for text, line, key, reason in FAULTS:
            self.file("m.toml", text)
            with self.subTest(text=text), self.assertRaises(MapFault) as caught:
                read_map(self.path("m.toml"))
            if caught.exception is not None:
                self.assertEqual((caught.exception.line, caught.exception.key, caught.exception.reason), (line, key, reason))

    def refused(self, text, reason, *logs):
        self.file("m.toml", SPECIFICATION + text)
        found = self.logs("m.toml", *logs)
        self.assertEqual(found, (3, [], [reason]))

    def test_before_the_first_line_is_judged(self):
        rule = "[[rule]]\nmatch = 'bad'\nevent = 'bad'\n"
        self.file("a.log", "no time\n25:00:00.0 bad\n")
        self.file("b.log", "bad\n")
        self.file("n1.log", "10:00:00 +0000 bad\n")
        self.file("n2.log", "11:00:00 +0100 bad\n")
        self.file("j.log", '{"a": {"b": "bad"}}\n')
        pattern = "[time]\npattern = '^\\d\\S+'\nformat = '%H:%M:%S.%f'\n"
        self.refused(pattern + rule, "m.toml:6: time.format: a.log:2: the time '25:00:00.0' can't be read: there is no such time of a day", "a.log")
        self.refused(pattern + rule, "m.toml:5: time.pattern: none of the first 1 lines of b.log has a time", "b.log")
        zoned = "[time]\npattern = '^\\S+ \\S+'\nformat = '%H:%M:%S %z'\n"
        wanted = "m.toml:6: time.format: the logs have different zones: n1.log has +0000, n2.log has +0100; write `zones = \"any\"` where that is meant"
        self.refused(zoned + rule, wanted, "n1.log", "n2.log")
        fields = "[json.fields]\nb = 'a.b'\nc = 'a.c'\n[[rule]]\nmatch = {b = 'bad'}\nevent = 'bad'\n"
        self.refused(fields, "m.toml:6: json.fields.c: no line has the path a.c", "j.log")


@NEEDS
class Stamps(unittest.TestCase):
    def test_formats(self):
        day = 24 * 3600 * SECOND
        rows = [("%H:%M:%S", "01:00:02", 10957 * day + 3602 * SECOND), ("%Y-%m-%d %H:%M:%S.%f %Z", "1970-01-02 00:00:00.25 UTC", day + SECOND // 4),
                ("%b %d %H:%M:%S", "Jan  1 00:00:01", 10957 * day + SECOND), ("iso", "1970-01-01T02:00:00.000000001+02:00", 1),
                ("iso", "1970-01-01 00:00:00Z", 0), ("unix", "12.5", 12 * SECOND + SECOND // 2), ("unix-ms", "1500", SECOND * 3 // 2),
                ("unix-us", "7", 7000), ("unix-ns", "7", 7)]
        for source, text, wanted in rows:
            with self.subTest(source):
                self.assertEqual(StampFormat(source).read(text).time, wanted)
        for source, text in [("iso", "x"), ("unix", "1.x"), ("unix", ""), ("%H:%M", "24:00"), ("iso", "1970-02-30 00:00:00")]:
            with self.assertRaises(ValueError):
                StampFormat(source).read(text)

    def test_zones(self):
        self.assertTrue(same_zones(["+0000", "Z", "UTC", "+00:00"]) and same_zones(["CET", "CET"]) and same_zones(["", ""]))
        self.assertFalse(same_zones(["CET", "UTC"]) or same_zones(["+0100", "+0000"]) or same_zones(["", "Z"]))


@NEEDS
@unittest.skipUnless(PROGRAM, "there is no program")
class OverTheProgram(InFolder):
    def environment(self, **more):
        return super().environment(CSPWATCH=PROGRAM, **more)

    def deadline(self, more, log, *words):
        self.file("d.csp", DEADLINE)
        self.file("d.toml", DEADLINE_MAP + more + DEADLINE_RULES)
        self.file("d.log", log)
        return self.logs(*words, "d.toml", "d.log")

    def test_a_deadline(self):
        """Three ticks may pass between a request and its answer. Of the second one the fourth comes at 5.4 s: reports 1 to 52 are two
        events and fifty ticks, 53 the request, 54 to 56 the ticks that may pass."""
        log = "12:00:00.000 req\n12:00:00.310 ack\n12:00:05.000 req\n12:00:05.450 ack\n"
        out = ["d.log:4: E tock: NO 57, expected ack", "    tick at 12:00:05.400, before: 12:00:05.450 ack",
               "4 lines, 58 reports: 57 accepted, 1 rejected, 0 not judged; 0 ignored, 0 without a rule"]
        self.assertEqual(self.deadline("", log), (1, out, []))

    def test_the_end_of_the_log_counts(self):
        """An hour passes, 36000 ticks; at the end six ticks are due after the request, and three of them may pass."""
        log = "12:00:00.000 ack\n13:00:00.000 req\n13:00:00.600 note\n"
        status, out, errors = self.deadline("", log, "--quiet")
        # The first answer is one that nobody asked for: it is rejected too.
        wanted = ["d.log:1: E ack: NO 1, expected req or tock", "d.log:3: E tock: NO 36006 (and 2 more), expected ack"]
        self.assertEqual((status, errors), (1, []))
        self.assertEqual([line.replace("tock or req", "req or tock") for line in out], wanted)

    def test_ticks_that_nothing_counts_are_not_reported(self):
        """Nearly a day of silence, of which four ticks are reported: one more than the process counts. Reports 1 to 3 are the request, the
        tick at 0.1 s and its answer, 4 to 7 the four ticks, 8 the second request, 9 to 11 the ticks that may pass."""
        log = "00:00:00.000 req\n00:00:00.100 ack\n23:00:00.100 req\n23:00:00.900 ack\n"
        out = ["d.log:4: E tock: NO 12, expected ack", "    tick at 23:00:00.500, before: 23:00:00.900 ack",
               "4 lines, 13 reports: 12 accepted, 1 rejected, 0 not judged; 0 ignored, 0 without a rule"]
        self.assertEqual(self.deadline("longest = '300ms'\n", log), (1, out, []))

    def test_lines_that_go_back(self):
        log = "12:00:00.300 req\n12:00:00.100 ack\n12:00:00.250 note\n12:00:00.400 note\n"
        out = ["4 lines, 3 reports: 3 accepted, 0 rejected, 0 not judged; 0 ignored, 2 without a rule (first: d.log:3), "
               "2 went back in time, by up to 0.2 s (d.log:2)"]
        self.assertEqual(self.deadline("", log), (0, out, []))

    def merged(self, order, *logs):
        self.file("m.csp", "channel put, get : {1..3}\nP = put?x -> get!x -> P\n")
        text = "[specification]\nscript = 'm.csp'\nprocess = 'P'\n" + TIME + order
        text += "[[rule]]\nname = 'receive'\nfile = 'b*'\nmatch = 'got (?P<n>\\d)'\nevent = 'get.{n}'\n"
        self.file("m.toml", text + "[[rule]]\nname = 'send'\nfile = 'a*'\nmatch = 'put (?P<n>\\d)'\nevent = 'put.{n}'\n")
        self.file("a.log", "12:00:00.1 put 1\n12:00:00.3 put 2\nno time\n12:00:00.5 put 3\n")
        self.file("b.log", "12:00:00.1 got 1\n12:00:00.4 got 2\n12:00:00.6 got 3\n")
        return self.logs("--quiet" if not order else "--strict", "m.toml", *logs)

    def test_logs_are_merged_by_time(self):
        """Where both logs have a line at 0.1 s the map says which comes first; where it doesn't, it is the one that is named first."""
        line = "7 lines, 6 reports: 6 accepted, 0 rejected, 0 not judged; 0 ignored, 1 without a rule (first: a.log:3)"
        self.assertEqual(self.merged("[order]\nrules = ['send', 'receive']\n", "b.log", "a.log")[1], [line])
        self.assertEqual(self.merged("[order]\nrules = []\n", "a.log", "b.log")[1], [line + ", 2 whose order nothing decided"])
        found = self.merged("", "b.log", "a.log")[1]
        self.assertEqual(found[0], "b.log:1: E get.1: NO 1, expected put.1 or put.2 or put.3")

    def test_a_followed_log_that_lags(self):
        self.file("m.csp", "channel put, get : {1..3}\nP = put?x -> get!x -> P\n")
        self.file("m.toml", "[specification]\nscript = 'm.csp'\nprocess = 'P'\n" + TIME + "window = '300ms'\n"
                  "[[rule]]\nmatch = 'got (?P<n>\\d)'\nevent = 'get.{n}'\n[[rule]]\nmatch = 'put (?P<n>\\d)'\nevent = 'put.{n}'\n")
        self.file("a.log", "12:00:00.1 put 1\n12:00:00.2 put 2\n")
        self.file("b.log", "")
        run = self.start("--follow", "m.toml", "a.log", "b.log")
        self.addCleanup(run.kill)
        self.assertEqual(run.stdout.readline(), b"a.log:2: E put.2: NO 2, expected get.1\n")
        run.send_signal(signal.SIGTERM)
        out, errors = run.communicate(timeout=60)
        self.assertEqual((run.returncode, errors), (1, b"b.log lags: for 0.3 s no line of it has come, and the others go on\n"))

    def test_ticks_while_no_line_comes(self):
        self.file("d.csp", DEADLINE)
        self.file("d.toml", DEADLINE_MAP + "window = '100ms'\n" + DEADLINE_RULES)
        self.file("d.log", "")
        run = self.start("--follow", "d.toml", "d.log")
        self.addCleanup(run.kill)
        time.sleep(0.5)
        with open(self.path("d.log"), "a", encoding="ascii") as file:
            file.write("12:00:00.000 req\n")
        # Report 1 is the request, 2 to 4 are the ticks that may pass.
        self.assertRegex(run.stdout.readline(), rb"^d.log:1: E tock: NO 5\b.*, expected ack$")
        run.send_signal(signal.SIGTERM)
        run.communicate(timeout=60)
        self.assertEqual(run.returncode, 1)


@NEEDS
class Many(InFolder):
    def test_a_hundred_followed_logs(self):
        self.file("m.toml", SPECIFICATION + "[[rule]]\nmatch = 'in'\nevent = 'open.0'\n[[rule]]\nmatch = 'bad'\nevent = 'bad'\n")
        names = ["n%02d.log" % number for number in range(100)]
        for name in names:
            self.file(name, "in\n")
        run = self.start("--follow", "--quiet", "m.toml", *names)
        self.addCleanup(run.kill)
        with open(self.path(names[-1]), "a", encoding="ascii") as file:
            file.write("in\nbad\n")
        self.assertRegex(run.stdout.readline(), rb"^n99\.log:3: E bad: NO ")
        run.send_signal(signal.SIGTERM)
        run.communicate(timeout=60)
        self.assertEqual(run.returncode, 1)


@NEEDS
class TooLong(InFolder):
    def test_an_expression_that_goes_back_for_ever(self):
        self.file("m.toml", SPECIFICATION + "[[rule]]\nmatch = '^(a+)+$'\nevent = 'open.0'\n[[rule]]\nmatch = 'bad'\nevent = 'close.0'\n")
        status, out, errors = self.logs("m.toml", given=b"a\n" + b"a" * 50 + b"b\nbad\n")
        self.assertEqual(errors, ["-:2: not judged: a regular expression in the rule of line 4 of the map takes more than a second for this line"])
        self.assertEqual((status, out), (2, ["3 lines, 3 reports: 2 accepted, 0 rejected, 1 not judged; 0 ignored, 0 without a rule"]))


if __name__ == "__main__":
    unittest.main()
