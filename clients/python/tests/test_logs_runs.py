"""Runs of `cspwatch-logs` over stand-ins and over the program. Run by `python3 -m unittest discover -s clients/python/tests`."""
import os
import re
import signal
import subprocess
import sys
import time
import unittest

sys.path[:0] = [os.path.dirname(os.path.abspath(__file__))]

from logs_folder import NEEDS, RULES, SPECIFICATION, STAND_IN, InFolder  # noqa: E402
from cspwatch_client import Server  # noqa: E402
from stand_in import SECONDS, SeatService, StandIn, has_serve, has_services, program  # noqa: E402

PROGRAM = program()

NO_LINES = "0 lines, 0 reports: 0 accepted, 0 rejected, 0 not judged; 0 ignored, 0 without a rule"


def counts(lines, reports, accepted, rejected, not_judged=0, rest="0 ignored, 0 without a rule"):
    return "%d lines, %d reports: %d accepted, %d rejected, %d not judged; %s" % (lines, reports, accepted, rejected, not_judged, rest)


@NEEDS
class OverAStandIn(InFolder):
    """Runs over a program that has the newer options."""

    def setUp(self):
        super().setUp()
        self.file("m.toml", SPECIFICATION + RULES + "[[ignore]]\nmatch = '^#'\n")

    def test_reasons(self):
        given = b"# begin\nopen 0\nbad\nno 0\nwhat\nclose 0"
        out = ["-:3: E bad: NO 2, expected open.0 or open.1", "    bad", "-:4: R open.0: NO 3, offers close.0", "    no 0",
               counts(6, 4, 2, 2, rest="1 ignored, 1 without a rule (first: -:5)")]
        self.assertEqual(self.logs("m.toml", given=given), (1, out, []))

    def test_a_reason_that_does_not_come(self):
        self.file("p.csp", "channel open : {0, 1}\nchannel close : {0, 1}\nchannel bad\nno|E bad|\nno|R open.0|offers close.0\n")
        run = self.start("--quiet", "m.toml")
        run.stdin.write(b"bad\n")
        run.stdin.flush()
        self.assertEqual(run.stdout.readline(), b"-:1: E bad: NO 1\n")
        out = run.communicate(b"bad\nno 0\nbad\n", SECONDS)[0]
        self.assertEqual(out, b"-:2: E bad: NO 2\n-:3: R open.0: NO 3, offers close.0\n-:4: E bad: NO 4\n")

    def test_a_program_without_explanations(self):
        out = ["-:1: E bad: NO 1", "    bad", counts(1, 1, 0, 1)]
        self.assertEqual(self.logs("m.toml", given=b"bad\n", STAND_IN_OPTIONS=""), (1, out, []))

    def test_large(self):
        self.file("m.toml", SPECIFICATION + "large = true\n" + RULES)
        self.assertEqual(self.logs("m.toml", given=b"open 0\n"), (0, [counts(1, 1, 1, 0)], []))
        reason = "m.toml:4: specification.large: this needs `check --large`, which came after cspwatch 0.5.1; %s is cspwatch 0.0.0" % STAND_IN
        self.assertEqual(self.logs("m.toml", STAND_IN_OPTIONS="--explain"), (3, [], [reason]))

    def test_quiet_first_and_strict(self):
        given = b"what\nbad\nbad\n"
        self.assertEqual(self.logs("--quiet", "m.toml", given=given)[1], ["-:%d: E bad: NO %d, expected open.0 or open.1" % (at + 1, at) for at in (1, 2)])
        first = self.logs("--first", "m.toml", given=given * 10000)
        self.assertEqual((first[0], first[1][:2], first[2]), (1, ["-:2: E bad: NO 1, expected open.0 or open.1", "    bad"], []))
        self.assertEqual(len(first[1]), 3)
        self.assertEqual(self.logs("--strict", "m.toml", given=b"what\nopen 0\n"),
                         (2, [counts(2, 1, 1, 0, rest="0 ignored, 1 without a rule (first: -:1)")], ["-:1: no rule takes this line: what"]))

    def test_coverage(self):
        out = ["never came: open.1 close.* bad _tick", "rules that took no line: m.toml:9, m.toml:17", "2 lines, 2 reports"]
        found = self.logs("--coverage", "m.toml", given=b"open 0\nbad\n")[1]
        self.assertEqual(found[2:4] + [found[4][:18]], out)

    def test_several_files(self):
        self.file("a.log", "open 0\nbad")
        self.file("b.log", "bad\r\n")
        out = ["a.log:2: E bad: NO 2, expected open.0 or open.1", "    bad", "b.log:1: E bad: NO 3, expected open.0 or open.1", "    bad"]
        self.assertEqual(self.logs("m.toml", "a.log", "b.log"), (1, out + [counts(3, 3, 1, 2)], []))

    def test_faults_in_place_of_verdicts(self):
        self.file("p.csp", "channel open : {0, 1}\nchannel close : {0}\nchannel bad\nfault|E bad|21 states\nno|E open.1|x\n")
        self.file("m.toml", SPECIFICATION + RULES)
        status, out, errors = self.logs("m.toml", given=b"bad\nopen 0\n")
        self.assertEqual((status, out, errors), (2, [counts(2, 2, 1, 0, 1)], ["-:1: not judged: E bad: ERR 21 states"]))
        # A rejected report counts where it comes before the event that is missing in the trace.
        self.assertEqual([self.logs("m.toml", given=given)[0] for given in (b"bad\nopen 1\n", b"open 1\nbad\n")], [2, 1])

    def test_a_program_that_ends_early(self):
        for status, wanted in ((3, 3), (6, 6), (9, 5)):
            self.file("p.csp", "channel open : {0, 1}\nchannel close : {0, 1}\nchannel bad\nend|E bad|%d p.csp: the end\n" % status)
            found = self.logs("m.toml", given=b"open 0\nbad\nopen 0\n")
            self.assertEqual((found[0], found[1]), (wanted, [counts(3, 3, 1, 0)]))
            self.assertEqual(found[2], ["p.csp: the end (2 reports were not answered)"])

    def test_words(self):
        self.assertEqual(self.logs()[0], 2)
        self.assertEqual(self.logs("--seat", "0", "m.toml")[0], 2)
        self.assertEqual(self.logs("--seat", "3", "m.toml"), (2, [], ["cspwatch-logs: --seat goes with --server"]))
        self.assertEqual(self.logs("none.toml"), (5, [], ["none.toml: No such file or directory"]))
        self.assertEqual(self.logs("m.toml", "none.log"), (5, [], ["none.log: No such file or directory"]))
        self.assertEqual(self.logs("m.toml", self.folder)[0], 5)
        self.assertEqual(self.logs("--program", "/none", "m.toml")[0], 5)
        self.file("s.toml", RULES)
        self.assertEqual(self.logs("s.toml"), (3, [], ["s.toml:1: specification: this table is missing, and a run without --server needs it"]))

    def test_standard_output_fails(self):
        run = self.start("m.toml")
        run.stdout.close()
        run.stdin.write(b"bad\n")
        run.stdin.close()
        self.assertEqual(run.wait(SECONDS), 5)
        run.stderr.close()

    def test_verdicts_come_while_the_log_is_read(self):
        run = self.start("m.toml")
        run.stdin.write(b"bad\n")
        run.stdin.flush()
        self.assertEqual(run.stdout.readline(), b"-:1: E bad: NO 1, expected open.0 or open.1\n")
        self.assertEqual(run.communicate(b"open 0\n", SECONDS)[1], b"")
        self.assertEqual(run.returncode, 1)


@NEEDS
class Follows(InFolder):
    def setUp(self):
        super().setUp()
        self.file("m.toml", SPECIFICATION + RULES)
        self.file("a.log", "open 0\n")

    def append(self, name, text):
        with open(self.path(name), "a", encoding="ascii") as file:
            file.write(text)

    def test_a_log_that_grows_and_is_rotated(self):
        run = self.start("--follow", "m.toml", "a.log")
        self.addCleanup(run.kill)
        self.append("a.log", "ba")
        time.sleep(0.3)
        self.append("a.log", "d\n")
        self.assertEqual(run.stdout.readline(), b"a.log:2: E bad: NO 2, expected open.0 or open.1\n")
        os.rename(self.path("a.log"), self.path("a.log.1"))
        self.append("a.log.1", "bad\n")
        self.file("a.log", "open 1\nbad\n")
        lines = [run.stdout.readline() for _ in range(5)]
        self.assertEqual(lines[1][:10] + lines[3][:10], b"a.log:3: Ea.log:2: E")
        run.send_signal(signal.SIGTERM)
        out, errors = run.communicate(timeout=SECONDS)
        self.assertEqual((run.returncode, out.decode(), errors), (1, counts(5, 5, 2, 3) + "\n", b""))

    def test_an_interrupt(self):
        run = self.start("--follow", "m.toml", "a.log")
        self.append("a.log", "bad\nbad without an end")
        self.assertEqual(run.stdout.readline(), b"a.log:2: E bad: NO 2, expected open.0 or open.1\n")
        run.stdout.readline()
        run.send_signal(signal.SIGINT)
        out, errors = run.communicate(timeout=SECONDS)
        self.assertEqual((run.returncode, out.decode(), errors), (1, counts(3, 2, 1, 1, rest="0 ignored, 1 without a rule (first: a.log:3)") + "\n", b""))


@NEEDS
class InSessions(InFolder):
    def map(self, more):
        self.file("m.toml", SPECIFICATION + "[sessions]\nkey = '{id}'\n" + more + RULES.replace("match = '^", "match = '^(?P<id>\\w+) "))

    def test_each_key_has_a_history(self):
        self.map("")
        out = ["-:3: a: E bad: NO 2 (first), expected open.0 or open.1", "    a bad", "-:4: b: E bad: NO 2 (first), expected open.0 or open.1", "    b bad",
               counts(5, 5, 3, 2, rest="0 ignored, 0 without a rule, 3 sessions, 2 with a rejected report")]
        self.assertEqual(self.logs("m.toml", given=b"a open 0\nb open 1\na bad\nb bad\nc open 0\n"), (1, out, []))

    def test_events_that_begin_and_end(self):
        self.map("begin = 'open.0'\nend = ['close.0', 'close.1']\n")
        given = b"a bad\na open 0\na open 1\na close 0\na bad\na open 0\na bad\na open 0\na bad\n"
        out = ["-:7: a: E bad: NO 2 (first), expected open.0 or open.1", "    a bad", "-:9: a: E bad: NO 2 (first), expected open.0 or open.1", "    a bad",
               counts(9, 7, 5, 2, rest="0 ignored, 0 without a rule, 2 outside a session, 3 sessions, 2 with a rejected report")]
        self.assertEqual(self.logs("m.toml", given=given), (1, out, []))

    def test_places_are_those_of_a_session(self):
        self.map("")
        self.file("m.toml", self.text("m.toml").replace("\\d", "\\w+") + "[places.n]\nsize = 2\n")
        found = self.logs("m.toml", given=b"a open x\nb open y\na open y\na open z\n")
        self.assertEqual(found[2], ["-:4: a: not judged: no place left for n 'z' (2)"])

    def test_no_server(self):
        self.map("")
        wanted = "cspwatch-logs: a map with [sessions] starts a check for each; it can't go with --server, which has one history"
        self.assertEqual(self.logs("--server", "127.0.0.1:1", "m.toml"), (2, [], [wanted]))


@NEEDS
class WithARecord(InFolder):
    LINES = [
        '{"line": 1, "session": "", "report": "E open.0", "verdict": "OK", "place": 1}',
        '{"line": 2, "session": "", "report": "E bad", "verdict": "NO", "place": 2}',
        '{"line": 4, "session": "", "report": "", "fault": "the script has no event \'open.7\'"}',
        '{"line": 5, "session": "", "report": "R open.0", "verdict": "NO", "place": 3}',
    ]
    GIVEN = b"open 0\nbad\nwhat\nopen 7\nno 0\n"

    def setUp(self):
        super().setUp()
        self.file("m.toml", SPECIFICATION + RULES)

    def test_a_record_is_continued(self):
        whole = "".join(line + "\n" for line in self.LINES)
        first = self.logs("--record", "r", "m.toml", given=self.GIVEN)
        self.assertEqual(self.text("r"), whole)
        again = self.logs("--record", "r", "m.toml", given=self.GIVEN)
        # All stands in the record: only the counts are shown again.
        self.assertEqual(again, (first[0], first[1][-1:], []))
        for size in (60, 150, len(whole) - 1):
            self.file("r", whole[:size])
            found = self.logs("--record", "r", "--quiet", "m.toml", given=self.GIVEN)
            self.assertEqual((found[0], self.text("r")), (1, whole))
            self.assertEqual(len(found[1]), 2 - whole[:size].count('"NO", "place": 2}\n') - whole[:size].count('"NO", "place": 3}\n'))

    def test_a_record_of_something_else(self):
        self.file("r", self.LINES[0] + "\n" + self.LINES[3] + "\n")
        found = self.logs("--record", "r", "m.toml", given=self.GIVEN)
        self.assertEqual((found[0], found[2]), (5, ["r: line 2 is %s and not %s, as this run has it" % (self.LINES[3], self.LINES[1])]))
        self.file("r", "".join(line + "\n" for line in self.LINES))
        found = self.logs("--record", "r", "m.toml", given=self.GIVEN[:11])
        self.assertEqual((found[0], found[2]), (5, ["r: it has more lines than the 2 that this run has found"]))

    def test_only_one_run_has_it(self):
        run = self.start("--record", "r", "m.toml")
        run.stdin.write(b"bad\n")
        run.stdin.flush()
        run.stdout.readline()
        self.assertEqual(self.logs("--record", "r", "m.toml"), (5, [], ["r: another run has it open"]))
        run.communicate(timeout=SECONDS)
        self.assertEqual(self.logs("--record", "no/r", "m.toml"), (5, [], ["no/r: No such file or directory"]))


@NEEDS
class OverAServer(InFolder):
    def setUp(self):
        super().setUp()
        self.file("m.toml", SPECIFICATION + RULES)
        self.file("s.toml", RULES)

    def test_reports_go_ahead(self):
        # All replies come after the last report.
        with StandIn([(b"E open.0", []), (b"E bad", []), (b"E close.0", b"OK 4\nNO 6\nOK 7\n")]) as server:
            found = self.logs("--server", server.address, "s.toml", given=b"open 0\nbad\nclose 0\n")
        self.assertEqual(found, (1, ["-:2: E bad: NO 6", "    bad", counts(3, 3, 2, 1)], []))
        self.assertEqual(server.troubles, [])

    def test_servers_without_a_seat_or_a_journal(self):
        for reply, status, error in [(b"ERR 22 seats\n", 6, "22 seats"), (b"ERR 31 closed\n", 4, "31 closed")]:
            with StandIn([(None, reply)]) as server:
                found = self.logs("--server", server.address, "s.toml", given=b"open 0\n")
            self.assertEqual(found[0], status)
            self.assertIn(error, found[2][0])

    def test_a_connection_that_ends(self):
        with StandIn([(b"E open.0", b"OK 1\n"), (b"E bad", b"NO")]) as server:
            found = self.logs("--server", server.address, "s.toml", given=b"open 0\nbad\nclose 0\n")
        self.assertEqual((found[0], found[1]), (5, [counts(3, 3, 1, 0)]))
        self.assertRegex(found[2][0], r"^127\.0\.0\.1:\d+: the connection has ended \(2 reports were not answered\)$")
        found = self.logs("--server", server.address, "s.toml")
        self.assertEqual((found[0], found[2]), (5, ["%s: Connection refused" % server.address]))
        found = self.logs("--server", "unix:none", "s.toml")
        self.assertEqual((found[0], found[2]), (5, ["unix:none: No such file or directory"]))
        for address in ("here", "unix:"):
            found = self.logs("--server", address, "s.toml")
            self.assertEqual((found[0], found[2]), (2, ["cspwatch-logs: an address is HOST:PORT or unix:PATH, not '%s'" % address]))

    def test_a_seat_goes_on_after_its_last_report(self):
        given = b"open 0\nopen 1\nopen 7\nclose 0\nbad\n"
        with SeatService(cut=2) as service:
            first = self.logs("--server", service.address, "--seat", "3", "m.toml", given=given)
            self.assertEqual((first[0], first[1]), (5, [counts(5, 5, 2, 0, 1)]))
            self.assertEqual(service.reports, {3: ["E open.0", "E open.1", "E close.0"]})
            second = self.logs("--server", service.address, "--seat", "3", "m.toml", given=given)
            self.assertEqual(service.reports, {3: ["E open.0", "E open.1", "E close.0", "E bad"]})
        self.assertEqual((second[0], second[1]), (2, [counts(5, 5, 1, 0, 1, "3 in the history before, 0 ignored, 0 without a rule")]))

    def test_a_log_that_is_shorter_than_the_history(self):
        with SeatService() as service:
            service.reports[3] = ["E open.0"] * 5
            found = self.logs("--server", service.address, "--seat", "3", "m.toml", given=b"open 0\n")
        self.assertEqual((found[0], found[2]), (2, ["cspwatch-logs: 5 reports of the seat stand in the history, and the log has 1"]))

    def test_seats_that_are_not_given(self):
        with SeatService(taken=[3]) as service:
            found = self.logs("--server", service.address, "--seat", "3", "m.toml")
        self.assertEqual(found, (5, [], ["seat 3: another connection has this seat (ERR 27 taken)"]))
        early = "this server gives no seats by number (ERR 10 command)"
        for reply, reason in [(b"ERR 10 command\n", early), (b"I 4 0\n", "the server answered b'I 4 0'"), (b"I", "the server answered b'I'")]:
            with StandIn([(b"I 3", reply)]) as server:
                found = self.logs("--server", server.address, "--seat", "3", "m.toml")
            self.assertEqual(found, (5, [], ["seat 3: " + reason]))


@NEEDS
@unittest.skipUnless(PROGRAM, "there is no program")
class OverTheProgram(InFolder):
    SCRIPT = "channel open, close : {0..1}\nchannel bad\nP = open?n -> close.n -> P\n"

    def setUp(self):
        super().setUp()
        self.file("p.csp", self.SCRIPT)
        self.file("m.toml", SPECIFICATION + RULES)

    def environment(self, **more):
        return super().environment(CSPWATCH=PROGRAM, **more)

    def test_verdicts(self):
        status, out, errors = self.logs("m.toml", given=b"open 0\nno 0\nopen 1\nclose 0\nno 0\n")
        self.assertEqual((status, errors, out[-1]), (1, [], counts(5, 5, 3, 2)))
        self.assertEqual([re.sub(r"(NO \d+).*", r"\1", line) for line in out[:-1:2]], ["-:3: E open.1: NO 3", "-:5: R open.0: NO 5"])

    def test_a_script_that_is_refused(self):
        self.file("p.csp", "channel open\nP = opn -> STOP\n")
        lines = ["p.csp:2: 4 unknown", "    2 | P = opn -> STOP", "      |     ^", "        unknown name 'opn'"]
        self.assertEqual(self.logs("m.toml")[::2], (3, lines))

    def test_a_hundred_thousand_lines(self):
        self.file("m.toml", SPECIFICATION + "".join("[[rule]]\nmatch = 'kind%d of (?P<n>\\S+)$'\nevent = \"bad\"\n" % n for n in range(8)) + RULES)
        lines = b"".join(b"open %d\nclose %d\n" % (n % 2, n % 2) for n in range(50000))
        self.file("a.log", lines)
        began = time.process_time(), os.times().children_user
        self.assertEqual(self.logs("m.toml", "a.log"), (0, [counts(100000, 100000, 100000, 0)], []))
        # In processor time, since other programs run beside the tests.
        self.assertLess(os.times().children_user - began[1], 6)

    def test_many_sessions(self):
        rules = RULES.replace("match = '^", "match = '^(?P<id>\\w+) ")
        self.file("m.toml", SPECIFICATION + "[sessions]\nkey = '{id}'\nend = 'close.0'\n" + rules)
        given = b"".join(b"s%d open 0\ns%d bad\n" % (n, n) for n in range(300)) + b"".join(b"s%d close 0\n" % n for n in range(300))
        status, out, errors = self.logs("m.toml", given=given)
        self.assertEqual((status, errors, len(out)), (1, [], 601))
        self.assertEqual([line.split(":")[1] for line in out[:-1:2]], [str(2 * n + 2) for n in range(300)])
        self.assertTrue(out[-1].endswith("300 sessions, 300 with a rejected report"), out[-1])

    @unittest.skipUnless(PROGRAM and has_serve(PROGRAM), "there is no program, or it has no command `serve`")
    def test_a_server(self):
        server = subprocess.Popen([PROGRAM, "serve", "p.csp", "P", "j", "--listen", "127.0.0.1:0", "--connections", "2"], cwd=self.folder,
                                  stdout=subprocess.PIPE)
        self.addCleanup(server.kill)
        address = server.stdout.readline().decode().split()[1]
        found = self.logs("--server", address, "m.toml", given=b"open 0\n" + b"open 1\nclose 0\nopen 0\n" * 5)
        self.assertEqual((found[0], found[1][-1], found[2]), (1, counts(16, 16, 11, 5), []))
        found = self.logs("--server", address, "--seat", "3", "m.toml")
        if found[0] != 0:
            self.assertIn("gives no seats by number", found[2][0])
        self.assertEqual(server.communicate(timeout=SECONDS)[0], b"S 16 11 0 5 open\n")

    @unittest.skipUnless(PROGRAM and has_services(PROGRAM), "there is no program, or it has no services")
    def test_a_seat_of_a_service(self):
        # The log grows, and is read from its beginning each time; the service is killed in between.
        lines = [b"open 0\n", b"bad\n", b"close 0\n"] * 100
        for end, earlier in ((70, 0), (70, 70), (151, 70), (300, 151)):
            service = Server(self.path("p.csp"), "P", self.path("j"), connections=None, program=PROGRAM)
            found = self.logs("--server", service.address, "--seat", "3", "m.toml", given=b"".join(lines[:end]))
            service.stop()
            self.assertEqual(found[::2], (1 if end > earlier else 0, []))
        done = subprocess.run([PROGRAM, "replay", "j"], cwd=self.folder, stdout=subprocess.PIPE, timeout=SECONDS)
        self.assertEqual(done.stdout, b"S 300 200 0 100 open\n")


if __name__ == "__main__":
    unittest.main()
