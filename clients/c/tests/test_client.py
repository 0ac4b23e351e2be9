"""The client in C against conversations that are written down, and against the program.

Run by `python3 -m unittest discover -s clients/c/tests`. The variable CC names the compiler (`cc` without it), CSPWATCH
the program; without a program those tests are skipped. Where the compiler has them, its checks of memory are on.
"""
import os
import re
import shutil
import subprocess
import sys
import tempfile
import time
import unittest

HERE = os.path.dirname(os.path.abspath(__file__))
CLIENT = os.path.dirname(HERE)
sys.path[:0] = [os.path.join(os.path.dirname(CLIENT), "python"), os.path.dirname(CLIENT)]

from cspwatch_client import Server, Status  # noqa: E402
from stand_in import HOLD, RESET, SECONDS, CheckServer, SeatService, StandIn, has_serve, has_services, program  # noqa: E402

COMPILER = os.environ.get("CC", "cc")
FLAGS = ["-std=c99", "-Wall", "-Wextra", "-Wpedantic", "-Wconversion", "-Wshadow", "-Werror", "-O2"]
CHECKS = ["-fsanitize=address,undefined", "-fno-sanitize-recover=all", "-g"]
PROGRAM = program()
SERVES = PROGRAM is not None and has_serve(PROGRAM)
IS_SERVICE = PROGRAM is not None and has_services(PROGRAM)
BYE = (b"Q", b"BYE\n")
SCRIPT = "channel a, b, c\nP = a -> b -> P\n"
FOLDER = tempfile.TemporaryDirectory(prefix="client-c-")
PLAYER = os.path.join(FOLDER.name, "player")
EXAMPLE = os.path.join(FOLDER.name, "example")


def compiled(target, source, flags):
    """What the compiler said, or None where it made the program."""
    words = [COMPILER] + FLAGS + flags + ["-o", target, source, os.path.join(CLIENT, "cspwatch_client.c")]
    done = subprocess.run(words, stdout=subprocess.PIPE, stderr=subprocess.STDOUT, timeout=120)
    return None if done.returncode == 0 else done.stdout.decode("utf-8", "replace")


def setUpModule():
    if shutil.which(COMPILER) is None:
        raise unittest.SkipTest("there is no compiler %s" % COMPILER)
    player = os.path.join(HERE, "player.c")
    trouble = compiled(PLAYER, player, CHECKS) and compiled(PLAYER, player, [])
    trouble = trouble or compiled(EXAMPLE, os.path.join(CLIENT, "example.c"), [])
    if trouble:
        raise AssertionError(trouble)


def tearDownModule():
    FOLDER.cleanup()


def told(words, calls=()):
    """The lines that the program prints for these lines of its input."""
    done = subprocess.run(
        words, input="".join(call + "\n" for call in calls).encode(), stdout=subprocess.PIPE, stderr=subprocess.PIPE, timeout=SECONDS
    )
    return done.stdout.decode().splitlines(), done.stderr.decode(), done.returncode


class Plays(unittest.TestCase):
    def play(self, steps, rows, timeout=SECONDS * 1000, troubles=()):
        """Plays the calls of the rows against the conversation, and compares what came of each."""
        return self.play_all([steps], rows, timeout, troubles)

    def play_all(self, conversations, rows, timeout=SECONDS * 1000, troubles=()):
        """The same with a conversation for each connection. A call without an answer prints nothing.

        What the server says of its conversation is left alone where `troubles` is None: the client may go before its end.
        """
        server = StandIn(*conversations)
        with server:
            host, port = server.address.split(":")
            lines, errors, status = told([PLAYER, host, port, str(timeout)], [call for call, _ in rows])
        self.assertEqual((lines, errors, status), ([wanted for _, wanted in rows if wanted], "", 0))
        if troubles is not None:
            self.assertEqual(server.troubles, list(troubles))
        return server


class Answers(Plays):
    def test_reports(self):
        steps = [(b"E a", b"OK 1\n"), (b"E c.0.left", b"NO 2\n"), (b"R", b"OK 3\n"), (b"R b a b", b"NO 1000000\n"), BYE]
        self.play(steps, [
            ("event a", "accepted 1"),
            ("event c.0.left", "rejected 2"),
            ("refusal", "accepted 3"),
            ("refusal b a b", "rejected 1000000"),
        ])

    def test_questions(self):
        steps = [(b"S", b"S 5 2 1 2 open\n"), (b"S", b"S 0 0 0 0 closed\n"), (b"N", b"N\n"), (b"N", b"N a c.0 _tick\n"), BYE]
        self.play(steps, [
            ("status", "5 2 1 2 open"),
            ("status", "0 0 0 0 closed"),
            ("next", "next"),
            ("next", "next a c.0 _tick"),
        ])

    def test_what_was_expected(self):
        names = " ".join("c.%d" % number for number in range(2000))
        steps = [(b"E a", b"NO 2\n"), (b"N", b"N " + names.encode() + b"\n"), (b"S", b"S 2 1 0 1 open\n"), (b"E a", b"NO 3\n"), (b"N", b"N\n"),
                 (b"S", b"S 3 1 0 2 open\n"), (b"N", b"N b\n"), (b"S", b"S 9 1 0 8 open\n"), (b"N", b"N b\nS 3 1 0 2 open\n"), (b"S", b""), (b"N", b"OK 1\n")]
        self.play(steps, [
            ("event a", "rejected 2"),
            ("expected 2", "expected " + names),
            ("event a", "rejected 3"),
            ("expected 3", "expected"),
            ("expected 3", "not known"),
            ("expected 3", "expected b"),
            ("expected 3", "bad reply"),
        ])

    def test_a_long_reply(self):
        names = " ".join("c.%d" % number for number in range(20000))
        self.play([(b"N", b"N " + names.encode() + b"\n"), (b"E a", b"OK 1\n"), BYE], [("next", "next " + names), ("event a", "accepted 1")])

    def test_a_reply_in_pieces(self):
        self.play([(b"E a", [b"O", b"K ", b"1", b"2\n"]), BYE], [("event a", "accepted 12")])

    def test_replies_that_come_together(self):
        self.play([(b"E a", b"OK 1\nNO 2\nN b\n"), (b"E a", b""), (b"N", b""), BYE], [("event a", "accepted 1"), ("event a", "rejected 2"), ("next", "next b")])


class Faults(Plays):
    def test_a_fault_leaves_the_connection(self):
        steps = [(b"E d", b"ERR 11 event\n"), (b"N", b"ERR 40 memory\n"), (b"S", b"ERR 10 command\n"), (b"R a", b"ERR 977 later_word\n"), (b"E a", b"OK 1\n"), BYE]
        self.play(steps, [
            ("event d", "fault 11 event"),
            ("next", "fault 40 memory"),
            ("status", "fault 10 command"),
            ("refusal a", "fault 977 later_word"),
            ("event a", "accepted 1"),
        ])

    def test_a_long_word_is_cut(self):
        self.play([(b"S", b"ERR 5 " + b"w" * 40 + b"\n"), BYE], [("status", "fault 5 " + "w" * 31)])

    def test_a_server_without_a_seat(self):
        self.play([(None, b"ERR 22 seats\n")], [("event a", "fault 22 seats"), ("event a", "no reply"), ("status", "no reply")])

    def test_the_connection_ends(self):
        for steps in ([], [(b"E a", b"")], [(b"E a", b"OK 1")], [(b"E a", b""), RESET]):
            self.play(steps, [("event a", "no reply"), ("next", "no reply")])

    def test_no_reply_in_time(self):
        for begun in (b"", b"OK "):
            self.play([(b"E a", begun), HOLD], [("event a", "no reply"), ("event a", "no reply")], timeout=100)

    def test_a_reply_that_dribbles(self):
        begun = time.monotonic()
        self.play([(b"E a", [b"O", b"K", b" "] + [b"1"] * 300)], [("event a", "no reply")], timeout=300, troubles=None)
        self.assertLess(time.monotonic() - begun, SECONDS / 2)

    def test_a_reply_without_an_end(self):
        self.play([(b"E a", [b"O" * 65536] * 20)], [("event a", "bad reply"), ("event a", "no reply")], troubles=None)

    def test_replies_of_no_protocol(self):
        rows = [
            ("event a", ["", "OK", "OK ", "OK 0", "OK 01", "OK +1", "OK -1", "ok 1", "OK 1 ", "OK  1", "NO a", " OK 1", "OK 1\r", "OK 18446744073709551616"]),
            ("event a", ["BYE", "N a", "S 1 1 0 0 open", "ERR", "ERR 10", "ERR command", "ERR 10 a b", "ERR 1000000000 a", "\xff", "OK 1\0"]),
            ("status", ["S", "S 1 1 0 open", "S 1 1 0 0", "S 1 1 0 0 shut", "S 1 1 0 00 open", "OK 1", "S 1 1 0 0 open ", "S 1 1 0 0 open\0"]),
            ("next", ["N ", "N  a", "N a  b", "N a ", "Na", "", "N a\tb", "N a\0 b", "OK 1", "n a"]),
        ]
        for call, replies in rows:
            for reply in replies:
                with self.subTest(call=call, reply=reply):
                    self.play([(None, reply.encode("latin-1") + b"\n"), HOLD], [(call, "bad reply"), (call, "no reply")])


class Names(Plays):
    def test_names_that_cannot_be_sent(self):
        rows = ["event a\\nE", "event " + "x" * 4095, "refusal a\\sb", "refusal a b\\n", "refusal " + "x" * 2047 + " " + "x" * 2047]
        self.play([(b"S", b"S 0 0 0 0 open\n"), BYE], [(row, "bad name") for row in rows] + [("status", "0 0 0 0 open")])

    def test_the_longest_line(self):
        self.play([(b"E " + b"x" * 4094, b"ERR 11 event\n"), BYE], [("event " + "x" * 4094, "fault 11 event")])

    def test_names_are_sent_as_they_stand(self):
        lines = ["E a b", "E ", "R ", "R  a", "R a\r"]
        rows = ["event a b", "event ", "refusal ", "refusal  a", "refusal a\r"]
        self.play([(line.encode(), b"ERR 11 event\n") for line in lines] + [BYE], [(row, "fault 11 event") for row in rows])


class Seats(Plays):
    PATIENT = [("patience 20000", ""), ("identify 3", "answered")]

    def test_a_seat_by_number(self):
        steps = [(b"I 3", b"I 3 7\n"), (b"E a", b"OK 12\n"), (b"E d", b"ERR 11 event\n"), (b"R", b"NO 13\n"), BYE]
        self.play(steps, [
            ("identify 3", "answered"),
            ("judged", "judged 7"),
            ("event a", "accepted 12"),
            ("event d", "fault 11 event"),
            ("judged", "judged 8"),
            ("refusal", "rejected 13"),
            ("judged", "judged 9"),
        ])

    def test_a_seat_that_is_not_given(self):
        for code in (10, 22, 27, 31, 40):
            steps = [(b"I 1000", b"ERR %d word\n" % code), HOLD]
            self.play(steps, [("identify 1000", "fault %d word" % code), ("event a", "no reply"), ("judged", "judged 0")])

    def test_other_replies(self):
        for reply in (b"I 3", b"I 3 ", b"I 4 0", b"I 3 01", b"I 03 1", b"I 3 -1", b"I 3 1 ", b"i 3 1", b"OK 1", b"I 3 1\r"):
            with self.subTest(reply=reply):
                self.play([(b"I 3", reply + b"\n"), HOLD], [("patience 20000", ""), ("identify 3", "bad reply"), ("event a", "no reply")])

    def test_numbers_that_are_no_seat(self):
        self.play([BYE], [("identify 0", "bad name"), ("identify 1001", "bad name")])

    def test_a_report_that_was_lost_on_its_way_is_sent_again(self):
        for end in ([], [RESET]):
            lost = [(b"I 3", b"I 3 0\n"), (b"E a", b"OK 1\n"), (b"E b", b"")] + end
            again = [(b"I 3", b"I 3 1\n"), (b"E b", b"NO 2\n"), (b"E a", b"NO 3\n"), BYE]
            rows = [("event a", "accepted 1"), ("event b", "rejected 2"), ("event a", "rejected 3"), ("judged", "judged 3")]
            self.play_all([lost, again], self.PATIENT + rows)

    def test_a_report_that_was_judged_is_not_sent_again(self):
        for lost in (b"", b"OK", b"OK 5"):
            first, again = [(b"I 3", b"I 3 4\n"), (b"R a", lost)], [(b"I 3", b"I 3 5\n"), (b"E a", b"OK 6\n"), BYE]
            self.play_all([first, again], self.PATIENT + [("refusal a", "verdict lost"), ("event a", "accepted 6"), ("judged", "judged 6")])

    def test_a_connection_that_is_lost_again(self):
        none, some = [(b"I 3", b"I 3 0\n")], [(b"I 3", b"I 3 0\n"), (b"E a", b"OK 1\n"), BYE]
        self.play_all([none, [], none, [(b"I 3", b"")], [(b"I 3", b"ERR 27 taken\n")], some], self.PATIENT + [("event a", "accepted 1")])

    def test_a_question_is_asked_again(self):
        lost = [(b"I 3", b"I 3 2\n"), (b"N", b"N a")]
        again = [(b"I 3", b"I 3 2\n"), (b"N", b"N b\n"), (b"S", b"S 2 2 0 0 open\n"), BYE]
        self.play_all([lost, again], self.PATIENT + [("next", "next b"), ("status", "2 2 0 0 open")])

    def test_reports_of_someone_else(self):
        for call, found in (("event a", 2), ("event a", 6), ("event a", 0), ("next", 5), ("status", 3)):
            conversations = [[(b"I 3", b"I 3 4\n")], [(b"I 3", b"I 3 %d\n" % found), HOLD]]
            self.play_all(conversations, self.PATIENT + [(call, "other reports"), (call, "no reply")])

    def test_each_report_is_judged_once(self):
        for cut, lose in ((2, None), (None, 2), (0, None), (None, 0)):
            with SeatService(cut=cut, lose=lose) as server:
                rows = ["patience 20000", "identify 3"] + ["event a.%d" % number for number in range(4)]
                lines, errors, status = told([PLAYER] + server.address.split(":") + ["20000"], rows)
                self.assertEqual((errors, status, lines.count("verdict lost")), ("", 0, int(cut is not None)))
                self.assertEqual(server.reports, {3: ["E a.%d" % number for number in range(4)]})

    def test_no_more_patience(self):
        with StandIn([(b"I 3", b"I 3 4\n"), (b"E a", b"")]) as server:
            host, port = server.address.split(":")
            lines = told([PLAYER, host, port, "100"], ["patience 50", "identify 3", "event a", "event a", "judged"])[0]
        self.assertEqual(lines, ["answered", "no reply", "no reply", "judged 4"])

    def test_what_does_not_pass(self):
        for code in (10, 31):
            conversations = [[(b"I 3", b"I 3 4\n")], [(None, b"ERR %d word\n" % code)]]
            self.play_all(conversations, self.PATIENT + [("event a", "fault %d word" % code), ("event a", "no reply")])


class Ends(Plays):
    def test_close_takes_leave(self):
        self.assertEqual(self.play([BYE], []).lines, [b"Q"])

    def test_no_connection(self):
        with StandIn([BYE]) as server:
            host, port = server.address.split(":")
            self.assertEqual(told([PLAYER, host, port, "0"]), ([], "", 0))
        self.assertEqual(told([PLAYER, host, port, "0"]), (["not connected"], "", 0))
        self.assertEqual(told([PLAYER, host, "no-port", "0"]), (["not connected"], "", 0))


@unittest.skipUnless(shutil.which("make"), "there is no make")
class Installed(unittest.TestCase):
    """The client as a library, built in a copy of its folder and installed below another."""

    def test_a_program_is_linked_by_pkg_config(self):
        copy, target = os.path.join(FOLDER.name, "copy"), os.path.join(FOLDER.name, "target")
        shutil.copytree(CLIENT, copy)
        self.run_well(["make", "-s", "-C", copy, "install", "PREFIX=/usr", "DESTDIR=" + target, "CC=" + COMPILER])
        words = [COMPILER, "-o", os.path.join(copy, "example"), os.path.join(copy, "example.c")]
        self.run_well(words + self.flags(target))
        with StandIn([(b"E a", b"OK 1\n"), (b"E b", b"OK 2\n"), (b"N", b"N a\n"), BYE]) as server:
            path = {"LD_LIBRARY_PATH": os.path.join(target, "usr", "lib")}
            done = subprocess.run([words[2]] + server.address.split(":"), env=path, stdout=subprocess.PIPE, timeout=SECONDS)
        self.assertEqual((done.stdout, done.returncode), (b"a: accepted, report 1\nb: accepted, report 2\nnext: a\n", 0))
        self.run_well(["make", "-s", "-C", copy, "uninstall", "PREFIX=/usr", "DESTDIR=" + target])
        self.assertEqual([names for _, _, names in os.walk(target) if names], [])

    def test_the_tests_are_run_by_make(self):
        words = ["make", "-s", "-C", CLIENT, "check", "CC=" + COMPILER, "PYTHON=" + sys.executable, "TESTS=Names.test_the_longest_line"]
        done = subprocess.run(words, stdout=subprocess.PIPE, stderr=subprocess.STDOUT, timeout=120)
        self.assertEqual((b"Ran 1 test" in done.stdout, done.returncode), (True, 0), done.stdout)

    def test_the_version(self):
        copy = os.path.join(FOLDER.name, "version")
        shutil.copytree(CLIENT, copy)
        with open(os.path.join(copy, "cspwatch_client.h"), encoding="ascii") as file:
            version = re.search('^#define CSPWATCH_CLIENT_VERSION "(.*)"$', file.read(), re.MULTILINE)[1]
        self.run_well(["make", "-s", "-C", copy, "cspwatch_client.pc", "PREFIX=/prefix"])
        with open(os.path.join(copy, "cspwatch_client.pc"), encoding="ascii") as file:
            text = file.read()
        self.assertIn("\nVersion: %s\n" % version, text)
        self.assertIn("libdir=/prefix/lib\n", text)
        self.run_well(["make", "-s", "-C", copy, "clean"])
        self.assertFalse(os.path.exists(os.path.join(copy, "cspwatch_client.pc")))

    def flags(self, target):
        """What pkg-config says of the installed library; where there is none, what its file has."""
        if shutil.which("pkg-config") is None:
            return ["-I%s/usr/include" % target, "-L%s/usr/lib" % target, "-lcspwatch_client"]
        place = {"PKG_CONFIG_LIBDIR": os.path.join(target, "usr", "lib", "pkgconfig"), "PKG_CONFIG_SYSROOT_DIR": target, "PATH": os.environ["PATH"],
                 "PKG_CONFIG_ALLOW_SYSTEM_CFLAGS": "1", "PKG_CONFIG_ALLOW_SYSTEM_LIBS": "1"}
        return subprocess.run(["pkg-config", "--cflags", "--libs", "cspwatch_client"], env=place, stdout=subprocess.PIPE, check=True,
                              timeout=SECONDS).stdout.decode().split()

    def run_well(self, words):
        done = subprocess.run(words, stdout=subprocess.PIPE, stderr=subprocess.STDOUT, timeout=120)
        self.assertEqual((done.stdout, done.returncode), (b"", 0), words)


@unittest.skipUnless(PROGRAM, "there is no program")
class WithTheProgram(Plays):
    rows = [
        ("next", "next a"),
        ("event a", "accepted 1"),
        ("event a", "rejected 2"),
        ("refusal a", "accepted 3"),
        ("refusal a b", "rejected 4"),
        ("event d", "fault 11 event"),
        ("event b", "accepted 5"),
        ("status", "5 2 1 2 open"),
    ]

    def setUp(self):
        self.spec = os.path.join(FOLDER.name, "p.csp")
        with open(self.spec, "w", encoding="ascii") as file:
            file.write(SCRIPT)

    def session(self, address):
        lines, errors, status = told([PLAYER] + address.split(":") + ["20000"], [call for call, _ in self.rows])
        self.assertEqual((lines, errors, status), ([wanted for _, wanted in self.rows], "", 0))

    def test_check_over_a_socket(self):
        server = CheckServer(PROGRAM, self.spec, "P", 1)
        with server:
            self.session(server.address)
        self.assertEqual(server.statuses, [1])

    def test_the_example(self):
        with CheckServer(PROGRAM, self.spec, "P", 1) as server:
            lines, errors, status = told([EXAMPLE] + server.address.split(":"))
        self.assertEqual((lines, errors, status), (["a: accepted, report 1", "b: accepted, report 2", "next: a"], "", 0))

    @unittest.skipUnless(SERVES, "the program has no command `serve`")
    def test_serve(self):
        server = Server(self.spec, "P", os.path.join(FOLDER.name, "journal"), program=PROGRAM)
        self.session(server.address)
        self.assertEqual(server.wait(SECONDS).summary, Status(5, 2, 1, 2, closed=False))

    @unittest.skipUnless(SERVES, "the program has no command `serve`")
    def test_a_socket_in_the_file_system(self):
        place = "unix:" + os.path.join(FOLDER.name, "socket")
        server = Server(self.spec, "P", os.path.join(FOLDER.name, "journal at a socket"), program=PROGRAM, listen=place)
        lines, errors, status = told([PLAYER, place, "", "20000"], ["event a", "event a", "status"])
        self.assertEqual((lines, errors, status), (["accepted 1", "rejected 2", "2 1 0 1 open"], "", 0))
        self.assertEqual(server.wait(SECONDS).summary, Status(2, 1, 0, 1, closed=False))
        for elsewhere in (place, "unix:", "unix:" + "x" * 108):
            self.assertEqual(told([PLAYER, elsewhere, "", "0"]), (["not connected"], "", 0))

    @unittest.skipUnless(IS_SERVICE, "the program is no service")
    def test_a_component_that_comes_back(self):
        server = Server(self.spec, "P", os.path.join(FOLDER.name, "journal of a service"), connections=None, program=PROGRAM)
        with server.client(SECONDS):
            for rows in ([("identify 3", "answered"), ("judged", "judged 0"), ("event a", "accepted 1"), ("refusal a", "accepted 2")],
                         [("patience 20000", ""), ("identify 3", "answered"), ("judged", "judged 2"), ("event b", "accepted 3")]):
                lines, errors, status = told([PLAYER] + server.address.split(":") + ["20000"], [call for call, _ in rows])
                self.assertEqual((lines, errors, status), ([wanted for _, wanted in rows if wanted], "", 0))
        outcome = server.wait(SECONDS)
        self.assertEqual((outcome.exit_status, outcome.summary), (0, Status(3, 2, 1, 0, closed=False)))


if __name__ == "__main__":
    unittest.main()
