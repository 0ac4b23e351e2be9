"""What a user of Python meets first: a checker without a block, programs that aren't there, scripts that are refused, reasons.

Run by `python3 -m unittest discover -s clients/python/tests`.
"""
import asyncio
import gc
import os
import stat
import subprocess
import sys
import tempfile
import threading
import unittest
from unittest import mock

HERE = os.path.dirname(os.path.abspath(__file__))
sys.path[:0] = [HERE, os.path.dirname(HERE), os.path.dirname(os.path.dirname(HERE))]

from cspwatch_client import AsyncClient, Checker, Client, Fault, Outcome, ReconnectingClient, Server, StartFailed, Verdict  # noqa: E402
from stand_in import SECONDS, StandIn, has_serve, has_services, program  # noqa: E402

PROGRAM = program()
SERVES = PROGRAM is not None and has_serve(PROGRAM)
IS_SERVICE = PROGRAM is not None and has_services(PROGRAM)


class WithScript(unittest.TestCase):
    def setUp(self):
        folder = tempfile.TemporaryDirectory(prefix="users-")
        self.addCleanup(folder.cleanup)
        self.folder = folder.name
        self.spec = self.file("p.csp", "channel a, b, c\nP = a -> b -> P\n")

    def path(self, name):
        return os.path.join(self.folder, name)

    def file(self, name, text):
        with open(self.path(name), "w", encoding="ascii") as file:
            file.write(text)
        return self.path(name)


class ProgramsThatAreNotThere(WithScript):
    def test_each_call_says_how_to_install(self):
        with mock.patch.dict(os.environ, {"CSPWATCH": "", "PATH": self.folder}):
            for begin in (lambda: Checker(self.spec, "P"), lambda: Server(self.spec, "P", self.path("j")), lambda: Checker(self.spec, "P", program="/no/such")):
                with self.assertRaises(StartFailed) as caught:
                    begin()
                self.assertIn("there is no such program. Install cspwatch", str(caught.exception))
                self.assertEqual((caught.exception.outcome.exit_status, caught.exception.line), (127, None))

    def test_one_that_can_not_run(self):
        self.file("cspwatch", "\x7fELF nothing")
        os.chmod(self.path("cspwatch"), stat.S_IRWXU)
        with self.assertRaises(StartFailed) as caught:
            Checker(self.spec, "P", program=self.path("cspwatch"))
        self.assertEqual(str(caught.exception), "%s: Exec format error" % self.path("cspwatch"))

    def test_the_variable_names_it(self):
        with mock.patch.dict(os.environ, {"CSPWATCH": "/named/by/the/variable"}):
            with self.assertRaises(StartFailed) as caught:
                Checker(self.spec, "P")
            self.assertIn("/named/by/the/variable: there is no such program", str(caught.exception))

    def test_it_is_asked_for_reasons(self):
        self.file("cspwatch", '#!/bin/sh\necho "explains $CSPWATCH_EXPLAIN" >&2\nexit 7\n')
        os.chmod(self.path("cspwatch"), stat.S_IRWXU)
        with mock.patch.dict(os.environ, {"CSPWATCH": self.path("cspwatch")}):
            for begin in (lambda: Checker(self.spec, "P"), lambda: Server(self.spec, "P", self.path("j"))):
                with self.assertRaises(StartFailed) as caught:
                    begin()
                self.assertEqual(caught.exception.outcome, Outcome(7, "explains 1\n"))


class Faults(unittest.TestCase):
    def test_what_is_read_of_a_fault(self):
        told = "p.csp:2: 4 unknown\n    2 | P = a -> Z\n      |          ^\n        unknown name 'Z'\n"
        fault = StartFailed(Outcome(3, told))
        self.assertEqual((fault.line, fault.code, fault.text, fault.mark, fault.words), (2, 4, "P = a -> Z", 9, "unknown name 'Z'"))
        fault = StartFailed(Outcome(3, "p.csp:1: 12 process\n"))
        self.assertEqual((fault.line, fault.code, fault.text, fault.mark, fault.words), (1, 12, None, None, None))
        fault = StartFailed(Outcome(5, "p.csp: cannot read\n"))
        self.assertEqual((fault.line, fault.words, str(fault)), (None, None, "p.csp: cannot read"))


@unittest.skipUnless(PROGRAM, "there is no program")
class OverTheProgram(WithScript):
    def test_a_checker_without_a_block(self):
        checker = Checker(self.spec, "P", program=PROGRAM)
        self.assertTrue(checker.event("a"))
        verdict = checker.event("c")
        self.assertEqual((verdict, verdict.expected, checker.next()), (Verdict(False, 2), ("b",), ("b",)))
        self.assertEqual(repr(verdict), "Verdict(accepted=False, place=2, expected=('b',))")
        self.assertEqual(checker.refusal(["a", "b"]).expected, ("b",))
        self.assertIsNone(checker.event("b").expected)
        self.assertEqual(checker.status().judged, 4)
        self.assertEqual((checker.close().exit_status, checker.close().exit_status), (1, 1))

    def test_it_ends_with_what_holds_it(self):
        checker = Checker(self.spec, "P", program=PROGRAM)
        process = checker._process
        checker.event("a")
        del checker
        gc.collect()
        self.assertEqual(process.returncode, 0)

    def test_it_ends_with_the_process(self):
        text = "import sys; sys.path[:0] = %r\nfrom cspwatch_client import Checker\nkept = Checker(%r, 'P')\nprint(kept._process.pid, bool(kept.event('a')))"
        words = [sys.executable, "-c", text % ([os.path.dirname(HERE)], self.spec)]
        done = subprocess.run(words, stdout=subprocess.PIPE, stderr=subprocess.PIPE, timeout=SECONDS, env={**os.environ, "CSPWATCH": PROGRAM})
        pid, word = done.stdout.decode().split()
        self.assertEqual((word, done.stderr), ("True", b""))
        self.assertFalse(os.path.exists("/proc/" + pid))

    def test_many_reasons_fill_no_pipe(self):
        with Checker(self.spec, "P", program=PROGRAM) as client:
            verdicts = [client.event("c") for _ in range(3000)]
        self.assertEqual({verdict.expected for verdict in verdicts}, {("a",)})

    def test_a_refused_script(self):
        self.file("p.csp", "channel a\nP = a -> Z\n")
        for begin in (lambda: Checker(self.spec, "P", program=PROGRAM), lambda: Server(self.spec, "P", self.path("j"), program=PROGRAM)):
            with self.assertRaises(StartFailed) as caught:
                begin()
            fault = caught.exception
            self.assertEqual((fault.line, fault.code, fault.text, fault.mark), (2, 4, "P = a -> Z", 9))
            self.assertIn("Z", fault.words)
            self.assertEqual(fault.outcome.exit_status, 3)


class Replies(unittest.TestCase):
    """What is asked beside a report."""

    def test_another_client_has_reported(self):
        for counts, expected in ((b"S 2 1 0 1 open\n", ("b",)), (b"S 3 2 0 1 open\n", None)):
            with StandIn([(b"E c", b""), (b"N", b""), (b"S", b"NO 2\nN b\n" + counts)]) as server:
                client = Client(server.address, SECONDS, reasons=True)
                verdict = client.event("c")
                client._drop()
                self.assertEqual((verdict.accepted, verdict.expected), (False, expected))


@unittest.skipUnless(SERVES, "the program has no command serve")
class OverAServer(WithScript):
    def test_each_client_has_reasons_where_it_wants(self):
        with Server(self.spec, "P", self.path("j"), connections=3, program=PROGRAM) as server:
            with server.client() as plain, server.client(reasons=True) as client:
                self.assertIsNone(plain.event("b").expected)
                self.assertTrue(client.event("a"))
                self.assertEqual(client.event("a").expected, ("b",))
                with self.assertRaises(Fault):
                    client.event("d")
                self.assertEqual(client.refusal(["b"]).expected, ("b",))
                self.assertEqual((client.judged, client.next()), (3, ("b",)))
            asyncio.run(self.asynchronous(server.address))
            server._made += 1

    async def asynchronous(self, address):
        async with await AsyncClient.connect(address, SECONDS, reasons=True) as client:
            verdicts = await asyncio.gather(*(client.event(name) for name in "abcc"), client.event("d"), return_exceptions=True)
            self.assertEqual([verdict.expected for verdict in verdicts[:4]], [("b",), None, ("a",), ("a",)])
            self.assertIsInstance(verdicts[4], Fault)
            self.assertEqual(client.judged, 4)

    def test_what_is_expected_is_right_beside_other_reports(self):
        # P alternates, so what is expected in place of a rejected `b` is `a`, or isn't known.
        with Server(self.spec, "P", self.path("j"), connections=2, program=PROGRAM) as server:
            with server.client() as other, server.client(reasons=True) as client:
                stop = threading.Event()
                thread = threading.Thread(target=lambda: [other.event(name) for _ in iter(stop.is_set, True) for name in "ab"])
                thread.start()
                found = {client.event("b").expected for _ in range(500)}
                stop.set()
                thread.join()
        self.assertLessEqual(found, {None, ("a",)})

    @unittest.skipUnless(IS_SERVICE, "the program is no service")
    def test_a_client_that_comes_back(self):
        with Server(self.spec, "P", self.path("j"), connections=None, program=PROGRAM) as server:
            server._made = 1
            with ReconnectingClient(server.address, 3, SECONDS, reasons=True) as client:
                self.assertEqual((client.event("b").expected, client.judged), (("a",), 1))


if __name__ == "__main__":
    unittest.main()
