"""The client against the program: CSPWATCH in the environment names it, else it is the one that this folder's project built.

Without a program these tests are skipped, and those of a server where the program has no command `serve`.
"""
import asyncio
import doctest
import os
import random
import re
import subprocess
import sys
import tempfile
import threading
import unittest

HERE = os.path.dirname(os.path.abspath(__file__))
sys.path[:0] = [HERE, os.path.dirname(HERE), os.path.dirname(os.path.dirname(HERE))]

from blocking import Blocking, Patient  # noqa: E402
from cspwatch_client import AsyncClient, Checker, Client, Fault, FaultCode, ReconnectingClient, Server, StartFailed, Status, Verdict, VerdictLost  # noqa: E402
from stand_in import SECONDS, CheckServer, has_serve, has_services, program  # noqa: E402

PROGRAM = program()
SERVES = PROGRAM is not None and has_serve(PROGRAM)
IS_SERVICE = PROGRAM is not None and has_services(PROGRAM)


class WithScript(unittest.TestCase):
    """A test with a folder of its own, in which the file `p.csp` has a script."""

    script = "channel a, b, c\nP = a -> b -> P\nQ = STOP\n"

    def setUp(self):
        folder = tempfile.TemporaryDirectory(prefix="client-")
        self.addCleanup(folder.cleanup)
        self.folder = folder.name
        self.spec = self.file("p.csp", self.script)
        self.journal = os.path.join(self.folder, "journal")

    def file(self, name, text):
        path = os.path.join(self.folder, name)
        with open(path, "w", encoding="ascii") as file:
            file.write(text)
        return path

    def session(self, client):
        """The session of the line protocol's page, by calls."""
        self.assertEqual(client.next(), ("a",))
        self.assertEqual(client.event("a"), Verdict(True, 1))
        self.assertEqual(client.event("a"), Verdict(False, 2))
        self.assertEqual(client.refusal(["a"]), Verdict(True, 3))
        self.assertEqual(client.refusal(["a", "b"]), Verdict(False, 4))
        with self.assertRaises(Fault) as caught:
            client.event("d")
        self.assertEqual(caught.exception.code, FaultCode.EVENT)
        self.assertEqual(client.event("b"), Verdict(True, 5))
        self.assertEqual(client.status(), Status(5, 2, 1, 2, closed=False))


@unittest.skipUnless(PROGRAM, "there is no program")
class Checks(WithScript):
    def test_session(self):
        checker = Checker(self.spec, "P", program=PROGRAM)
        self.session(checker.client)
        outcome = checker.close()
        self.assertEqual((outcome.exit_status, outcome.errors), (1, ""))

    def test_block(self):
        with Checker(self.spec, "P", program=PROGRAM) as client:
            self.assertTrue(client.event("a"))
            self.assertEqual(client.next(), ("b",))
        self.assertTrue(client.closed)

    def test_nothing_may_come(self):
        with Checker(self.spec, "Q", program=PROGRAM) as client:
            self.assertEqual(client.next(), ())
            self.assertTrue(client.refusal(["a", "b", "c", "_tick"]))
            self.assertFalse(client.event("_tick"))

    def test_a_refused_script(self):
        with self.assertRaises(StartFailed) as caught:
            Checker(self.file("bad.csp", "channel a\nP = a -> X\n"), "P", program=PROGRAM)
        self.assertEqual(caught.exception.outcome.exit_status, 3)
        self.assertTrue(str(caught.exception).splitlines()[0].endswith("bad.csp:2: 4 unknown"))

    def test_the_session_of_the_readme(self):
        with open(os.path.join(os.path.dirname(HERE), "README.md"), encoding="utf-8") as file:
            session = re.search(r"```python\n(>>> .*?)```", file.read(), re.DOTALL)[1]
        with CheckServer(PROGRAM, self.spec, "P", 1) as server:
            session = session.replace("127.0.0.1:4050", server.address)
            test = doctest.DocTestParser().get_doctest(session, {}, "README.md", None, 0)
            runner = doctest.DocTestRunner(optionflags=doctest.ELLIPSIS)
            runner.run(test)
        self.assertEqual((runner.failures, runner.tries), (0, 9))

    def test_over_a_socket(self):
        server = CheckServer(PROGRAM, self.spec, "P", 2)
        with server:
            for _ in range(2):
                with Client(server.address, timeout=SECONDS) as client:
                    self.session(client)
        self.assertEqual(server.statuses, [1, 1])


@unittest.skipUnless(SERVES, "there is no program, or it has no command `serve`")
class Serves(WithScript):
    def server(self, process="P", connections=1, spec=None):
        return Server(spec or self.spec, process, self.journal, connections, program=PROGRAM)

    def replay(self):
        done = subprocess.run([PROGRAM, "replay", self.journal], stdout=subprocess.PIPE, timeout=SECONDS)
        return done.stdout.decode("ascii"), done.returncode

    def test_session(self):
        server = self.server()
        with server.client(SECONDS) as client:
            self.session(client)
        outcome = server.wait(SECONDS)
        self.assertEqual((outcome.exit_status, outcome.errors), (1, ""))
        self.assertEqual(outcome.summary, Status(5, 2, 1, 2, closed=False))
        self.assertEqual(self.replay(), ("S 5 2 1 2 open\n", 1))

    def test_session_by_asyncio(self):
        server = self.server()
        with Blocking(server.address, SECONDS) as client:
            self.session(client)
        self.assertEqual(server.wait(SECONDS).summary, Status(5, 2, 1, 2, closed=False))

    def test_a_socket_in_the_file_system(self):
        for kind in (Client, Blocking):
            self.journal = os.path.join(self.folder, kind.__name__)
            place = "unix:" + os.path.join(self.folder, "a socket")
            server = Server(self.spec, "P", self.journal, program=PROGRAM, listen=place)
            self.assertEqual(server.address, place)
            with kind(server.address, SECONDS) as client:
                self.session(client)
            self.assertEqual(server.wait(SECONDS).summary, Status(5, 2, 1, 2, closed=False))
            with self.assertRaises(OSError):
                kind(place, SECONDS)

    def test_reports_that_are_sent_ahead(self):
        async def report(address):
            async with await AsyncClient.connect(address, SECONDS) as client:
                return await asyncio.gather(*(client.event("ab"[number % 2]) for number in range(3000)), client.next())

        server = self.server()
        *verdicts, following = asyncio.run(report(server.address))
        self.assertEqual((verdicts, following), ([Verdict(True, number + 1) for number in range(3000)], ("a",)))
        self.assertEqual(server.wait(SECONDS).summary, Status(3000, 3000, 0, 0, closed=False))

    def test_two_clients_and_a_later_run(self):
        server = self.server(connections=2)
        with server.client(SECONDS) as first:
            self.assertEqual(first.event("a"), Verdict(True, 1))
            with server.client(SECONDS) as second:
                self.assertEqual(second.event("b"), Verdict(True, 2))
                self.assertIn(first.status(), (Status(1, 1, 0, 0, False), Status(2, 2, 0, 0, False)))
        outcome = server.wait(SECONDS)
        self.assertEqual((outcome.exit_status, outcome.summary), (0, Status(2, 2, 0, 0, closed=False)))
        later = self.server()
        with later.client(SECONDS) as client:
            self.assertEqual(client.event("a"), Verdict(True, 3))
        self.assertEqual(later.wait(SECONDS).summary, Status(3, 3, 0, 0, closed=False))
        self.assertEqual(self.replay(), ("S 3 3 0 0 open\n", 0))

    def test_clients_side_by_side(self):
        spec = self.file("run.csp", "channel a, b\nP = a -> P [] b -> P\n")
        places = []

        def report(client):
            with client:
                places.append([client.event("a").place for _ in range(25)])

        server = self.server(spec=spec, connections=8)
        threads = [threading.Thread(target=report, args=[server.client(SECONDS)]) for _ in range(8)]
        for thread in threads:
            thread.start()
        for thread in threads:
            thread.join(SECONDS)
        self.assertEqual(server.wait(SECONDS).summary, Status(200, 200, 0, 0, closed=False))
        self.assertEqual(sorted(sum(places, [])), list(range(1, 201)))
        for own in places:
            self.assertEqual(own, sorted(own))

    def test_block(self):
        with self.server(connections=2) as server:
            for _ in range(2):
                with server.client(SECONDS) as client:
                    self.assertTrue(client.refusal(["b", "c"]))
        self.assertEqual(self.replay()[0], "S 2 0 2 0 open\n")

    def test_a_block_that_connects_too_seldom(self):
        with self.server(connections=64) as server:
            with server.client(SECONDS) as client:
                self.assertTrue(client.event("a"))
        self.assertEqual(self.replay(), ("S 1 1 0 0 open\n", 0))

    def test_servers_that_do_not_start(self):
        with self.assertRaises(StartFailed) as caught:
            self.server(process="R1")
        self.assertEqual(caught.exception.outcome.exit_status, 3)
        self.assertTrue(str(caught.exception).splitlines()[0].endswith("p.csp:1: 12 process"))
        with self.assertRaises(StartFailed) as caught:
            self.server(connections=65)
        self.assertEqual(caught.exception.outcome.exit_status, 2)
        with self.server() as server, server.client(SECONDS) as client:
            client.event("a")
        with self.assertRaises(StartFailed) as caught:
            self.server(process="Q")
        self.assertEqual(caught.exception.outcome.exit_status, 4)
        self.assertTrue(str(caught.exception).endswith("54 specification"))


@unittest.skipUnless(IS_SERVICE, "there is no program, or it is no service")
class Services(WithScript):
    def service(self):
        return Server(self.spec, "P", self.journal, connections=None, program=PROGRAM)

    def test_a_component_that_comes_back(self):
        with self.service() as server, server.client(SECONDS) as guard:
            with server.client(SECONDS, seat=3) as first:
                self.assertEqual(first.judged, 0)
                self.assertEqual(first.event("a"), Verdict(True, 1))
                with self.assertRaises(Fault) as caught:
                    server.client(SECONDS, seat=3)
                self.assertEqual(caught.exception.code, FaultCode.TAKEN)
            with ReconnectingClient(server.address, seat=3, timeout=SECONDS) as again:
                self.assertEqual(again.judged, 1)
                self.assertEqual(again.event("b"), Verdict(True, 2))
            self.assertEqual(guard.event("a"), Verdict(True, 3))
            self.assertEqual(guard.status(), Status(3, 3, 0, 0, closed=False))
        outcome = server.wait(SECONDS)
        self.assertEqual((outcome.exit_status, outcome.errors), (0, ""))

    def test_many_components_at_rest(self):
        spec = self.file("many.csp", "channel rest : {1..14}\nP = ||| i:{1..14} @ rest.i -> STOP\n")
        with Server(spec, "P", self.journal, connections=None, program=PROGRAM, large=True) as server:
            with ReconnectingClient(server.address, seat=1000, timeout=SECONDS) as client:
                self.assertEqual([client.event("rest.%d" % number) for number in range(1, 15)], [Verdict(True, place) for place in range(1, 15)])
        with open(self.journal, "rb") as journal:
            self.assertEqual(journal.readline(), b"cspwatch large journal 1\n")
        with Checker(spec, "P", PROGRAM, large=True) as client:
            self.assertEqual(client.event("rest.14"), Verdict(True, 1))

    def again(self, server):
        """The server killed, and started again at the same address."""
        server.stop()
        return Server(self.spec, "P", self.journal, connections=None, program=PROGRAM, listen=server.address)

    def test_a_server_that_is_started_again(self):
        for kind in (ReconnectingClient, Patient):
            self.journal = os.path.join(self.folder, kind.__name__)
            server = self.service()
            with kind(server.address, seat=3, timeout=SECONDS) as client:
                self.assertEqual(client.event("a"), Verdict(True, 1))
                server = self.again(server)
                self.assertEqual(client.event("a"), Verdict(False, 2))
                self.assertEqual(client.judged, 2)
            outcome = server.wait(SECONDS)
            self.assertEqual((outcome.exit_status, outcome.summary), (1, Status(2, 1, 0, 1, closed=False)))

    def test_reports_that_are_sent_ahead_of_a_server_that_is_killed(self):
        self.spec = self.file("c.csp", "channel c : {0..49}\nP = c?x -> P\n")
        names = ["c.%d" % (number % 50) for number in range(50 + 6 * 2000)]
        server, told = asyncio.run(self.reported(self.service(), names))
        self.assertEqual((server.wait(SECONDS).exit_status, {type(one) for one in told} - {VerdictLost}), (0, {Verdict}))
        shown = subprocess.run([PROGRAM, "show", self.journal], stdout=subprocess.PIPE, timeout=SECONDS, check=True).stdout.decode().splitlines()
        self.assertEqual(shown[:-1], ["%d 3 %d E %s OK" % (number, number, name) for number, name in enumerate(names, 1)])
        self.assertEqual([one.place for one in told if isinstance(one, Verdict)], [at for at, one in enumerate(told, 1) if isinstance(one, Verdict)])

    async def reported(self, server, names):
        """What became of these reports, while the server is killed amid each two thousand of them; and the last server."""
        rng, told = random.Random(1), []
        async with await AsyncClient.connect(server.address, SECONDS, seat=3, patience=SECONDS) as client:
            told += await asyncio.gather(*map(client.event, names[:50]))
            while len(told) < len(names):
                calls = asyncio.gather(*map(client.event, names[len(told) : len(told) + 2000]), return_exceptions=True)
                await asyncio.sleep(rng.uniform(0, 0.1))
                server = self.again(server)
                told += await calls
            # Where every reply came before the server was killed, the client comes back for this line.
            await client.status()
            self.assertEqual(client.judged, len(names))
        return server, told


@unittest.skipUnless(PROGRAM, "there is no program")
class Example(WithScript):
    """The tests of `examples`, with what its fixtures would give them."""

    def setUp(self):
        super().setUp()
        folder = os.path.join(os.path.dirname(HERE), "examples")
        self.turnstile = os.path.join(folder, "turnstile.csp")
        sys.path.insert(0, folder)
        self.addCleanup(sys.path.remove, folder)
        import test_turnstile

        self.tests = test_turnstile

    def test_one_client(self):
        for test in (self.tests.test_a_coin_lets_one_person_in, self.tests.test_a_locked_turnstile_refuses_a_push):
            with Checker(self.turnstile, "SYSTEM", program=PROGRAM) as client:
                test(client)

    def test_a_mistake_is_reported(self):
        with Checker(self.turnstile, "SYSTEM", program=PROGRAM) as client:
            turnstile = self.tests.Turnstile(self.tests.reporter(client))
            turnstile.unlocked = True
            with self.assertRaisesRegex(AssertionError, "push may not happen here; next: coin"):
                turnstile.push()

    @unittest.skipUnless(SERVES, "the program has no command `serve`")
    def test_two_clients(self):
        with Server(self.turnstile, "SYSTEM", self.journal, connections=2, program=PROGRAM) as server:
            self.tests.test_two_components(server)


if __name__ == "__main__":
    unittest.main()
