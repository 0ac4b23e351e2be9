"""The command `cspwatch-web`: what it answers, through all that can become of a journal. CSPWATCH names the program."""
import contextlib
import json
import os
import signal
import socket
import subprocess
import sys
import tempfile
import time
import unittest

sys.path[:0] = [os.path.dirname(os.path.abspath(__file__))]

from watching_folder import BOTH, IS_SERVICE, PROGRAM, PYTHON, SCRIPT, SECONDS, Watching, children, cycles, fetched, journal, needs, soon  # noqa: E402

WEB = needs("aiohttp")
SERVICE = unittest.skipUnless(IS_SERVICE, "the program has no service")
MANY = 150_000
"""Entries of a journal that takes a while to read."""


class WithPage(Watching):
    command = "web"

    def state(self, port):
        """All that the page shows."""
        status, _, body = fetched(port, "/state")
        self.assertEqual(status, 200)
        return json.loads(body)

    def reaches(self, port, phase, entries=None):
        """Waits for this phase with so many entries, and answers what the page shows then."""

        def found():
            state = self.state(port)
            is_so = state["state"]["phase"] == phase and entries in (None, state["state"]["entries"])
            return state if is_so and (phase != "following" or state["next"]["known"] or state["next"]["reason"]) else None

        return soon(found, "%s %s" % (phase, entries))


@contextlib.contextmanager
def reader(port, size=None):
    """A connection on which the events come."""
    link = socket.socket()
    try:
        if size is not None:
            link.setsockopt(socket.SOL_SOCKET, socket.SO_RCVBUF, size)
        link.settimeout(SECONDS)
        link.connect(("127.0.0.1", port))
        link.sendall(b"GET /events HTTP/1.1\r\nHost: 127.0.0.1\r\n\r\n")
        yield link
    finally:
        link.close()


@WEB
class Journals(WithPage):
    def test_what_it_shows(self):
        self.write("j", journal(BOTH))
        _, port = self.start("j")
        found = self.reaches(port, "following", 4)
        state = found["state"]
        wanted = {"journal": "j", "process": "P", "open": False, "entries": 4, "in_files": 4, "events": 2, "refusals": 1, "rejected": 1, "parts": 1}
        self.assertEqual({name: state[name] for name in wanted}, wanted)
        self.assertEqual(found["next"], {"known": True, "may": ["a"], "must": {"sets": [{"names": ["a"], "more": 0}], "more": 0}})
        rejected = {"place": 2, "seat": 1, "refusal": False, "events": ["a"], "more": 0, "ok": False}
        self.assertEqual(found["rejections"], {"rows": [{**rejected, "expected": {"names": ["b"], "more": 0}}], "earlier": 0})
        self.assertEqual([row["place"] for row in found["newest"]["rows"]], [4, 3, 2, 1])
        self.assertEqual([(row["seat"], row["number"], row["events"], row["at"], row["rejected"]) for row in found["seats"]["rows"]], [(1, 3, ["b"], None, 1), (2, 1, ["a"], None, 0)])
        self.assertEqual(found["coverage"], {"known": True, "rows": [["a", 1, 1], ["b", 1, 0], ["c", 0, 0]], "never": ["c"]})

    def test_names_that_fit_in_no_line(self):
        # 20 names of 300 characters: a refusal of all of them is longer than a line.
        names = ["c%02d%s" % (number, "x" * 297) for number in range(20)]
        script = "channel %s\nP = %s\n" % (", ".join(names), " [] ".join("%s -> P" % name for name in names))
        self.write("j", journal(["1 1 E+ 20"], script))
        _, port = self.start("j")
        found = self.reaches(port, "following", 1)["next"]
        # The first 13 fit, and their refusal is rejected: so all is known.
        self.assertEqual((found["may"], [one["names"] for one in found["must"]["sets"]]), (names, [names]))

    def test_reasons_and_lists_are_bounded(self):
        names = ["e.%d" % number for number in range(200)]
        script = "channel e : {0..199}\nP = [] x : {0..199} @ e.x -> Q\nQ = STOP\n"
        self.write("j", journal(["1 %d R- %s" % (number, " ".join(map(str, range(1, 101)))) for number in range(1, 501)], script))
        _, port = self.start("j")
        found = self.reaches(port, "following", 500)
        self.assertEqual((len(found["rejections"]["rows"]), found["rejections"]["earlier"]), (200, 300))
        row = found["rejections"]["rows"][0]
        self.assertEqual((row["place"], row["events"], row["more"]), (500, names[:24], 76))
        self.assertEqual(row["acceptances"], {"sets": [{"names": names[:24], "more": 176}], "more": 0})
        self.assertLess(len(fetched(port, "/state")[2]), 500_000)

    def test_it_waits_and_goes_on(self):
        _, port = self.start("j")
        self.assertIn("waiting for it", self.reaches(port, "waiting")["state"]["reason"])
        self.write("j", journal(BOTH))
        self.reaches(port, "following", 4)
        self.write("j", journal(BOTH + ["1 9 E+ 1"]))
        found = self.reaches(port, "refused")
        self.assertEqual((found["state"]["reason"], found["state"]["entries"], found["next"]["known"]), ("j: 52 record 5", 4, False))
        self.write("j", journal(["5 1 E+ 1"]))
        found = self.reaches(port, "following", 1)
        self.assertEqual(([row["seat"] for row in found["seats"]["rows"]], found["next"]["may"]), ([5], ["b"]))

    def test_odd_names(self):
        name = "<script>alert(1)</script>\r\nSet-Cookie: a=b \"&amp;'"
        self.write(name.replace("/", "_"), journal(BOTH))
        _, port = self.start(name.replace("/", "_"))
        self.assertEqual(self.reaches(port, "following", 4)["state"]["journal"], name.replace("/", "_"))
        status, headers, body = fetched(port)
        self.assertEqual((status, headers["Set-Cookie"]), (200, None))
        self.assertNotIn(b"alert(1)", body)

    def test_a_large_journal_opens_at_once(self):
        self.write("j", journal(cycles(MANY, 16)))
        _, port = self.start("j")
        times = []
        found = {"state": {"phase": ""}}
        while found["state"]["phase"] != "following":
            begun = time.monotonic()
            fetched(port)
            found = self.state(port)
            times.append(time.monotonic() - begun)
            time.sleep(0.2)
            self.assertEqual(found["state"]["reason"], "")
        # On an idle machine each takes some hundredths of a second.
        self.assertLess(sorted(times)[len(times) // 2], 1)
        self.assertEqual((found["state"]["entries"], len(found["seats"]["rows"])), (MANY, 16))
        self.assertLess(len(json.dumps(found)), 60_000)


@needs()
class WhatComesNext(unittest.TestCase):
    def test_what_must_come(self):
        from cspwatch_client.watching.next_events import Asker

        # By the definition: the least acceptances of each process.
        for process, may, must in (
            ("a -> STOP |~| b -> STOP", ("a", "b"), (("a",), ("b",))),
            ("a -> STOP [] b -> STOP", ("a", "b"), (("a", "b"),)),
            ("a -> STOP |~| STOP", ("a",), ((),)),
            ("STOP", (), ((),)),
            ("SKIP", ("_tick",), (("_tick",),)),
            ("Q \\ {c}\nQ = c -> Q", (), ()),
            ("(a -> STOP [] b -> STOP) |~| c -> STOP", ("a", "b", "c"), (("a", "b"), ("c",))),
        ):
            with tempfile.NamedTemporaryFile("w", suffix=".csp") as file:
                file.write("channel a, b, c\nP = %s\n" % process)
                file.flush()
                asker = Asker(PROGRAM, file.name, "P")
                self.addCleanup(asker.close)
                self.assertEqual(asker.ask(), (may, must), process)

    def test_what_the_check_doesnt_accept(self):
        from cspwatch_client.watching.next_events import Asker, Unknown

        with tempfile.NamedTemporaryFile("w", suffix=".csp") as file:
            file.write(SCRIPT)
            file.flush()
            asker = Asker(PROGRAM, file.name, "P")
            self.addCleanup(asker.close)
            asker.tell([b"a"])
            self.assertEqual(asker.ask(), (("b",), (("b",),)))
            with self.assertRaises(Unknown):
                # More than the pipes hold: none of both waits for the other.
                asker.tell([b"a"] * 200_000)
                asker.ask()


@WEB
@SERVICE
class BesideAService(WithPage):
    def test_it_follows(self):
        from cspwatch_client import Client

        service, address = self.serve("--log", "log")
        run, port = self.start("j", "--log", "log")
        self.reaches(port, "following", 0)
        soon(lambda: self.state(port)["state"]["open"])
        with Client(address, SECONDS, seat=3) as client, reader(port) as events:
            lines = events.makefile("rb")
            before = time.time()
            client.event("a")
            client.event("c")
            found = self.reaches(port, "following", 2)
            seat = found["seats"]["rows"][0]
            self.assertTrue(before - 1 <= seat["at"] <= time.time() + 1, seat)
            self.assertEqual((found["state"]["rejected"], found["state"]["connections"]), (1, 1))
            soon(lambda: self.state(port)["next"].get("may") == ["b"])
            # The events have it too: the first one has all sections, the later ones those that changed.
            messages = []
            while not any(message.get("state", {}).get("entries") == 2 for message in messages):
                line = lines.readline()
                if line.startswith(b"data: "):
                    messages.append(json.loads(line[6:]))
            self.assertEqual(set(messages[0]), {"now", "state", "next", "rejections", "newest", "seats", "coverage"})
        found = children(run.pid)
        self.assertEqual(len(found), 2)
        self.end(service)
        soon(lambda: self.state(port)["state"]["open"] is False)
        self.assertEqual(self.end(run), -signal.SIGTERM)
        self.assertFalse([pid for pid in found if os.path.exists("/proc/" + pid)])


@WEB
class Requests(WithPage):
    def test_headers(self):
        _, port = self.start("j")
        for path, kind in (("/", "text/html"), ("/page.css", "text/css"), ("/page.js", "text/javascript"), ("/state", "application/json"), ("/none", "text/plain")):
            status, headers, body = fetched(port, path)
            self.assertEqual((status, headers.get_content_type()), (404 if path == "/none" else 200, kind))
            self.assertIn("default-src 'none'", headers["Content-Security-Policy"])
            self.assertEqual((headers["X-Content-Type-Options"], headers["Server"]), ("nosniff", "cspwatch-web"))
            if path != "/none":
                # Nothing from elsewhere.
                self.assertNotRegex(body.decode(), r"https?://(?!127)|@import|url\(")

    def test_other_hosts(self):
        _, port = self.start("j")
        for host, status in (("localhost:%d" % port, 200), ("127.0.0.1", 200), ("[::1]:80", 200), ("evil.example", 403), ("127.0.0.1.evil.example:80", 403), ("", 403)):
            self.assertEqual(fetched(port, "/state", {"Host": host})[0], status, host)

    def test_a_thousand_readers(self):
        run, port = self.start("j")
        with contextlib.ExitStack() as stack:
            links = [stack.enter_context(reader(port)) for _ in range(1000)]
            firsts = [link.recv(12) for link in links]
            self.assertEqual(firsts[:200], [b"HTTP/1.1 200"] * 200)
            self.assertEqual(set(firsts[200:]), {b"HTTP/1.1 503"})
        soon(lambda: fetched(port, "/state")[0] == 200)

        def is_served():
            with reader(port) as link:
                return link.recv(12) == b"HTTP/1.1 200"

        soon(is_served, "a place for a reader")
        self.assertNotIn("Traceback", self.said())

    def test_broken_requests(self):
        _, port = self.start("j")
        for sent in (b"\xff\xfe\x00\n\n", b"GET /state HTTP/9.9\r\n\r\n", b"GET /" + b"x" * 100000 + b" HTTP/1.1\r\n\r\n", b"POST / HTTP/1.1\r\nHost: 127.0.0.1\r\nContent-Length: 9\r\n\r\n", b"\n"):
            with socket.create_connection(("127.0.0.1", port), SECONDS) as link, contextlib.suppress(OSError):
                # It may end the connection before all is sent.
                link.sendall(sent)
                link.shutdown(socket.SHUT_WR)
                while link.recv(65536):
                    pass
        self.assertEqual(fetched(port, "/state")[0], 200)

    def test_a_port_in_use(self):
        with socket.create_server(("127.0.0.1", 0)) as taken:
            words = self.words("j")
            words[words.index("--listen") + 1] = address = "127.0.0.1:%d" % taken.getsockname()[1]
            done = subprocess.run(words, cwd=PYTHON, capture_output=True, timeout=SECONDS)
        self.assertEqual((done.returncode, done.stdout, done.stderr.decode()), (5, b"", address + ": cannot listen: Address already in use\n"))

    @SERVICE
    def test_behind_a_reader_who_is_away_nothing_piles_up(self):
        from cspwatch_client import Client

        _, address = self.serve()
        run, port = self.start("j")
        self.reaches(port, "following", 0)

        def memory():
            with open("/proc/%d/status" % run.pid, encoding="ascii") as file:
                return int([line for line in file if line.startswith("VmRSS")][0].split()[1])

        with contextlib.ExitStack() as stack:
            away = [stack.enter_context(reader(port, 4096)) for _ in range(100)]
            client = stack.enter_context(Client(address, SECONDS, seat=1))
            before = None
            for turn in range(12):
                for number in range(50):
                    client.event("ab"[number % 2])
                client.event("c")
                self.reaches(port, "following", (turn + 1) * 51)
                before = before or memory()
            # Each message has some kilobytes; what piled up would be 100 readers times 12 messages.
            self.assertLess(memory() - before, 20_000)
            # Who comes back gets what is so now.
            lines = away[0].makefile("rb")
            ending = time.monotonic() + SECONDS
            while time.monotonic() < ending:
                line = lines.readline()
                if line.startswith(b"data: ") and json.loads(line[6:]).get("state", {}).get("entries") == 12 * 51:
                    break
            else:
                self.fail("the newest state didn't come")


if __name__ == "__main__":
    unittest.main()
