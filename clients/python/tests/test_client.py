"""The client against conversations that are written down. Run by `python3 -m unittest discover -s clients/python/tests`."""
import io
import os
import sys
import threading
import time
import unittest
from typing import Any

HERE = os.path.dirname(os.path.abspath(__file__))
sys.path[:0] = [os.path.dirname(HERE), os.path.dirname(os.path.dirname(HERE))]

from cspwatch_client import BadReply, Client, Fault, FaultCode, NoReply, OtherReports, ReconnectingClient, Status, Verdict, VerdictLost  # noqa: E402
from stand_in import HOLD, RESET, SECONDS, SeatService, StandIn  # noqa: E402

BYE = (b"Q", b"BYE\n")


class Talk(unittest.TestCase):
    """A test whose client talks with a stand-in."""

    kind: Any = Client
    """What makes a client that is under test."""
    patient: Any = ReconnectingClient
    """The same of one that comes back."""

    def talk(self, *steps):
        """A client of a server that plays this conversation, of which all has to be played."""
        server = StandIn(list(steps))
        self.entered(server)
        self.addCleanup(lambda: self.assertEqual(server.troubles, []))
        client = self.kind(server.address, timeout=SECONDS)
        self.addCleanup(client.close)
        return client

    def started(self, *conversations):
        """A server that plays these conversations, of which all have to be played."""
        server = StandIn(*conversations)
        self.entered(server)
        self.addCleanup(lambda: self.assertEqual(server.troubles, []))
        return server

    def entered(self, manager):
        manager.__enter__()
        self.addCleanup(manager.__exit__, None, None, None)


class Answers(Talk):
    def test_event(self):
        client = self.talk((b"E a", b"OK 1\n"), (b"E c.0.left", b"NO 2\n"), (b"E _tick", b"OK 1000000\n"), BYE)
        self.assertEqual(client.event("a"), Verdict(accepted=True, place=1))
        self.assertEqual(client.event("c.0.left"), Verdict(accepted=False, place=2))
        self.assertEqual(client.event("_tick"), Verdict(accepted=True, place=1000000))

    def test_a_verdict_is_true_where_the_report_was_accepted(self):
        self.assertTrue(Verdict(True, 7))
        self.assertFalse(Verdict(False, 7))

    def test_refusal(self):
        client = self.talk((b"R", b"OK 1\n"), (b"R a", b"OK 2\n"), (b"R b a b", b"NO 3\n"), BYE)
        self.assertEqual(client.refusal(), Verdict(True, 1))
        self.assertEqual(client.refusal(["a"]), Verdict(True, 2))
        self.assertEqual(client.refusal(iter(["b", "a", "b"])), Verdict(False, 3))

    def test_status(self):
        client = self.talk((b"S", b"S 0 0 0 0 open\n"), (b"S", b"S 5 2 1 2 closed\n"), BYE)
        self.assertEqual(client.status(), Status(0, 0, 0, 0, closed=False))
        told = client.status()
        self.assertEqual((told.judged, told.events, told.refusals, told.rejected, told.closed), (5, 2, 1, 2, True))

    def test_next(self):
        client = self.talk((b"N", b"N\n"), (b"N", b"N a c.0 _tick\n"), BYE)
        self.assertEqual(client.next(), ())
        self.assertEqual(client.next(), ("a", "c.0", "_tick"))

    def test_a_long_reply(self):
        names = ["c.%d" % number for number in range(20000)]
        client = self.talk((b"N", b"N " + " ".join(names).encode() + b"\n"), BYE)
        self.assertEqual(client.next(), tuple(names))

    def test_a_reply_in_pieces(self):
        client = self.talk((b"E a", [b"O", b"K ", b"1", b"2\n"]), BYE)
        self.assertEqual(client.event("a"), Verdict(True, 12))


class Faults(Talk):
    def test_a_fault_leaves_the_connection(self):
        client = self.talk(
            (b"E d", b"ERR 11 event\n"), (b"N", b"ERR 40 memory\n"), (b"S", b"ERR 10 command\n"), (b"E a", b"OK 1\n"), BYE
        )
        for call, code in ((lambda: client.event("d"), 11), (client.next, 40), (client.status, 10)):
            with self.assertRaises(Fault) as caught:
                call()
            self.assertEqual(caught.exception.code, code)
        self.assertEqual(client.event("a"), Verdict(True, 1))

    def test_code_and_word(self):
        client = self.talk((b"R a", b"ERR 30 journal\n"), (b"R a", b"ERR 977 later_word\n"), BYE)
        with self.assertRaises(Fault) as caught:
            client.refusal(["a"])
        self.assertEqual((caught.exception.code, caught.exception.word), (FaultCode.JOURNAL, "journal"))
        self.assertEqual(str(caught.exception), "30 journal")
        with self.assertRaises(Fault) as caught:
            client.refusal(["a"])
        self.assertEqual((caught.exception.code, caught.exception.word), (977, "later_word"))

    def test_a_server_without_a_seat(self):
        for code in (22, 26, 31, 40):
            client = self.talk((None, b"ERR %d word\n" % code))
            with self.assertRaises(Fault) as caught:
                client.event("a")
            self.assertEqual(caught.exception.code, code)
            with self.assertRaises(NoReply):
                client.event("a")
            self.assertTrue(client.closed)

    def test_the_connection_ends(self):
        for steps in ([], [(b"E a", b"")], [(b"E a", b"OK 1")], [(b"E a", b""), RESET]):
            client = self.talk(*steps)
            with self.assertRaises(NoReply):
                client.event("a")
            self.assertTrue(client.closed)
            with self.assertRaises(NoReply):
                client.event("a")
            client.close()

    def test_no_reply_in_time(self):
        for begun in (b"", b"OK "):
            server = StandIn([(b"E a", begun), HOLD])
            self.entered(server)
            client = self.kind(server.address, timeout=0.1)
            with self.assertRaises(NoReply):
                client.event("a")
            self.assertTrue(client.closed)

    def test_a_reply_that_dribbles(self):
        server = StandIn([(b"E a", [b"O", b"K", b" "] + [b"1"] * 300)])
        self.entered(server)
        client = self.kind(server.address, timeout=0.3)
        begun = time.monotonic()
        with self.assertRaises(NoReply):
            client.event("a")
        self.assertLess(time.monotonic() - begun, SECONDS / 2)
        self.assertTrue(client.closed)

    def test_a_reply_without_an_end(self):
        server = StandIn([(b"E a", [b"O" * 65536] * 20)])
        self.entered(server)
        client = self.kind(server.address, timeout=SECONDS)
        with self.assertRaises(BadReply):
            client.event("a")
        self.assertTrue(client.closed)

    def test_replies_of_no_protocol(self):
        rows = [
            ("event", [b"", b"OK", b"OK ", b"OK 0", b"OK 01", b"OK +1", b"OK -1", b"ok 1", b"OK 1 ", b"OK  1", b"NO a", b" OK 1", b"OK 1\r"]),
            ("event", [b"BYE", b"N a", b"S 1 1 0 0 open", b"ERR", b"ERR 10", b"ERR command", b"ERR 10 a b", b"\xff"]),
            ("status", [b"S", b"S 1 1 0 open", b"S 1 1 0 0", b"S 1 1 0 0 shut", b"S 1 1 0 00 open", b"OK 1", b"S 1 1 0 0 open "]),
            ("next", [b"N ", b"N  a", b"N a  b", b"N a ", b"Na", b"", b"N a\tb", b"OK 1", b"n a"]),
        ]
        for call, replies in rows:
            for reply in replies:
                with self.subTest(call=call, reply=reply):
                    client = self.talk((None, reply + b"\n"), HOLD)
                    with self.assertRaises(BadReply) as caught:
                        getattr(client, call)(*(["a"] if call == "event" else []))
                    self.assertEqual(caught.exception.reply, reply)
                    self.assertTrue(client.closed)


class Names(Talk):
    def test_names_that_cannot_be_sent(self):
        client = self.talk((b"S", b"S 0 0 0 0 open\n"), BYE)
        calls = [
            lambda: client.event("a\nE b"),
            lambda: client.event("x" * 4095),
            lambda: client.refusal(["a b"]),
            lambda: client.refusal(["a", "b\n"]),
            lambda: client.refusal("ab"),
            lambda: client.refusal(["x" * 2047, "x" * 2047]),
            lambda: client.event("\udcff"),
        ]
        for call in calls:
            with self.assertRaises(ValueError):
                call()
        self.assertFalse(client.status().judged)

    def test_the_longest_line(self):
        name = "x" * 4094
        client = self.talk((b"E " + name.encode(), b"ERR 11 event\n"), BYE)
        with self.assertRaises(Fault):
            client.event(name)

    def test_names_are_sent_as_they_stand(self):
        steps = [(line, b"ERR 11 event\n") for line in (b"E a b", b"E ", b"E \xc3\xa4", b"R ", b"R  a", b"R a\r")]
        client = self.talk(*steps, BYE)
        for call in (
            lambda: client.event("a b"),
            lambda: client.event(""),
            lambda: client.event("\u00e4"),
            lambda: client.refusal([""]),
            lambda: client.refusal(["", "a"]),
            lambda: client.refusal(["a\r"]),
        ):
            with self.assertRaises(Fault):
                call()


class Ends(Talk):
    def test_the_block_ends_the_connection(self):
        server = StandIn([(b"E a", b"OK 1\n"), BYE])
        with server:
            with self.kind(server.address) as client:
                self.assertFalse(client.closed)
                self.assertTrue(client.event("a"))
            self.assertTrue(client.closed)
            client.close()
        self.assertEqual((server.lines, server.troubles), ([b"E a", b"Q"], []))

    def test_the_block_ends_by_an_error(self):
        server = StandIn([BYE])
        with server:
            with self.assertRaises(KeyError):
                with self.kind(server.address):
                    raise KeyError
        self.assertEqual(server.troubles, [])

    def test_the_server_is_gone_at_the_close(self):
        for steps in ([], [(b"Q", b"")], [(b"Q", b"what\n")]):
            client = self.talk(*steps)
            client.close()
            self.assertTrue(client.closed)

    def test_addresses(self):
        server = StandIn([BYE], [BYE])
        host, port = server.address.split(":")
        with server:
            self.kind((host, int(port))).close()
            self.kind("localhost:" + port, timeout=SECONDS).close()
        self.assertEqual(server.troubles, [])
        for text in ("127.0.0.1", "127.0.0.1:", ":80", "127.0.0.1:x", "", "4050"):
            with self.assertRaises(ValueError):
                self.kind(text)
        with self.assertRaises(OSError):
            self.kind(server.address, timeout=SECONDS)

    def test_over_files(self):
        written = io.BytesIO()
        written.close = lambda: None
        client = Client.over(io.BytesIO(b"OK 1\nN b\nBYE\n"), written)
        self.assertEqual(client.event("a"), Verdict(True, 1))
        self.assertEqual(client.next(), ("b",))
        client.close()
        self.assertEqual(written.getvalue(), b"E a\nN\nQ\n")


class Seats(Talk):
    def test_a_seat_by_number(self):
        server = self.started([(b"I 3", b"I 3 7\n"), (b"E a", b"OK 12\n"), (b"E d", b"ERR 11 event\n"), (b"S", b"S 12 12 0 0 open\n"), (b"R", b"NO 13\n"), BYE])
        with self.kind(server.address, timeout=SECONDS, seat=3) as client:
            self.assertEqual(client.judged, 7)
            self.assertTrue(client.event("a"))
            self.assertEqual(client.judged, 8)
            with self.assertRaises(Fault):
                client.event("d")
            client.status()
            self.assertEqual(client.judged, 8)
            self.assertFalse(client.refusal())
            self.assertEqual(client.judged, 9)

    def test_a_client_without_one_counts_its_reports(self):
        client = self.talk((b"E a", b"OK 5\n"), (b"E a", b"NO 6\n"), BYE)
        self.assertEqual(client.judged, 0)
        client.event("a")
        client.event("a")
        self.assertEqual(client.judged, 2)

    def test_a_seat_that_is_not_given(self):
        for code in (10, 22, 27, 31, 40):
            server = self.started([(b"I 1000", b"ERR %d word\n" % code), HOLD])
            with self.assertRaises(Fault) as caught:
                self.kind(server.address, timeout=SECONDS, seat=1000)
            self.assertEqual(caught.exception.code, code)
        self.assertEqual(FaultCode.TAKEN, 27)

    def test_other_replies(self):
        for reply in (b"I 3", b"I 3 ", b"I 4 0", b"I 3 01", b"I 03 1", b"I 3 -1", b"I 3 1 ", b"i 3 1", b"OK 1", b"I 3 1\r"):
            with self.subTest(reply=reply):
                server = self.started([(b"I 3", reply + b"\n"), HOLD])
                with self.assertRaises(BadReply):
                    self.kind(server.address, timeout=SECONDS, seat=3)

    def test_numbers_that_are_no_seat(self):
        for seat in (0, 1001, -1):
            for kind in (self.kind, self.patient):
                with self.assertRaises(ValueError):
                    kind("127.0.0.1:1", seat=seat)


class ComingBack(Talk):
    def client(self, server, **more):
        client = self.patient(server.address, 3, timeout=SECONDS, **more)
        self.addCleanup(client.close)
        return client

    def test_a_report_that_was_lost_on_its_way_is_sent_again(self):
        for end in ([], [RESET]):
            lost = [(b"I 3", b"I 3 0\n"), (b"E a", b"OK 1\n"), (b"E b", b"")] + end
            server = self.started(lost, [(b"I 3", b"I 3 1\n"), (b"E b", b"NO 2\n"), (b"E a", b"NO 3\n"), BYE])
            client = self.client(server)
            self.assertEqual([client.event("a"), client.event("b"), client.event("a")], [Verdict(True, 1), Verdict(False, 2), Verdict(False, 3)])
            self.assertEqual(client.judged, 3)
            client.close()

    def test_a_report_that_was_judged_is_not_sent_again(self):
        for lost in (b"", b"OK", b"OK 5"):
            server = self.started([(b"I 3", b"I 3 4\n"), (b"R a", lost)], [(b"I 3", b"I 3 5\n"), (b"E a", b"OK 6\n"), BYE])
            client = self.client(server)
            with self.assertRaises(VerdictLost) as caught:
                client.refusal(["a"])
            self.assertEqual((caught.exception.seat, caught.exception.number, client.closed), (3, 5, False))
            self.assertEqual((client.event("a"), client.judged), (Verdict(True, 6), 6))
            client.close()

    def test_a_connection_that_is_lost_again(self):
        server = self.started([(b"I 3", b"I 3 0\n")], [], [(b"I 3", b"I 3 0\n")], [(b"I 3", b"")], [(b"I 3", b"I 3 0\n"), (b"E a", b"OK 1\n"), BYE])
        self.assertEqual(self.client(server).event("a"), Verdict(True, 1))

    def test_a_question_is_asked_again(self):
        server = self.started([(b"I 3", b"I 3 2\n"), (b"N", b"N a")], [(b"I 3", b"I 3 2\n"), (b"N", b"N\n"), (b"S", b"")], [(b"I 3", b"I 3 2\n"), (b"S", b"S 2 2 0 0 open\n"), BYE])
        client = self.client(server)
        self.assertEqual((client.next(), client.status()), ((), Status(2, 2, 0, 0, False)))

    def test_reports_of_someone_else(self):
        for found in (2, 6, 0):
            server = self.started([(b"I 3", b"I 3 4\n")], [(b"I 3", b"I 3 %d\n" % found), HOLD])
            client = self.client(server)
            with self.assertRaises(OtherReports) as caught:
                client.event("a")
            self.assertEqual((caught.exception.known, caught.exception.found), (4, found))
            with self.assertRaises(NoReply):
                client.event("a")
        server = self.started([(b"I 3", b"I 3 4\n")], [(b"I 3", b"I 3 5\n"), HOLD])
        with self.assertRaises(OtherReports):
            self.client(server).next()

    def test_a_seat_that_is_taken_for_a_while(self):
        with SeatService(taken=[3]) as server:
            threading.Timer(0.1, server.taken.clear).start()
            client = self.client(server)
            self.assertTrue(client.event("a"))
            client.close()
            self.assertEqual(server.reports, {3: ["E a"]})

    def test_each_report_is_judged_once(self):
        for cut, lose in ((2, None), (None, 2), (0, None), (None, 0)):
            with SeatService(cut=cut, lose=lose) as server:
                client, lost = self.client(server), 0
                for number in range(4):
                    try:
                        client.event("a.%d" % number)
                    except VerdictLost:
                        lost += 1
                client.close()
                self.assertEqual((server.reports, lost), ({3: ["E a.%d" % number for number in range(4)]}, int(cut is not None)))

    def test_no_more_patience(self):
        server = self.started([(b"I 3", b"I 3 4\n"), (b"E a", b"")])
        client = self.client(server, patience=0)
        server.socket.close()
        for _ in range(2):
            with self.assertRaises(NoReply):
                client.event("a")
        self.assertEqual((client.judged, client.closed), (4, True))
        with self.assertRaises(OSError):
            self.patient(server.address, 3, patience=0.05)

    def test_what_does_not_pass(self):
        for code in (10, 31):
            server = self.started([(b"I 3", b"I 3 4\n")], [(None, b"ERR %d word\n" % code)])
            client = self.client(server)
            with self.assertRaises(Fault) as caught:
                client.event("a")
            self.assertEqual(caught.exception.code, code)
            with self.assertRaises(NoReply):
                client.event("a")

    def test_faults_and_other_replies(self):
        server = self.started([(b"I 3", b"I 3 4\n"), (b"E d", b"ERR 11 event\n"), (b"E a", b"OK 5\n"), (b"E a", b"what\n"), HOLD])
        client = self.client(server)
        with self.assertRaises(Fault):
            client.event("d")
        self.assertEqual((client.event("a"), client.judged), (Verdict(True, 5), 5))
        with self.assertRaises(BadReply):
            client.event("a")
        with self.assertRaises(NoReply):
            client.event("a")

    def test_a_client_that_was_closed(self):
        client = self.client(self.started([(b"I 3", b"I 3 0\n"), BYE]))
        client.close()
        with self.assertRaises(NoReply):
            client.event("a")


if __name__ == "__main__":
    unittest.main()
