"""The client for asyncio against conversations that are written down: those of `Client`, and lines that are sent ahead.

Run by `python3 -m unittest discover -s clients/python/tests`.
"""
import asyncio
import os
import random
import sys
import unittest

HERE = os.path.dirname(os.path.abspath(__file__))
sys.path[:0] = [HERE, os.path.dirname(HERE), os.path.dirname(os.path.dirname(HERE))]

import test_client  # noqa: E402
from blocking import Blocking, Patient  # noqa: E402
from cspwatch_client import AsyncClient, BadReply, Fault, NoReply, OtherReports, Status, Verdict, VerdictLost  # noqa: E402
from stand_in import HOLD, RESET, SECONDS, SeatService, StandIn  # noqa: E402

BYE = (b"Q", b"BYE\n")


class Answers(test_client.Answers):
    kind, patient = Blocking, Patient


class Faults(test_client.Faults):
    kind, patient = Blocking, Patient


class Names(test_client.Names):
    kind, patient = Blocking, Patient


class Ends(test_client.Ends):
    kind, patient = Blocking, Patient
    test_over_files = None


class Seats(test_client.Seats):
    kind, patient = Blocking, Patient


class ComingBack(test_client.ComingBack):
    kind, patient = Blocking, Patient


class Talk(unittest.IsolatedAsyncioTestCase):
    """A test whose client talks with a stand-in."""

    async def asyncSetUp(self):
        # A loop that is watched takes ten times as long.
        asyncio.get_running_loop().set_debug(False)

    async def talk(self, *conversations, timeout=SECONDS, **more):
        """A client of a server that plays these conversations, of which all have to be played."""
        server = StandIn(*conversations)
        server.__enter__()
        self.addCleanup(lambda: self.assertEqual(server.troubles, []))
        self.addCleanup(server.__exit__, None, None, None)
        client = await AsyncClient.connect(server.address, timeout, **more)
        self.addAsyncCleanup(client.close)
        return client

    async def told(self, *calls):
        """What came of each of these calls, which are made together: an answer, or what was raised."""
        return await asyncio.gather(*calls, return_exceptions=True)


class Ahead(Talk):
    async def test_lines_are_sent_ahead(self):
        client = await self.talk([(b"E a", b""), (b"R a b", b""), (b"N", b""), (b"S", b"OK 1\nNO 2\nN b\nS 2 1 0 1 open\n"), BYE])
        told = await self.told(client.event("a"), client.refusal(["a", "b"]), client.next(), client.status())
        self.assertEqual(told, [Verdict(True, 1), Verdict(False, 2), ("b",), Status(2, 1, 0, 1, closed=False)])
        self.assertEqual(client.judged, 2)

    async def test_a_line_while_another_waits(self):
        client = await self.talk([(b"E a", b""), (b"E b", b"OK 1\nOK 2\n"), BYE])
        first = asyncio.ensure_future(client.event("a"))
        await asyncio.sleep(0.05)
        self.assertEqual((await client.event("b"), await first), (Verdict(True, 2), Verdict(True, 1)))

    async def test_more_lines_than_are_sent_ahead(self):
        came = []

        async def serve(reader, writer):
            while (line := await reader.readline()) != b"Q\n":
                came.append(line)
                writer.write(b"OK %d\n" % len(came))
            writer.write(b"BYE\n")
            writer.close()

        async with await asyncio.start_server(serve, "127.0.0.1", 0) as server:
            async with await AsyncClient.connect(server.sockets[0].getsockname(), SECONDS) as client:
                told = await self.told(*(client.event("c.%d" % number) for number in range(3000)))
        self.assertEqual([verdict.place for verdict in told], list(range(1, 3001)))
        self.assertEqual(came, [b"E c.%d\n" % number for number in range(3000)])

    async def test_a_fault_among_others(self):
        client = await self.talk([(b"E a", b""), (b"E q", b""), (b"E b", b"OK 1\nERR 11 event\nOK 2\n"), BYE])
        first, fault, last = await self.told(client.event("a"), client.event("q"), client.event("b"))
        self.assertEqual((first, fault.code, last, client.judged), (Verdict(True, 1), 11, Verdict(True, 2), 2))

    async def test_what_ends_the_client_is_raised_once(self):
        client = await self.talk([(b"E a", b""), (b"E b", b""), (b"E c", b"OK 1\nwhat\n"), HOLD])
        first, bad, last = await self.told(client.event("a"), client.event("b"), client.event("c"))
        self.assertEqual((first, type(bad), type(last), client.closed), (Verdict(True, 1), BadReply, NoReply, True))

    async def test_what_ends_the_client_is_raised_by_a_call_that_waits(self):
        client = await self.talk([(b"E a", b""), (b"E b", b"")])
        calls = [asyncio.ensure_future(client.event(name)) for name in "ab"]
        asyncio.get_running_loop().call_later(0.005, calls[0].cancel)
        told = await self.told(*calls)
        self.assertEqual(([type(one) for one in told], str(told[1])), ([asyncio.CancelledError, NoReply], "the connection has ended"))

    async def test_the_connection_ends_amid_replies(self):
        for end in ([], [RESET]):
            client = await self.talk([(b"E a", b""), (b"E b", b""), (b"E c", b"OK 1\nOK")] + end)
            first, *others = await self.told(client.event("a"), client.event("b"), client.event("c"))
            self.assertEqual((first, [type(other) for other in others], client.closed), (Verdict(True, 1), [NoReply, NoReply], True))

    async def test_names_that_cannot_be_sent(self):
        client = await self.talk([(b"E a", b"OK 1\n"), BYE])
        bad, good = await self.told(client.event("a\nb"), client.event("a"))
        self.assertEqual((type(bad), good), (ValueError, Verdict(True, 1)))

    async def test_a_call_that_is_cancelled_is_passed_over(self):
        client = await self.talk([(b"E a", b""), (b"E b", b"OK 1\nOK 2\n"), (b"E c", b"OK 3\n"), BYE])
        call = asyncio.ensure_future(client.event("a"))
        await asyncio.sleep(0.05)
        call.cancel()
        self.assertEqual((await client.event("b"), await client.event("c")), (Verdict(True, 2), Verdict(True, 3)))
        self.assertEqual((client.judged, call.cancelled()), (3, True))

    async def test_a_call_that_is_cancelled_before_it_was_sent(self):
        client = await self.talk([(b"E b", b"OK 1\n"), BYE])
        call = asyncio.ensure_future(client.event("a"))
        asyncio.get_running_loop().call_soon(call.cancel)
        self.assertEqual(await client.event("b"), Verdict(True, 1))

    async def test_the_end_waits_for_the_calls_before_it(self):
        client = await self.talk([(b"E a", b""), (b"Q", b"OK 1\nBYE\n")])
        call = asyncio.ensure_future(client.event("a"))
        await asyncio.sleep(0)
        await client.close()
        self.assertEqual((await call, client.closed), (Verdict(True, 1), True))
        with self.assertRaises(NoReply):
            await client.event("a")

    async def test_an_end_that_is_cancelled(self):
        client = await self.talk([(b"E a", b""), HOLD])
        call, end = asyncio.ensure_future(client.event("a")), asyncio.ensure_future(client.close())
        await asyncio.sleep(0.05)
        end.cancel()
        (told,) = await self.told(call)
        self.assertEqual((type(told), client.closed), (NoReply, True))

    async def test_the_time_is_over(self):
        client = await self.talk([(b"E a", b""), (b"E b", b"OK 1\n"), HOLD], timeout=0.2)
        told = await self.told(client.event("a"), client.event("b"))
        self.assertEqual((told[0], str(told[1]), client.closed), (Verdict(True, 1), "timed out", True))

    async def test_the_end_of_the_loop(self):
        client = await self.talk([(b"E a", b""), HOLD])
        call = asyncio.ensure_future(client.event("a"))
        await asyncio.sleep(0.05)
        client._running.cancel()
        (told,) = await self.told(call)
        self.assertEqual((str(told), client.closed), ("the client is closed", True))


class Losing:
    """A service for one seat, which has no event `q`, and whose connections are lost at random: amid the lines, or amid the replies."""

    def __init__(self, seed):
        self.rng = random.Random(seed)
        self.history = []
        self.losses = 0

    async def serve(self, reader, writer):
        if self.rng.random() < 0.2:
            writer.write(b"ERR 27 taken\n")
        elif await reader.readline():
            writer.write(b"I 3 %d\n" % len(self.history))
            await self.judge(reader, writer, self.rng.randrange(60), self.rng.randrange(10))
        writer.close()

    async def judge(self, reader, writer, answered, unanswered):
        """Judges so many lines that it answers, and of those that are there so many more."""
        for number in range(answered + unanswered):
            try:
                line = await asyncio.wait_for(reader.readline(), SECONDS if number < answered else 0.02)
            except asyncio.TimeoutError:
                break
            if line in (b"", b"Q\n"):
                writer.write(b"BYE\n")
                return
            if line != b"E q\n":
                self.history.append(line.decode()[2:-1])
            if number < answered:
                writer.write(b"ERR 11 event\n" if line == b"E q\n" else b"OK %d\n" % len(self.history))
        self.losses += 1


class ComingBackAhead(Talk):
    """Several reports wait when the connection is lost."""

    FIRST = [(b"I 3", b"I 3 4\n"), (b"E a", b"OK 5\n"), (b"E b", b"OK 6\n"), (b"E a", b""), (b"E b", b""), (b"N", b""), (b"E a", b"")]
    """Two verdicts, after which four lines wait, of which the connection takes the replies with it."""

    async def after(self, *conversations):
        """What came of the four calls, where the connection is lost and these conversations follow."""
        client = await self.talk(self.FIRST, *conversations, seat=3, patience=20)
        await client.event("a")
        await client.event("b")
        return client, await self.told(client.event("a"), client.event("b"), client.next(), client.event("a"))

    async def test_none_was_judged(self):
        again = [(b"I 3", b"I 3 6\n"), (b"E a", b""), (b"E b", b"OK 7\nOK 8\n"), (b"N", b"N a\n"), (b"E a", b"OK 9\n"), BYE]
        client, told = await self.after(again)
        self.assertEqual(told, [Verdict(True, 7), Verdict(True, 8), ("a",), Verdict(True, 9)])
        self.assertEqual(client.judged, 9)

    async def test_some_were_judged(self):
        client, told = await self.after([(b"I 3", b"I 3 8\n"), (b"N", b"N a\n"), (b"E a", b"NO 9\n"), BYE])
        self.assertEqual([told[0].number, told[1].number, told[2:]], [7, 8, [("a",), Verdict(False, 9)]])
        self.assertEqual(([type(told[0]), type(told[1])], client.judged), ([VerdictLost, VerdictLost], 9))

    async def test_all_were_judged(self):
        client, told = await self.after([(b"I 3", b"I 3 9\n"), (b"N", b"N b\n"), (b"E b", b"OK 10\n"), BYE])
        self.assertEqual([told[0].number, told[1].number, told[2], told[3].number], [7, 8, ("b",), 9])
        self.assertEqual((await client.event("b"), client.judged), (Verdict(True, 10), 10))

    async def test_it_is_lost_again(self):
        client, told = await self.after([], [(b"I 3", b"ERR 27 taken\n")], [(b"I 3", b"I 3 7\n"), (b"E b", b"")],
                                        [(b"I 3", b"I 3 8\n"), (b"N", b"N a\n"), (b"E a", b"OK 9\n"), BYE])
        self.assertEqual([told[0].number, told[1].number, told[2:]], [7, 8, [("a",), Verdict(True, 9)]])
        self.assertEqual(client.judged, 9)

    async def test_reports_of_someone_else(self):
        for found in (5, 10):
            client, told = await self.after([(b"I 3", b"I 3 %d\n" % found), HOLD])
            self.assertEqual([type(one) for one in told], [OtherReports, NoReply, NoReply, NoReply])
            self.assertEqual((told[0].known, told[0].found, client.closed), (6, found, True))

    async def test_what_does_not_pass(self):
        client, told = await self.after([(b"I 3", b"ERR 31 closed\n")])
        self.assertEqual(([type(one) for one in told], told[0].code, client.closed), ([Fault, NoReply, NoReply, NoReply], 31, True))

    async def test_a_name_that_may_be_no_event_holds_up_what_follows(self):
        # Were both sent, and one of them judged, it wouldn't be known which.
        first = [(b"I 3", b"I 3 0\n"), (b"E q", b"")]
        again = [(b"I 3", b"I 3 0\n"), (b"E q", b"ERR 11 event\n"), (b"E a", b"OK 1\n"), BYE]
        client = await self.talk(first, again, seat=3, patience=20)
        fault, verdict = await self.told(client.event("q"), client.event("a"))
        self.assertEqual((fault.code, verdict, client.judged), (11, Verdict(True, 1), 1))

    async def test_names_of_refusals(self):
        first = [(b"I 3", b"I 3 0\n"), (b"R a b", b"OK 1\n"), (b"R", b""), (b"E b", b""), (b"R a", b""), (b"R c a", b"")]
        client = await self.talk(first, [(b"I 3", b"I 3 4\n"), (b"R c a", b"OK 5\n"), (b"E a", b"NO 6\n"), BYE], seat=3, patience=20)
        told = await self.told(client.refusal("ab"), client.refusal(["a", "b"]), client.refusal(), client.event("b"), client.refusal(["a"]),
                               client.refusal(["c", "a"]), client.event("a"))
        self.assertEqual([type(told[0]), told[1]], [ValueError, Verdict(True, 1)])
        self.assertEqual([[one.number for one in told[2:5]], told[5:]], [[2, 3, 4], [Verdict(True, 5), Verdict(False, 6)]])

    async def test_a_call_that_was_cancelled_is_not_sent_again(self):
        first = [(b"I 3", b"I 3 0\n"), (b"E a", b"OK 1\n"), (b"E a", b""), (b"E a", b""), HOLD]
        client = await self.talk(first, [(b"I 3", b"I 3 1\n"), (b"E a", b"OK 2\n"), BYE], timeout=0.3, seat=3, patience=20)
        await client.event("a")
        calls = [asyncio.ensure_future(client.event("a")), asyncio.ensure_future(client.event("a"))]
        await asyncio.sleep(0.05)
        calls[0].cancel()
        self.assertEqual((await calls[1], client.judged), (Verdict(True, 2), 2))

    async def test_each_report_is_judged_once(self):
        for cut, lose in ((2, None), (None, 2), (0, None), (None, 0), (30, None), (None, 30), (3, 40)):
            with SeatService(cut=cut, lose=lose) as server:
                async with await AsyncClient.connect(server.address, SECONDS, seat=3, patience=20) as client:
                    first = await self.told(*(client.event("a.%d" % number) for number in range(4)))
                    second = await self.told(*(client.event("a.%d" % (number % 4)) for number in range(100)))
            self.assertEqual(server.reports, {3: ["E a.%d" % (number % 4) for number in range(104)]})
            self.assertEqual({type(told) for told in first + second} - {VerdictLost}, {Verdict})

    async def test_each_report_is_judged_once_at_random(self):
        for seed in range(20):
            service = Losing(seed)
            names = ["q" if service.rng.random() < 0.05 else "a.%d" % service.rng.randrange(5) for _ in range(150)]
            async with await asyncio.start_server(service.serve, "127.0.0.1", 0) as server:
                async with await AsyncClient.connect(server.sockets[0].getsockname(), SECONDS, seat=3, patience=20) as client:
                    told = await self.told(*map(client.event, names[:100]))
                    told += await self.told(*map(client.event, names[100:]))
            with self.subTest(seed=seed, losses=service.losses):
                self.assertEqual(service.history, [name for name in names if name != "q"])
                self.assertEqual([name == "q" for name in names], [isinstance(one, Fault) for one in told])
                lost = [one.number for one in told if isinstance(one, VerdictLost)]
                seen = [one.place for one in told if isinstance(one, Verdict)]
                self.assertEqual(sorted(lost + seen), list(range(1, len(service.history) + 1)))
                self.assertEqual(client.judged, len(service.history))

    async def test_who_takes_leave_does_not_come_back(self):
        client = await self.talk([(b"I 3", b"I 3 0\n"), (b"Q", b"")], seat=3, patience=20)
        await client.close()
        self.assertTrue(client.closed)

    async def test_patience_without_a_seat(self):
        with self.assertRaises(ValueError):
            await AsyncClient.connect("127.0.0.1:1", patience=1)


if __name__ == "__main__":
    unittest.main()
