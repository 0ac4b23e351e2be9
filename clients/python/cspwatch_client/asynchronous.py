"""The client for asyncio: one connection, which is one seat of the session, or a seat by number whatever connection it has."""
from __future__ import annotations

import asyncio
import time
from collections import deque
from types import TracebackType
from typing import Any, Callable, Deque, Generic, Iterable, Optional, Set, Tuple, Type, TypeVar

from .client import REPLY_LIMIT, Address, check_seat, line_of_event, line_of_refusal, place_of
from .reconnecting import FIRST_PAUSE, LONGEST_PAUSE, PASSING
from .replies import (
    BadReply,
    Fault,
    NoReply,
    OtherReports,
    Status,
    Verdict,
    VerdictLost,
    explained,
    judged_of,
    next_of,
    raise_fault,
    status_of,
    verdict_of,
)

AHEAD = 1024
"""The most lines that are sent ahead of their replies: so many reports share a sync at most."""

Answer = TypeVar("Answer")
Streams = Tuple[asyncio.StreamReader, asyncio.StreamWriter, int]
"""A connection, and how many reports of its seat were judged."""


class AsyncClient:
    """A connection to a server of cspwatch, whose calls are those of `Client` as coroutines.

    Calls of several tasks are sent ahead, each without waiting for the reply to the one before, in the order in which they
    were made; the replies come in the same order. A call that is cancelled may have been sent: its reply is passed over, and
    the client goes on.

        async with await AsyncClient.connect("127.0.0.1:4050") as client:
            assert await client.event("approach")

    With a seat and patience the client comes back as `ReconnectingClient` does: where its connection is lost it opens
    another one, as the same seat, and each report is judged once. Of several reports that wait then, those that the server
    has judged are the first ones, and raise `VerdictLost`; the others are sent again. That would be wrong where one of these
    reports met a limit (`DEPTH`, `STATES`, `MEMORY`), and just that reply was lost; to rule it out, wait for each verdict. A
    report with a name that had no verdict yet, and so may be no event's, is answered before another line is sent.

    Each call raises what that of `Client` does, or that of `ReconnectingClient`. What ends the client is raised by the
    first call that waits; the others raise `NoReply`.
    """

    def __init__(self, reader: asyncio.StreamReader, writer: asyncio.StreamWriter, timeout: Optional[float] = None) -> None:
        """A client over two open streams. `connect` makes one for an address."""
        self._reader = reader
        self._writer: Optional[asyncio.StreamWriter] = writer
        self._timeout = timeout
        self._address: Address = ""
        self._seat = 0
        self._patience = 0.0
        self._reasons = False
        self._unsent: Deque[Call[Any]] = deque()
        self._sent: Deque[Call[Any]] = deque()
        self._known: Set[bytes] = set()
        self._running: Optional[asyncio.Task[None]] = None
        self._leaving = False
        self._closed = False
        self._judged = 0

    @classmethod
    async def connect(
        cls, address: Address, timeout: Optional[float] = None, seat: Optional[int] = None, patience: float = 0.0, reasons: bool = False
    ) -> AsyncClient:
        """A client that is connected to the server at this address.

        address -- `"HOST:PORT"`, or a pair of host and port; or `"unix:PATH"`, a socket in the file system.
        timeout -- how many seconds the connection, and then each call once its line is sent, may take; None for ever.
        seat -- the seat that the client is, from 1 to 1000, of a server that gives seats by number.
        patience -- for how many seconds a client with a seat tries to get it, and to come back; 0 for never.
        reasons -- whether the verdict on a rejected report has what was `expected`, as by `Client`.

        An `OSError` is raised where there is no connection. With a seat a `Fault` is raised where the server doesn't give
        it, as by `Client`.
        """
        if seat is not None:
            check_seat(seat)
        elif patience > 0:
            raise ValueError("a client comes back only where it has a seat by number")
        reader, writer, judged = await opened_patiently(address, timeout, seat, patience)
        client = cls(reader, writer, timeout)
        client._reasons = reasons
        client._address, client._seat, client._patience, client._judged = address, seat or 0, patience, judged
        return client

    async def event(self, name: str) -> Verdict:
        """Reports that the event happened. `_tick` is termination."""
        return await self._report(line_of_event(name))

    async def refusal(self, names: Iterable[str] = ()) -> Verdict:
        """Reports that the system refuses all of these events now. A repeated name counts once."""
        return await self._report(line_of_refusal(names))

    async def status(self) -> Status:
        """How many reports of all clients were judged so far, and how. See `Client.status`."""
        return await self._ask(b"S", status_of)

    async def next(self) -> Tuple[str, ...]:
        """The events that may come next, in the order of the script's channels, `_tick` last."""
        return await self._ask(b"N", next_of)

    async def close(self) -> None:
        """Sends `Q` after the calls before it, reads the reply and closes the connection. A second call does nothing."""
        if self._closed or self._leaving:
            return
        writer = self._writer
        try:
            leave = self._ask(b"Q", bytes)
            self._leaving = True
            await leave
        except (NoReply, Fault):
            pass
        finally:
            self._end(NoReply("the client is closed"))
        try:
            if writer is not None:
                await writer.wait_closed()
        except OSError:
            pass

    @property
    def closed(self) -> bool:
        """Whether the client is closed, by `close` or by a call that raised `NoReply` or `BadReply`."""
        return self._closed

    @property
    def judged(self) -> int:
        """How many reports of the client's seat were judged. See `Client.judged`."""
        return self._judged

    async def __aenter__(self) -> AsyncClient:
        return self

    async def __aexit__(
        self,
        kind: Optional[Type[BaseException]],
        error: Optional[BaseException],
        trace: Optional[TracebackType],
    ) -> None:
        await self.close()

    async def _report(self, line: bytes) -> Verdict:
        verdict = self._ask(line, verdict_of)
        if not self._reasons:
            return await verdict
        told = await asyncio.gather(verdict, self._ask(b"N", next_of), self._ask(b"S", status_of), return_exceptions=True)
        if isinstance(told[0], BaseException):
            raise told[0]
        if isinstance(told[1], BaseException) or isinstance(told[2], BaseException):
            return told[0]
        return explained(told[0], told[1], told[2])

    # The future of what the reply to the line says. Lines are sent once all tasks that are ready have had their turn, so
    # that those which are made together go together.
    def _ask(self, line: bytes, read: Callable[[bytes], Answer]) -> asyncio.Future[Answer]:
        if self._closed or self._leaving:
            raise NoReply("the client is closed")
        loop = asyncio.get_running_loop()
        call = Call(line, read, loop.create_future())
        self._unsent.append(call)
        loop.call_soon(self._send)
        if self._running is None:
            self._running = loop.create_task(self._run())
        return call.answer

    # Sends what may be sent now.
    def _send(self) -> None:
        lines = []
        while self._writer and self._unsent and len(self._sent) < AHEAD and not self._is_held():
            call = self._unsent.popleft()
            if not call.answer.done():
                lines.append(call.line + b"\n")
                call.sent = time.monotonic()
                self._sent.append(call)
        if self._writer and lines:
            self._writer.write(b"".join(lines))

    # Whether the next line has to wait for the last reply. Nothing is sent after a name that may be no event's: were its
    # reply lost, the number of reports that were judged wouldn't say which.
    def _is_held(self) -> bool:
        return self._patience > 0 and bool(self._sent) and not self._sent[-1].names() <= self._known

    # Reads replies as long as calls wait for them, over as many connections as it takes.
    async def _run(self) -> None:
        try:
            while self._sent or self._unsent:
                self._send()
                if self._sent:
                    await self._read()
        except asyncio.CancelledError:
            self._end(NoReply("the client is closed"))
            raise
        except Exception as error:
            self._end(error)
        finally:
            self._running = None

    async def _read(self) -> None:
        try:
            reply = await reply_of(self._reader, self._left())
        except NoReply as lost:
            await self._come_back(lost)
        else:
            self._take(reply)

    # How many seconds the call that has waited longest may still take.
    def _left(self) -> Optional[float]:
        if self._timeout is None:
            return None
        return max(0.0, self._sent[0].sent + self._timeout - time.monotonic())

    # Answers the call that has waited longest.
    def _take(self, reply: bytes) -> None:
        call = self._sent[0]
        try:
            raise_fault(reply)
        except Fault as fault:
            self._sent.popleft().fail(fault)
            return
        answer = call.read(reply)
        self._sent.popleft()
        if call.is_report:
            self._judged += 1
            self._known |= call.names()
        call.succeed(answer)

    # Opens a connection again after one was lost so. Who only takes leave doesn't come back for that.
    async def _come_back(self, lost: NoReply) -> None:
        self._hang_up()
        if self._patience <= 0 or self._leaving and len(self._sent) + len(self._unsent) == 1:
            raise lost
        try:
            self._reader, self._writer, found = await opened_patiently(self._address, self._timeout, self._seat, self._patience)
        except (OSError, NoReply) as error:
            raise lost from error
        self._settle(found)

    # After so many reports of the seat were judged: of the calls that were sent, these have lost their verdicts, and the
    # others are sent again.
    def _settle(self, found: int) -> None:
        known, self._judged = self._judged, found
        reports = [call for call in self._sent if call.is_report]
        if not known <= found <= known + len(reports):
            raise OtherReports(self._seat, known, found)
        judged = reports[: found - known]
        for number, call in enumerate(judged, known + 1):
            self._known |= call.names()
            call.fail(VerdictLost(self._seat, number))
        settled = set(judged)
        self._unsent.extendleft(call for call in reversed(self._sent) if call not in settled)
        self._sent.clear()

    # Closes the client. The first call that waits raises the error.
    def _end(self, error: Exception) -> None:
        self._closed = True
        self._hang_up()
        if self._running is not None and self._running is not asyncio.current_task():
            self._running.cancel()
        waiting = [call for call in [*self._sent, *self._unsent] if not call.answer.done()]
        self._sent.clear()
        self._unsent.clear()
        for call in waiting:
            call.fail(error)
            error = NoReply(str(error))

    def _hang_up(self) -> None:
        if self._writer is not None:
            self._writer.close()
        self._writer = None


class Call(Generic[Answer]):
    """A line whose reply hasn't come, how that is read, and the future of what it says."""

    def __init__(self, line: bytes, read: Callable[[bytes], Answer], answer: asyncio.Future[Answer]) -> None:
        self.line = line
        self.read = read
        self.answer = answer
        self.sent = 0.0

    @property
    def is_report(self) -> bool:
        return self.line[:1] in (b"E", b"R")

    def names(self) -> Set[bytes]:
        """The names that are reported."""
        kind, blank, names = self.line.partition(b" ")
        return set(names.split(b" ") if kind == b"R" else [names]) if blank else set()

    def succeed(self, answer: Answer) -> None:
        if not self.answer.done():
            self.answer.set_result(answer)

    def fail(self, error: Exception) -> None:
        if not self.answer.done():
            self.answer.set_exception(error)


async def opened(address: Address, timeout: Optional[float], seat: Optional[int]) -> Streams:
    """A connection to the server, as the seat where there is one."""
    place = place_of(address)
    if isinstance(place, str):
        opening = asyncio.open_unix_connection(place, limit=REPLY_LIMIT)
    else:
        opening = asyncio.open_connection(*place, limit=REPLY_LIMIT)
    try:
        reader, writer = await asyncio.wait_for(opening, timeout)
    except asyncio.TimeoutError:
        raise TimeoutError("timed out") from None
    try:
        return reader, writer, 0 if seat is None else await identified(reader, writer, timeout, seat)
    except BaseException:
        writer.close()
        raise


async def identified(reader: asyncio.StreamReader, writer: asyncio.StreamWriter, timeout: Optional[float], seat: int) -> int:
    """Says as the first line which seat the connection is; how many reports of it were judged."""
    writer.write(b"I %d\n" % seat)
    reply = await reply_of(reader, timeout)
    raise_fault(reply)
    return judged_of(reply, seat)


async def opened_patiently(address: Address, timeout: Optional[float], seat: Optional[int], patience: float) -> Streams:
    """The same, tried again for so many seconds where it may pass; what the last attempt raised."""
    latest = time.monotonic() + patience
    pause = FIRST_PAUSE
    while True:
        try:
            return await opened(address, timeout, seat)
        except (OSError, NoReply, Fault) as error:
            lasting = isinstance(error, Fault) and error.code not in PASSING
            if lasting or time.monotonic() + pause > latest:
                raise
        await asyncio.sleep(pause)
        pause = min(2 * pause, LONGEST_PAUSE)


async def reply_of(reader: asyncio.StreamReader, timeout: Optional[float]) -> bytes:
    """The next reply without its LF, or `NoReply`; `BadReply` where it has no end."""
    try:
        reply = await asyncio.wait_for(reader.readuntil(b"\n"), timeout)
    except asyncio.TimeoutError as error:
        raise NoReply("timed out") from error
    except asyncio.IncompleteReadError as error:
        raise NoReply("the connection has ended") from error
    except asyncio.LimitOverrunError as error:
        raise BadReply(await reader.read(REPLY_LIMIT)) from error
    except OSError as error:
        raise NoReply(str(error) or "the connection failed") from error
    return reply[:-1]
