"""The client: one connection, which is one seat of the session."""
from __future__ import annotations

import io
import socket
from types import TracebackType
from typing import BinaryIO, Callable, Iterable, List, Optional, Tuple, Type, TypeVar, Union, cast

from .replies import BadReply, Fault, NoReply, Status, Verdict, explained, judged_of, next_of, raise_fault, status_of, verdict_of
from .timed import Timed

LINE_LIMIT = 4096
"""The most bytes that a line may have before its LF."""

REPLY_LIMIT = 257 * 4096
"""The most bytes that a reply may have: a server's longest has the names of 256 events, of at most 4,096 bytes each."""

SEATS = 1000
"""The greatest number of a seat that a client may be."""

UNIX = "unix:"
"""What the address of a socket in the file system begins with; its path comes after it."""

Address = Union[str, Tuple[str, int]]
Answer = TypeVar("Answer")


class Client:
    """A connection to a server of cspwatch.

    A client is for one thread at a time. Components that run side by side each take a client of their own: the
    server judges the reports of one client in their order, after what all clients have reported before.

    Each call sends one line and waits for its reply. It raises `Fault` where the server answers that it can't judge
    or answer, `NoReply` where no whole reply comes, `BadReply` where the reply isn't one of the protocol's, and
    `ValueError` where a name can't be sent; nothing is sent then.

    As a context manager the client closes itself at the end of the block.
    """

    def __init__(self, address: Address, timeout: Optional[float] = None, seat: Optional[int] = None, reasons: bool = False) -> None:
        """Connects to the server.

        address -- `"HOST:PORT"`, or a pair of host and port; or `"unix:PATH"`, a socket in the file system.
        timeout -- how many seconds the connection, and then each call, may take; None for ever.
        seat -- the seat that the client is, from 1 to 1000, of a server that gives seats by number. `judged` then
            counts the seat's earlier reports too.
        reasons -- whether the verdict on a rejected report has what was `expected`. For that each report is sent with two
            questions, in one write.

        An `OSError` is raised where there is no connection. A server without a free seat takes the connection, and
        answers the first call by a `Fault`. With a seat that call is made here: a `Fault` is raised where the server
        doesn't give this seat (`FaultCode.TAKEN` while another connection has it, `FaultCode.COMMAND` where seats have
        no numbers to ask for), and `NoReply` or `BadReply` as by any call.
        """
        if seat is not None:
            check_seat(seat)
        self._reasons = reasons
        self._connect(address, timeout, seat)

    def _connect(self, address: Address, timeout: Optional[float], seat: Optional[int]) -> None:
        connection = connected(address, timeout)
        timed = Timed(connection, timeout)
        self._begin(io.BufferedReader(timed), io.BufferedWriter(timed), connection, timed)
        if seat is not None:
            self._identify(seat)

    # Says as the first line which seat the client is. Where it isn't given the client is closed, as its reports would
    # be those of another seat.
    def _identify(self, seat: int) -> None:
        try:
            self._judged = self._answer(b"I %d" % seat, lambda reply: judged_of(reply, seat))
        except Fault:
            self._drop()
            raise

    @classmethod
    def over(cls, reader: BinaryIO, writer: BinaryIO, reasons: bool = False) -> Client:
        """A client over two open files: it reads the replies from one, and writes the lines to the other."""
        client = cls.__new__(cls)
        client._reasons = reasons
        client._begin(reader, writer, None, None)
        return client

    def _begin(self, reader: BinaryIO, writer: BinaryIO, connection: Optional[socket.socket], timed: Optional[Timed]) -> None:
        self._reader = reader
        self._writer = writer
        self._connection = connection
        self._timed = timed
        self._closed = False
        self._judged = 0
        self._further: List[bytes] = []

    def event(self, name: str) -> Verdict:
        """Reports that the event happened. `_tick` is termination."""
        return self._report(line_of_event(name))

    def refusal(self, names: Iterable[str] = ()) -> Verdict:
        """Reports that the system refuses all of these events now. A repeated name counts once."""
        return self._report(line_of_refusal(names))

    def status(self) -> Status:
        """How many reports of all clients were judged so far, and how.

        All reports that this client was answered are counted; a report that another one was answered just now may
        not be.
        """
        return self._answer(b"S", status_of)

    def next(self) -> Tuple[str, ...]:
        """The events that may come next, in the order of the script's channels, `_tick` last."""
        return self._answer(b"N", next_of)

    def close(self) -> None:
        """Sends `Q`, reads the reply and closes the connection. A second call does nothing."""
        if self._closed:
            return
        try:
            self._exchange(b"Q")
        except NoReply:
            pass
        finally:
            self._drop()

    @property
    def closed(self) -> bool:
        """Whether the client is closed, by `close` or by a call that raised `NoReply` or `BadReply`."""
        return self._closed

    @property
    def judged(self) -> int:
        """How many reports of the client's seat were judged: those of this client, and of a seat by number also earlier ones."""
        return self._judged

    def __enter__(self) -> Client:
        return self

    def __exit__(
        self,
        kind: Optional[Type[BaseException]],
        error: Optional[BaseException],
        trace: Optional[TracebackType],
    ) -> None:
        self.close()

    def _report(self, line: bytes) -> Verdict:
        if not self._reasons:
            verdict = self._answer(line, verdict_of)
            self._judged += 1
            return verdict
        verdict = self._answer(line + b"\nN\nS", verdict_of, further=2)
        self._judged += 1
        try:
            names, status = (read(reply) for read, reply in zip((next_of, status_of), self._further))
        except (BadReply, ValueError):
            # The report was judged, whatever else was answered. Where the connection has ended, the next call finds that.
            return verdict
        return explained(verdict, cast(Tuple[str, ...], names), cast(Status, status))

    # Sends the lines, and answers what the reply to the first says. As many further replies are read as are said, and kept.
    def _answer(self, line: bytes, read: Callable[[bytes], Answer], further: int = 0) -> Answer:
        reply = self._exchange(line)
        self._further = self._read_further(further)
        raise_fault(reply)
        try:
            return read(reply)
        except BadReply:
            self._drop()
            raise

    # Sends a line, and answers its reply without the LF. Whatever is raised closes the client: a reply that came
    # late would be taken for that to the next line.
    def _exchange(self, line: bytes) -> bytes:
        if self._closed:
            raise NoReply("the client is closed")
        if self._timed is not None:
            self._timed.begin()
        try:
            failure = self._send(line)
            reply = self._reader.readline(REPLY_LIMIT + 1)
        except OSError as error:
            self._drop()
            raise NoReply(str(error) or "the connection failed") from error
        except BaseException:
            self._drop()
            raise
        if len(reply) > REPLY_LIMIT:
            self._drop()
            raise BadReply(reply)
        if not reply.endswith(b"\n"):
            self._drop()
            raise NoReply("the connection has ended") from failure
        return reply[:-1]

    # So many further replies; fewer where the connection ends, which closes the client.
    def _read_further(self, count: int) -> List[bytes]:
        found: List[bytes] = []
        try:
            while len(found) < count and not self._closed:
                reply = self._reader.readline(REPLY_LIMIT + 1)
                if reply.endswith(b"\n"):
                    found.append(reply[:-1])
                else:
                    self._drop()
        except OSError:
            self._drop()
        except BaseException:
            self._drop()
            raise
        return found

    # A server without a free seat sends its reason and closes at once, so the reason is read also after a failed write.
    def _send(self, line: bytes) -> Optional[OSError]:
        try:
            self._writer.write(line + b"\n")
            self._writer.flush()
        except OSError as error:
            return error
        return None

    def _drop(self) -> None:
        self._closed = True
        for end in (self._writer, self._reader, self._connection):
            try:
                if end is not None:
                    end.close()
            except OSError:
                pass


def place_of(address: Address) -> Union[str, Tuple[str, int]]:
    """The path of an address such as `"unix:/run/cspwatch"`; the host and the port of any other one."""
    if not isinstance(address, str):
        return address
    if address.startswith(UNIX) and len(address) > len(UNIX):
        return address[len(UNIX) :]
    host, _, port = address.rpartition(":")
    if not (host and port.isascii() and port.isdigit()):
        raise ValueError("an address is HOST:PORT or unix:PATH, not %r" % address)
    return host, int(port)


def connected(address: Address, timeout: Optional[float]) -> socket.socket:
    """A socket that is connected to the address; what is done with it may take so many seconds."""
    place = place_of(address)
    if not isinstance(place, str):
        connection = socket.create_connection(place, timeout=timeout)
        connection.setsockopt(socket.IPPROTO_TCP, socket.TCP_NODELAY, 1)
        return connection
    connection = socket.socket(socket.AF_UNIX, socket.SOCK_STREAM)
    try:
        connection.settimeout(timeout)
        connection.connect(place)
    except BaseException:
        connection.close()
        raise
    return connection


def check_seat(seat: int) -> None:
    """Raises a `ValueError` where no client can be this seat."""
    if not 1 <= seat <= SEATS:
        raise ValueError("a seat is a number from 1 to %d, not %r" % (SEATS, seat))


def line_of_event(name: str) -> bytes:
    """The line that reports the event."""
    return checked_line(b"E " + name.encode("utf-8"))


def line_of_refusal(names: Iterable[str]) -> bytes:
    """The line that reports the refusal of these events."""
    if isinstance(names, str):
        raise ValueError("a refusal takes a list of names, such as [%r]" % names)
    encoded = [name.encode("utf-8") for name in names]
    for name in encoded:
        if b" " in name:
            raise ValueError("a name of a refusal has no blank in it: %r" % name)
    return checked_line(b" ".join([b"R"] + encoded))


def checked_line(line: bytes) -> bytes:
    """The line, or a `ValueError` where it would be more than one line, or too long."""
    if b"\n" in line:
        raise ValueError("a name has no line end in it: %r" % line)
    if len(line) > LINE_LIMIT:
        raise ValueError("the line would have %d bytes; a line has at most %d" % (len(line), LINE_LIMIT))
    return line
