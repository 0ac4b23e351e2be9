"""What judges: runs of `check`, and a connection to a server. Reports are sent ahead, and answered in their order."""
from __future__ import annotations

import os
import re
import selectors
import socket
import subprocess
import time
from collections import deque
from typing import Callable, Deque, Dict, List, Optional, Sequence, Set

from ..client import connected
from ..reconnecting import FIRST_PAUSE, LONGEST_PAUSE, PASSING
from ..replies import FAULT, FaultCode
from ..running import explaining
from .mapping import Report
from .reading import Line

CHUNK = 1 << 16
"""How many bytes are read or written at once."""

REPLY_LIMIT = 1 << 16
"""The most bytes of a reply or of a line of standard error that are kept."""

EXPLAINED = re.compile(r"line (\d+): .*?: NO \d+, (.*)")
"""A line of `check --explain` after a rejected report: the number of its line, and why."""

SEATED = re.compile(rb"I ([1-9][0-9]*) (0|[1-9][0-9]*)")
"""The reply to a line `I n`: the seat, and how many of its reports stand in the history."""

PLACE_DIGITS = 20
"""The most digits of a place."""

LAST_LINES = 20
"""How many lines of the program's standard error are kept, for what it says when it ends."""

REASON_SECONDS = 2
"""How long the reason of a rejected report may come after its verdict."""

LIMITS = (FaultCode.DEPTH, FaultCode.STATES, FaultCode.HISTORY, FaultCode.MEMORY)
"""The faults that answer a report which could have been judged, were there no limit."""

UNJUDGED = 2
"""The status of a run in which a line wasn't judged."""

SECONDS = 30
"""How long a server may take to be connected to, and to give a seat."""


class Sent:
    """A report that was sent, and what became of it."""

    # Most reports are accepted, so what is as it is at the beginning is kept once for all of them.
    done = False
    """Whether the answer is complete."""
    accepted = False
    place: Optional[int] = None
    """The place in the history; None where the report wasn't judged."""
    fault = ""
    """What was answered in place of a verdict, as `21 states`; empty where there is a verdict."""
    status = 0
    """What the answer asks for as the status of the run."""
    reason = ""
    """Why the report was rejected, where that is known."""
    number_lost = 0
    """The number of the report among those of its seat, where it was judged and its verdict was lost; 0 where it wasn't."""
    since = 0.0
    """Since when its reason is waited for, by the clock `monotonic`."""
    times = 1
    """How many reports that are alike it stands for."""
    after_no = False
    """Whether its session wasn't judged any more."""

    def __init__(self, report: Report, line: Line, index: int, session: object) -> None:
        self.report = report
        self.line = line
        self.index = index
        """The number of the line among all lines that were read."""
        self.session = session

    @classmethod
    def unjudged(cls, line: Line, index: int, session: object, reason: str, is_event: bool) -> Sent:
        """What stands for a line of which no report could be made, of an event or of a refusal."""
        found = cls(Report("", "" if is_event else None), line, index, session)
        found.done, found.fault, found.status = True, reason, UNJUDGED
        return found

    def passed(self) -> int:
        """How many of the reports that it stands for were accepted."""
        return 1 if self.accepted else 0

    def is_complete(self) -> bool:
        """Whether its answer is complete, or its reason has been waited for long enough."""
        if not self.done and self.since and time.monotonic() - self.since > REASON_SECONDS:
            self.done = True
        return self.done

    def answer(self, reply: bytes) -> bool:
        """Takes the reply. False where the protocol has no such reply."""
        # Most replies are these, so they are read without a regular expression.
        kind, place = reply[:3], reply[3:]
        if kind in (b"OK ", b"NO ") and place.isdigit() and place[:1] != b"0" and len(place) <= PLACE_DIGITS:
            self.place = int(place)
            if kind == b"OK ":
                self.accepted = True
            else:
                self.status = 1
            return True
        fault = FAULT.fullmatch(reply)
        if fault is not None:
            self.fault = "%s %s" % (fault[1].decode("ascii"), fault[2].decode("ascii"))
            # An event that did happen isn't in the trace then: what is judged after it is judged without it.
            is_gap = self.report.event is not None and int(fault[1]) in LIMITS
            self.status = UNJUDGED if is_gap else status_of(int(fault[1]))
        return fault is not None


NOTHING = Report("", None)

NO_LINE = Line("", 0, "")


class Ticks(Sent):
    """Ticks that follow one another, with nothing else between. One that is rejected changes nothing, so all after it are rejected too."""

    first = 0
    """The time of the first."""
    length = 0
    """The time from one to the next."""
    silence = 0
    """Which silence of its session they are in."""

    def __init__(self, report: Report, line: Line, index: int, session: object, times: int) -> None:
        super().__init__(report, line, index, session)
        self.times = times
        self.accepted_ones = self.answered = 0

    def passed(self) -> int:
        return self.accepted_ones

    def answer(self, reply: bytes) -> bool:
        """Takes the next reply. What it says of the first that wasn't accepted stays."""
        one = Sent(self.report, self.line, self.index, self.session)
        if not one.answer(reply):
            return False
        self.answered += 1
        if one.accepted:
            self.accepted_ones += 1
        elif self.status == 0:
            self.place, self.fault, self.status = one.place, one.fault, one.status
        self.accepted = self.accepted_ones == self.times
        return True

    def is_answered(self) -> bool:
        return self.answered == self.times


class Block(Sent):
    """Reports of one session that follow one another. Most are accepted; where one isn't, each becomes one that was sent alone."""

    def __init__(self, session: object) -> None:
        super().__init__(NOTHING, NO_LINE, 0, session)
        self.times = 0
        self.reports: List[Report] = []
        self.lines: List[Line] = []
        self.indexes: List[int] = []
        self.answered = 0

    def add(self, report: Report, line: Line, index: int) -> None:
        """One more report."""
        self.reports.append(report)
        self.lines.append(line)
        self.indexes.append(index)

    def close(self) -> None:
        """No more reports are added."""
        self.times = len(self.reports)
        self.line, self.index = self.lines[0], self.indexes[0]

    def passed(self) -> int:
        return self.times if self.accepted else 0

    def are_accepted(self, replies: List[bytes]) -> None:
        """So many replies have come, each of them as expected."""
        self.answered += len(replies)
        self.accepted = self.done = self.answered == self.times

    def parts(self, place: int) -> List[Sent]:
        """Each report as one that was sent alone; those that were answered are accepted.

        place -- the place of the last that was answered.
        """
        found = [Sent(report, line, index, self.session) for report, line, index in zip(self.reports, self.lines, self.indexes)]
        for number, sent in enumerate(found[: self.answered]):
            sent.accepted = sent.done = True
            sent.place = place - self.answered + 1 + number
        return found


class Lost(Exception):
    """What judges has ended before it answered, or answered what the protocol doesn't have. `status` is what the run ends with."""

    def __init__(self, text: str, status: int = 5, may_pass: bool = False) -> None:
        super().__init__(text)
        self.status = status
        self.may_pass = may_pass
        """Whether another attempt may do better."""


def unasked(name: str, reply: bytes) -> Lost:
    """A reply came, and no report was waiting for it: a server without a free seat sends one."""
    fault = FAULT.fullmatch(reply)
    if fault is None:
        return Lost("%s: %r came, and no report was waiting for it" % (name, reply[:200]))
    return Lost("%s: %s" % (name, reply.decode("ascii")), status_of(int(fault[1])))


def status_of(code: int) -> int:
    """The status of a run in which a report was answered by this fault."""
    if code in (FaultCode.COMMAND, FaultCode.EVENT, FaultCode.LINE):
        return UNJUDGED
    return 4 if code in (FaultCode.JOURNAL, FaultCode.CLOSED) else 6


class Link:
    """One that judges, behind descriptors that never block. Its owner calls `read` and `write` when they are ready."""

    def __init__(self, name: str, to: int, come: int, told: Optional[int], explains: bool) -> None:
        self.name = name
        self.to, self.come, self.told = to, come, told
        self.explains = explains
        self.outgoing = bytearray()
        self.waiting: Deque[Sent] = deque()
        """The reports whose verdicts haven't come."""
        self.place = 0
        """The place of the last report that was judged, as far as it is known."""
        self.split: Callable[[Block, List[Sent]], None] = lambda block, parts: None
        """What is told that a block has become parts."""
        self.unexplained: Dict[int, Sent] = {}
        """The rejected reports whose reasons haven't come, by the numbers of their lines."""
        self.early: Dict[int, str] = {}
        """Reasons that have come before their verdicts were read, by the same numbers."""
        self.answered = 0
        self.judged = 0
        """How many of the answers were verdicts."""
        self.errors: Deque[str] = deque(maxlen=LAST_LINES)
        """The last lines of standard error that explain no report."""
        self.rests: Dict[int, bytes] = {}
        self.open = {end for end in (come, told) if end is not None}
        """The descriptors from which more may come."""
        self.finishing = False
        self.broken = False
        """Whether nothing can be sent any more."""
        for end in {to, come, told}:
            if end is not None:
                os.set_blocking(end, False)

    def send(self, sent: Sent) -> None:
        """Adds a report to what is to be written."""
        self.waiting.append(sent)
        if self.broken:
            return
        if isinstance(sent, Block):
            self.outgoing += ("\n".join([report.line for report in sent.reports]) + "\n").encode("utf-8", "replace")
            return
        line = sent.report.line.encode("utf-8", "replace") + b"\n"
        self.outgoing += line if sent.times == 1 else line * sent.times

    def write(self) -> None:
        """Writes what can be written now."""
        try:
            while self.outgoing:
                del self.outgoing[: os.write(self.to, memoryview(self.outgoing)[:CHUNK].tobytes())]
        except BlockingIOError:
            return
        except OSError:
            # It has ended. Why is in what it wrote before.
            self.outgoing.clear()
            self.broken = True
        if self.finishing and self.to >= 0:
            self.shut()

    def finish(self) -> None:
        """Sends nothing more after what was sent: the other end reads the end of its input."""
        self.finishing = True
        self.write()

    def shut(self) -> None:
        """Closes the writing side."""
        os.close(self.to)
        self.to = -1

    def read(self, end: int) -> None:
        """Reads what has come at this descriptor."""
        try:
            data = os.read(end, CHUNK)
        except BlockingIOError:
            return
        except OSError:
            data = b""
        if not data:
            self.open.discard(end)
        *lines, rest = (self.rests.get(end, b"") + data).split(b"\n")
        self.rests[end] = rest[:REPLY_LIMIT]
        if end == self.come:
            self.take_replies(lines)
        else:
            for line in lines + ([rest] if rest and not data else []):
                self.take_error(line.decode("utf-8", "replace"))
        if not data and end == self.told:
            self.explain_nothing()

    def take_replies(self, replies: List[bytes]) -> None:
        waiting = self.waiting
        at = 0
        while at < len(replies):
            if waiting and isinstance(waiting[0], Block):
                at += self.take_block(waiting[0], replies[at:] if at else replies)
                continue
            reply = replies[at]
            at += 1
            if not waiting:
                raise unasked(self.name, reply)
            sent = waiting.popleft()
            self.answered += 1
            is_first = sent.status == 0
            is_answer = sent.answer(reply)
            self.judged += reply[2:3] != b"R"
            if not is_answer:
                raise Lost("%s: %r was answered by %r" % (self.name, sent.report.line, reply[:200]))
            if reply[2:3] != b"R":
                self.place = int(reply[3:])
            if sent.times > 1 and isinstance(sent, Ticks) and not sent.is_answered():
                waiting.appendleft(sent)
                if not sent.status:
                    continue
            if sent.accepted or not sent.status:
                sent.done = True
            else:
                self.explain(sent, is_first)

    def take_block(self, block: Block, replies: List[bytes]) -> int:
        """Takes as many replies as the block waits for, where all of them accept; else the block becomes its parts. Answers how many
        were taken."""
        count = min(block.times - block.answered, len(replies))
        taken = replies[:count]
        if taken == [b"OK %d" % place for place in range(self.place + 1, self.place + 1 + count)]:
            self.place += count
            self.answered += count
            self.judged += count
            block.are_accepted(taken)
            if block.done:
                self.waiting.popleft()
            return count
        self.split_first()
        return 0

    def split_first(self) -> None:
        """Makes parts of the block that is answered next, where it is one."""
        if self.waiting and isinstance(self.waiting[0], Block):
            block = self.waiting.popleft()
            assert isinstance(block, Block)
            parts = block.parts(self.place)
            self.waiting.extendleft(reversed(parts[block.answered :]))
            self.split(block, parts)

    def unanswered(self) -> int:
        """How many reports wait for their verdicts."""
        return sum(sent.times - (sent.answered if isinstance(sent, (Block, Ticks)) else 0) for sent in self.waiting)

    def explain(self, sent: Sent, is_first: bool) -> None:
        """The reason of a report that wasn't accepted, which may have come or not. It is done with that, once all of it is answered.

        is_first -- whether it is the first of the reports that it stands for, whose reason is that of all.
        """
        reason = self.early.pop(self.answered, "")
        if is_first:
            sent.reason = reason
            if not (sent.fault or reason) and self.explains and self.told in self.open:
                self.unexplained[self.answered] = sent
                sent.since = time.monotonic()
        is_answered = not isinstance(sent, Ticks) or sent.is_answered()
        sent.done = is_answered and sent not in self.unexplained.values()

    def take_error(self, line: str) -> None:
        """A line of standard error. A reason may come before its verdict is read."""
        found = EXPLAINED.fullmatch(line)
        if found is None:
            self.errors.append(line)
            return
        number = int(found[1])
        for earlier in [one for one in self.unexplained if one < number]:
            # Reasons come in the order of the reports, so these have none.
            self.unexplained.pop(earlier).done = True
        sent = self.unexplained.pop(number, None)
        if sent is not None:
            sent.reason = found[2]
            sent.done = not isinstance(sent, Ticks) or sent.is_answered()
        elif number > self.answered and self.waiting:
            self.early[number] = found[2]

    def explain_nothing(self) -> None:
        """No further reason comes."""
        for sent in self.unexplained.values():
            sent.done = True
        self.unexplained.clear()

    def ended(self) -> bool:
        """Whether nothing more comes."""
        return not self.open

    def status(self) -> Optional[int]:
        """The status of the program, once it has ended; None for a server."""
        return None

    def close(self) -> None:
        """Lets go of all that is open."""
        for end in {self.to, self.come, self.told}:
            if end is not None and end >= 0:
                os.close(end)


class Check(Link):
    """A run of `check`."""

    def __init__(self, words: Sequence[str], explains: bool) -> None:
        """Starts it. `OSError` where that can't be done."""
        self.process = subprocess.Popen(words, stdin=subprocess.PIPE, stdout=subprocess.PIPE, stderr=subprocess.PIPE, bufsize=0, env=explaining())
        ends = []
        for stream in (self.process.stdin, self.process.stdout, self.process.stderr):
            assert stream is not None
            ends.append(os.dup(stream.fileno()))
            stream.close()
        super().__init__(words[0], ends[0], ends[1], ends[2], explains)

    def status(self) -> Optional[int]:
        return self.process.wait()

    def close(self) -> None:
        super().close()
        if self.process.poll() is None:
            self.process.kill()
        self.process.wait()


class Connection(Link):
    """A connection to a server."""

    def __init__(self, address: str, seat: Optional[int]) -> None:
        """Connects, and asks for the seat. `OSError` where there is no connection, `Lost` where the seat isn't given."""
        try:
            self.socket = connected(address, SECONDS)
        except OSError as error:
            error.filename = address
            raise
        self.reported = 0
        """How many reports of the seat stood in the history."""
        if seat is not None:
            self.reported = self.seated(seat)
        descriptor = self.socket.fileno()
        super().__init__(address, descriptor, descriptor, None, False)

    def seated(self, seat: int) -> int:
        """How many reports of this seat stand in the history."""
        try:
            self.socket.sendall(b"I %d\n" % seat)
            reply = self.reply()
        except OSError as error:
            self.socket.close()
            raise Lost("seat %d: %s" % (seat, error.strerror or error), may_pass=True) from None
        found = SEATED.fullmatch(reply)
        if found is not None and int(found[1]) == seat:
            return int(found[2])
        self.socket.close()
        fault = FAULT.fullmatch(reply)
        may_pass = not reply or fault is not None and int(fault[1]) in PASSING
        raise Lost("seat %d: %s" % (seat, SEAT_FAULTS.get(reply) or "the server answered %r" % reply[:200]), may_pass=may_pass)

    def reply(self) -> bytes:
        """The next line, without its LF; what there is of it where the connection ends."""
        found = b""
        while not found.endswith(b"\n") and len(found) < REPLY_LIMIT:
            byte = self.socket.recv(1)
            if not byte:
                return found
            found += byte
        return found[:-1]

    def shut(self) -> None:
        self.to = -1
        try:
            self.socket.shutdown(socket.SHUT_WR)
        except OSError:
            pass

    def close(self) -> None:
        self.socket.close()


def connected_patiently(address: str, seat: Optional[int], patience: float, is_asked: Callable[[], bool] = lambda: False) -> Connection:
    """A connection as this seat; tried again for so many seconds, as long as nobody asks for the end."""
    latest = time.monotonic() + patience
    pause = FIRST_PAUSE
    while True:
        try:
            return Connection(address, seat)
        except (OSError, Lost) as error:
            may_pass = not isinstance(error, Lost) or error.may_pass
            if not may_pass or is_asked() or time.monotonic() + pause > latest:
                raise
        time.sleep(pause)
        pause = min(2 * pause, LONGEST_PAUSE)


SEAT_FAULTS = {
    b"ERR 10 command": "this server gives no seats by number (ERR 10 command)",
    b"ERR 27 taken": "another connection has this seat (ERR 27 taken)",
    b"ERR 22 seats": "the server has no free seat (ERR 22 seats)",
}
"""What a server's refusal of a seat means."""


class Links:
    """All that judge, and the waiting for them."""

    def __init__(self) -> None:
        self.selector = selectors.DefaultSelector()
        self.dirty: Set[Link] = set()
        """Those that have something to write."""

    def add(self, link: Link) -> None:
        for end in link.open:
            self.selector.register(end, selectors.EVENT_READ, link)

    def pump(self, seconds: float, also: Sequence[int] = ()) -> List[Link]:
        """Writes what can be written, and reads what has come; waits so long for anything. Answers the links that have ended.

        seconds -- the longest wait.
        also -- descriptors that end the waiting too, such as a log's.
        """
        for link in self.dirty:
            link.write()
        self.dirty = blocked = {link for link in self.dirty if link.outgoing}
        extra = [end for end in also if end not in self.selector.get_map()]
        for end in extra:
            self.selector.register(end, selectors.EVENT_READ, None)
        for link in blocked:
            self.watch_writing(link, True)
        ended = []
        try:
            ready = self.selector.select(seconds)
        finally:
            for link in blocked:
                self.watch_writing(link, False)
            for end in extra:
                self.selector.unregister(end)
        for key, events in ready:
            link = key.data
            if link is not None and events & selectors.EVENT_READ and key.fd in link.open:
                link.read(key.fd)
                if key.fd not in link.open:
                    self.selector.unregister(key.fd)
                    if link.ended():
                        ended.append(link)
        return ended

    def watch_writing(self, link: Link, on: bool) -> None:
        """Whether the waiting ends when the link can be written to."""
        if link.to == link.come:
            if link.come in link.open:
                self.selector.modify(link.come, selectors.EVENT_READ | (selectors.EVENT_WRITE if on else 0), link)
        elif on:
            self.selector.register(link.to, selectors.EVENT_WRITE, link)
        else:
            self.selector.unregister(link.to)

    def close(self) -> None:
        self.selector.close()
