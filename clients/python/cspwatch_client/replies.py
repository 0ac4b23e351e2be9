"""What the server answers: verdicts, counts and faults, and how a line of reply is read."""
from __future__ import annotations

import re
from dataclasses import dataclass, field, replace
from enum import IntEnum
from typing import Optional, Tuple


@dataclass(frozen=True)
class Verdict:
    """The answer to a report that was judged. It is true where the report was accepted."""

    accepted: bool
    """Whether the specification allows what was reported."""

    place: int
    """The place of the report in the history of all clients, counted from 1."""

    expected: Optional[Tuple[str, ...]] = field(default=None, compare=False)
    """Of a rejected report what could have come then, in the order of the script's channels, `_tick` last: in place of a rejected
    event; of a rejected refusal those of its events among these were to be offered. None where it wasn't asked for, or isn't known
    since another client has reported meanwhile."""

    def __bool__(self) -> bool:
        return self.accepted

    def __repr__(self) -> str:
        more = "" if self.expected is None else ", expected=%r" % (self.expected,)
        return "Verdict(accepted=%r, place=%r%s)" % (self.accepted, self.place, more)


@dataclass(frozen=True)
class Status:
    """How many reports were judged so far, and how."""

    judged: int
    """All reports that were judged."""

    events: int
    """The accepted events."""

    refusals: int
    """The accepted refusals."""

    rejected: int
    """The rejected reports, of both kinds."""

    closed: bool
    """Whether the session takes no more reports, because its journal could not be written."""


class FaultCode(IntEnum):
    """The codes of `ERR` replies. A later server may have more. `BEHIND` is a code of sessions, and no server answers it."""

    COMMAND = 10
    EVENT = 11
    LINE = 12
    DEPTH = 20
    STATES = 21
    SEATS = 22
    HISTORY = 23
    TURN = 24
    BEHIND = 25
    READER = 26
    TAKEN = 27
    JOURNAL = 30
    CLOSED = 31
    MEMORY = 40


class CspwatchError(Exception):
    """What every exception of this package is, except a `ValueError` for a name that can't be sent."""


class Fault(CspwatchError):
    """The server answered `ERR code word`: what was asked was not answered, and a report was not judged.

    After the code `JOURNAL` the report may be in the journal nevertheless; reading the journal back shows it.
    The connection goes on, except after the codes `LINE`, `SEATS` and `READER`, and where a new connection is refused;
    after `TAKEN` the client is closed.
    """

    def __init__(self, code: int, word: str) -> None:
        super().__init__("%d %s" % (code, word))
        self.code = code
        """The number; compare it with the members of `FaultCode`."""
        self.word = word
        """The word that the server gives for the number."""


class NoReply(CspwatchError):
    """No whole reply came: the connection ended or failed, or the time was over. The client is closed.

    Whether the report was judged is not known.
    """


class VerdictLost(CspwatchError):
    """The report was judged, and its verdict was lost with the connection. The client goes on.

    The report stands in the history: don't report it again. `cspwatch show` has its verdict.
    """

    def __init__(self, seat: int, number: int) -> None:
        super().__init__("report %d of seat %d was judged, and its verdict was lost" % (number, seat))
        self.seat = seat
        """The seat that reported it."""
        self.number = number
        """The number of the report among those of its seat, counted from 1."""


class OtherReports(CspwatchError):
    """The history has other reports of the seat than those of this client. The client is closed.

    Someone else has reported as this seat, or the server has another journal.
    """

    def __init__(self, seat: int, known: int, found: int) -> None:
        super().__init__("the history has %d reports of seat %d, and not the %d of this client" % (found, seat, known))
        self.known = known
        """How many reports of the seat the client knows of."""
        self.found = found
        """How many the history has."""


class BadReply(CspwatchError):
    """The reply isn't one of the protocol's. The client is closed."""

    def __init__(self, reply: bytes) -> None:
        super().__init__("the server replied %r" % reply[:200])
        self.reply = reply
        """The bytes of the reply, without its LF."""


NUMBER = rb"(0|[1-9][0-9]{0,19})"
VERDICT = re.compile(rb"(OK|NO) ([1-9][0-9]{0,19})")
STATUS = re.compile(rb"S " + rb" ".join([NUMBER] * 4) + rb" (open|closed)")
IDENTITY = re.compile(rb"I ([1-9][0-9]{0,3}) " + NUMBER)
NEXT = re.compile(rb"N((?: [!-~]+)*)")
FAULT = re.compile(rb"ERR (0|[1-9][0-9]{0,8}) ([!-~]+)")


def raise_fault(reply: bytes) -> None:
    """Raises the fault that the reply is, if it is one."""
    fault = FAULT.fullmatch(reply)
    if fault is not None:
        raise Fault(int(fault[1]), fault[2].decode("ascii"))


def verdict_of(reply: bytes) -> Verdict:
    """The verdict that the reply is, or `BadReply`."""
    found = VERDICT.fullmatch(reply)
    if found is None:
        raise BadReply(reply)
    return Verdict(accepted=found[1] == b"OK", place=int(found[2]))


def explained(verdict: Verdict, names: Tuple[str, ...], status: Status) -> Verdict:
    """The verdict with what could have come, where that was asked for before anybody else's next report.

    names -- what may come next, asked for after the report.
    status -- the counts, asked for after that.
    """
    if verdict.accepted or status.judged != verdict.place:
        return verdict
    return replace(verdict, expected=names)


def status_of(reply: bytes) -> Status:
    """The counts that the reply has, or `BadReply`."""
    found = STATUS.fullmatch(reply)
    if found is None:
        raise BadReply(reply)
    judged, events, refusals, rejected = (int(found[group]) for group in range(1, 5))
    return Status(judged, events, refusals, rejected, closed=found[5] == b"closed")


def next_of(reply: bytes) -> Tuple[str, ...]:
    """The names that the reply has, or `BadReply`."""
    found = NEXT.fullmatch(reply)
    if found is None:
        raise BadReply(reply)
    return tuple(name.decode("ascii") for name in found[1].split())


def judged_of(reply: bytes, seat: int) -> int:
    """How many reports of the seat the reply says were judged, or `BadReply`."""
    found = IDENTITY.fullmatch(reply)
    if found is None or int(found[1]) != seat:
        raise BadReply(reply)
    return int(found[2])
