"""A client that opens its connection again: it is a seat by number, whatever connection it has."""
from __future__ import annotations

import time
from typing import Callable, NoReturn, Optional, Tuple, TypeVar

from .client import Address, Client, check_seat
from .replies import Fault, FaultCode, NoReply, OtherReports, Status, Verdict, VerdictLost

PATIENCE = 60.0
"""For how many seconds a client tries to come back, where nothing else is said."""

FIRST_PAUSE = 0.01
LONGEST_PAUSE = 1.0
"""How long it waits between two attempts, in seconds: each time twice as long as before, up to the longest."""

PASSING = {FaultCode.SEATS, FaultCode.READER, FaultCode.TAKEN, FaultCode.MEMORY}
"""Faults by which a server refuses a connection for now. A connection that was lost may have the seat a little longer."""

Answer = TypeVar("Answer")


class ReconnectingClient(Client):
    """A client that comes back: where its connection is lost it opens another one, as the same seat, and goes on.

    It is for a server that gives seats by number, and outlives the server's restarts too. Each report is judged once:
    after a lost connection the server says how many reports of the seat stand in the history, so a report that was
    lost on its way is sent again, and one that was judged isn't. Of the latter the verdict was lost; its call raises
    `VerdictLost`, and the client goes on. `OtherReports` is raised where the history has reports of this seat that
    aren't this client's. A question is asked again.

    It tries to come back for so many seconds as it has patience. After that the call raises the `NoReply` by which the
    connection was lost, and the client is closed.
    """

    def __init__(self, address: Address, seat: int, timeout: Optional[float] = None, patience: float = PATIENCE, reasons: bool = False) -> None:
        """Connects to the server as the seat; it tries again for so many seconds as it has patience.

        The arguments are those of `Client`, and what is raised is what the last attempt raised.
        """
        check_seat(seat)
        self._address = address
        self._seat = seat
        self._timeout = timeout
        self._patience = patience
        self._reasons = reasons
        self._ended = False
        self._open_patiently()

    def status(self) -> Status:
        """How many reports of all clients were judged so far, and how. See `Client.status`."""
        return self._ask(super().status)

    def next(self) -> Tuple[str, ...]:
        """The events that may come next, in the order of the script's channels, `_tick` last."""
        return self._ask(super().next)

    def close(self) -> None:
        """Sends `Q`, reads the reply and closes the connection. A second call does nothing."""
        self._ended = True
        super().close()

    def _ask(self, question: Callable[[], Answer]) -> Answer:
        known = self.judged
        while True:
            answer = self._once(question)
            if answer is not None:
                return answer
            if self.judged != known:
                self._give_up(known)

    def _report(self, line: bytes) -> Verdict:
        known = self.judged
        report = super()._report
        while True:
            verdict = self._once(lambda: report(line))
            if verdict is not None:
                return verdict
            if self.judged == known + 1:
                raise VerdictLost(self._seat, self.judged)
            if self.judged != known:
                self._give_up(known)

    # What the call answers; None where its connection was lost, and another one was opened. After anything else than a
    # fault it isn't known what was judged, so the client ends.
    def _once(self, call: Callable[[], Answer]) -> Optional[Answer]:
        try:
            return call()
        except Fault:
            raise
        except NoReply as lost:
            self._come_back(lost)
            return None
        except BaseException:
            self._ended = True
            raise

    # Opens a connection again after one was lost so.
    def _come_back(self, lost: NoReply) -> None:
        if self._ended:
            raise lost
        known = self._judged
        try:
            self._open_patiently()
        except BaseException as error:
            self._ended = True
            self._judged = known
            if isinstance(error, (OSError, NoReply)):
                raise lost from error
            raise

    def _open_patiently(self) -> None:
        latest = time.monotonic() + self._patience
        pause = FIRST_PAUSE
        while True:
            try:
                self._connect(self._address, self._timeout, self._seat)
                return
            except (OSError, NoReply, Fault) as error:
                lasting = isinstance(error, Fault) and error.code not in PASSING
                if lasting or time.monotonic() + pause > latest:
                    raise
            time.sleep(pause)
            pause = min(2 * pause, LONGEST_PAUSE)

    def _give_up(self, known: int) -> NoReturn:
        self._ended = True
        self._drop()
        raise OtherReports(self._seat, known, self.judged)
