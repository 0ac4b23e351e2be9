"""A connection whose reads and writes end by a moment that is set for all of them together."""
from __future__ import annotations

import io
import socket
import time
from typing import Optional


class Timed(io.RawIOBase):
    """A connection that is read and written as a file.

    What is done from a call of `begin` to the next one may take so many seconds in all, and not each read and each write
    of it; None is for ever. What takes longer raises a `TimeoutError`.
    """

    def __init__(self, connection: socket.socket, timeout: Optional[float]) -> None:
        super().__init__()
        self._connection = connection
        self._timeout = timeout
        self._latest: Optional[float] = None
        self.begin()

    def begin(self) -> None:
        """From now on the seconds are counted."""
        self._latest = None if self._timeout is None else time.monotonic() + self._timeout

    def readable(self) -> bool:
        return True

    def writable(self) -> bool:
        return True

    def readinto(self, buffer) -> int:  # type: ignore[no-untyped-def]
        self._limit()
        return self._connection.recv_into(buffer)

    def write(self, data) -> int:  # type: ignore[no-untyped-def]
        self._limit()
        self._connection.sendall(data)
        return len(data)

    def _limit(self) -> None:
        if self._latest is None:
            self._connection.settimeout(None)
            return
        left = self._latest - time.monotonic()
        if left <= 0:
            raise TimeoutError("timed out")
        self._connection.settimeout(left)
