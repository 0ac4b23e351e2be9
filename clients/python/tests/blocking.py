"""`AsyncClient` with the calls of `Client` and `ReconnectingClient`, for the tests of both."""
import asyncio
import atexit
import os
import sys

sys.path.insert(0, os.path.dirname(os.path.dirname(os.path.abspath(__file__))))

from cspwatch_client import AsyncClient  # noqa: E402

LOOP = asyncio.new_event_loop()
atexit.register(LOOP.close)


class Blocking:
    """An `AsyncClient` whose calls wait, so that it has the calls of `Client`."""

    def __init__(self, address, timeout=None, seat=None, patience=0.0):
        self.client = LOOP.run_until_complete(AsyncClient.connect(address, timeout, seat, patience))

    def event(self, name):
        return LOOP.run_until_complete(self.client.event(name))

    def refusal(self, names=()):
        return LOOP.run_until_complete(self.client.refusal(names))

    def status(self):
        return LOOP.run_until_complete(self.client.status())

    def next(self):
        return LOOP.run_until_complete(self.client.next())

    def close(self):
        LOOP.run_until_complete(self.client.close())

    @property
    def closed(self):
        return self.client.closed

    @property
    def judged(self):
        return self.client.judged

    def __enter__(self):
        return self

    def __exit__(self, *_):
        self.close()


class Patient(Blocking):
    def __init__(self, address, seat, timeout=None, patience=60.0):
        super().__init__(address, timeout, seat, patience)
