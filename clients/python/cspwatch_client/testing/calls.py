"""Calls of the adapter's functions, plain ones and coroutines, each within a time."""
from __future__ import annotations

import asyncio
import os
import signal
import sys
import threading
import time
import traceback
from typing import Callable, Coroutine, Optional, Tuple

from .adapters import AdapterFault, Refused

GRACE_SECONDS = 5.0
"""How long after its time a call that can't be interrupted may go on, before the program ends at once."""

LOOK_SECONDS = 0.5
"""How often it is looked whether a call goes on for so long."""

STUCK_STATUS = 2


class Hung(Exception):
    """A call of the adapter took longer than it may."""


class Alarm(BaseException):
    """Interrupts a call. It is no `Exception`, so that the adapter doesn't take it for one of its own."""


class Calls:
    """Calls functions of an adapter.

    Coroutines run in one event loop, which goes on only while a call does. In the main thread a call that takes too long is
    interrupted, in any other it isn't.
    """

    def __init__(self, seconds: float, when_stuck: Callable[[str], str] = str) -> None:
        """seconds -- how long a call may take.
        when_stuck -- makes a message of what is called, for a call that can't be interrupted: the program ends then.
        """
        self.seconds = seconds
        self._when_stuck = when_stuck
        self._loop: Optional[asyncio.AbstractEventLoop] = None
        self._in_time = threading.current_thread() is threading.main_thread()
        self._current: Tuple[float, str] = (float("inf"), "")
        """Until when the call that goes on may take, and what it is."""
        self._closed = threading.Event()
        if self._in_time:
            self._before = signal.signal(signal.SIGALRM, interrupt)
            threading.Thread(target=self._watch, daemon=True).start()

    def __call__(self, what: str, function: Callable[[], object], wait: float = 0.0) -> object:
        """What the function returns, or what its coroutine does. `Refused` where it raises that, `Hung` where it takes too long, and `AdapterFault` with
        the traceback where it raises anything else.

        what -- the name of the call in messages.
        wait -- how many seconds it is asked to wait, beside those that it may take.
        """
        self._set_alarm(self.seconds + wait, what)
        try:
            answer = function()
            return self._awaited(answer) if isinstance(answer, Coroutine) else answer
        except (Refused, KeyboardInterrupt):
            raise
        except Alarm:
            raise Hung("%s: no answer within %g s" % (what, self.seconds + wait)) from None
        except BaseException:
            raise AdapterFault("%s%s raised this exception" % (traceback.format_exc(), what)) from None
        finally:
            self._set_alarm(0, "")

    def _awaited(self, coroutine: Coroutine[object, object, object]) -> object:
        if self._loop is None:
            self._loop = asyncio.new_event_loop()
            asyncio.set_event_loop(self._loop)
        return self._loop.run_until_complete(coroutine)

    def _set_alarm(self, seconds: float, what: str) -> None:
        if self._in_time:
            self._current = (time.monotonic() + seconds if seconds else float("inf"), what)
            signal.setitimer(signal.ITIMER_REAL, seconds)

    # A call in C that waits for ever never lets an interruption through.
    def _watch(self) -> None:
        while not self._closed.wait(LOOK_SECONDS):
            until, what = self._current
            if time.monotonic() > until + GRACE_SECONDS:
                sys.stderr.write(self._when_stuck(what) + "\n")
                sys.stderr.flush()
                os._exit(STUCK_STATUS)

    def close(self) -> None:
        """Ends the event loop, with what still runs in it."""
        self._closed.set()
        if self._in_time:
            signal.signal(signal.SIGALRM, self._before)
        if self._loop is None:
            return
        running = asyncio.all_tasks(self._loop)
        for task in running:
            task.cancel()
        self._loop.run_until_complete(asyncio.gather(*running, return_exceptions=True))
        self._loop.run_until_complete(self._loop.shutdown_asyncgens())
        self._loop.close()
        asyncio.set_event_loop(None)


def interrupt(number: int, frame: object) -> None:
    raise Alarm()
