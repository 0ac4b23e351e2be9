"""Several systems side by side: each in a process of its own, with its part of the runs."""
from __future__ import annotations

import multiprocessing
import multiprocessing.connection
import os
import signal
import time
from multiprocessing.connection import Connection
from multiprocessing.process import BaseProcess
from typing import Callable, Dict, List, Optional, Tuple

from ..logs.program import ProgramFault
from .adapters import AdapterFault
from .coverage import Coverage
from .results import FILE_STATUS, Result, Stopped, stopped_by

JOB = "CSPWATCH_TEST_JOB"
"""The variable that has the number of the system, from 1: an adapter may make a port or a name of it."""

TELL_SECONDS = 0.2
"""How often a part tells how far it is."""

IsCancelled = Callable[[], bool]
Watch = Callable[[Result, int], None]
Play = Callable[[int, IsCancelled, Watch], Result]
"""Plays the part with this number, from 1."""


def parts_of(count: Optional[int], jobs: int) -> List[Optional[int]]:
    """How many of so many runs each job makes."""
    if count is None:
        return [None] * jobs
    return [count // jobs + (number < count % jobs) for number in range(min(jobs, count))]


class Parts:
    """The parts of a campaign, and what they have told."""

    def __init__(self, play: Play, jobs: int) -> None:
        """Begins them."""
        context = multiprocessing.get_context("fork")
        self._stop = context.Event()
        self._told: Dict[Connection, Tuple[Result, int]] = {}
        self._waiting: List[Connection] = []
        self._processes: List[BaseProcess] = []
        self._lost = 0
        for number in range(1, jobs + 1):
            come, to = context.Pipe(duplex=False)
            process = context.Process(target=play_part, args=(play, number, to, self._stop.is_set), daemon=True)
            process.start()
            to.close()
            self._waiting.append(come)
            self._processes.append(process)

    def gather(self, watch: Watch) -> None:
        """Waits for what all parts tell. The first failure ends the others."""
        while self._waiting:
            for ready in multiprocessing.connection.wait(self._waiting):
                assert isinstance(ready, Connection)
                self._take(ready)
            if self._told:
                watch(self.whole(), max(attempts for _, attempts in self._told.values()))

    def _take(self, ready: Connection) -> None:
        try:
            result, attempts, is_end = ready.recv()
        except EOFError:
            self._lost += 1
            is_end = True
        else:
            self._told[ready] = (result, attempts)
            if result.finding is not None or result.stopped is not None:
                self._stop.set()
        if is_end:
            self._waiting.remove(ready)
            ready.close()

    def interrupt(self) -> None:
        """Asks all parts for the end, as the key does that interrupts."""
        for process in self._processes:
            if process.is_alive() and process.pid is not None:
                os.kill(process.pid, signal.SIGINT)

    def whole(self) -> Result:
        """What all parts have told."""
        results = [result for result, _ in self._told.values()]
        whole = Result(Coverage(()), False)
        for one in results:
            whole.merge(one)
        if self._lost:
            whole.stopped = whole.stopped or Stopped("%d processes ended before their part of the runs" % self._lost, FILE_STATUS)
        return whole

    def close(self) -> None:
        for process in self._processes:
            process.join()


def play_side_by_side(play: Play, jobs: int, watch: Watch) -> Result:
    """Plays all parts, and answers what came of all."""
    parts = Parts(play, jobs)
    interrupted = False
    try:
        parts.gather(watch)
    except KeyboardInterrupt:
        interrupted = True
        parts.interrupt()
        parts.gather(watch)
    parts.close()
    whole = parts.whole()
    whole.interrupted = whole.interrupted or interrupted
    return whole


def play_part(play: Play, number: int, to: Connection, is_cancelled: IsCancelled) -> None:
    """A part, in a process of its own. A key that interrupts the terminal reaches it by the first process alone."""
    os.setpgid(0, 0)
    os.environ[JOB] = str(number)
    last = time.monotonic()

    def tell(result: Result, attempts: int) -> None:
        nonlocal last
        if time.monotonic() - last >= TELL_SECONDS:
            last = time.monotonic()
            to.send((result, attempts, False))

    try:
        result = play(number, is_cancelled, tell)
    except (AdapterFault, ProgramFault, OSError) as error:
        result = Result(Coverage(()), False, stopped=stopped_by(error, None))
    to.send((result, 0, True))
