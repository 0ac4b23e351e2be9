"""Campaigns: many runs, made and shrunk by hypothesis, until one fails or enough were made."""
from __future__ import annotations

import random
import time
from collections import Counter, deque
from dataclasses import dataclass
from typing import Callable, List, Optional, Sequence, Set, Tuple
from unittest import SkipTest

from hypothesis import HealthCheck, Phase, Verbosity, given, reject, seed, settings
from hypothesis.errors import Flaky
from hypothesis.strategies import SearchStrategy, composite, sampled_from

from ..logs.program import ProgramFault
from ..replies import Fault
from .adapters import AdapterFault
from .calls import Hung
from .choices import END, NUMBERS, Choices
from .databases import FailingRuns
from .results import Result, finding_of, result_for, stopped_by
from .runs import Failure, Run
from .systems import System

BATCH = 50
"""How many runs hypothesis makes at once. Memory grows with these alone, and weights change after them."""

SHRINK_SECONDS = 60.0
"""How long a failing run is made shorter."""

SEARCHED = 200
"""How many runs that are shorter than the one that hypothesis ends with are tried, the shortest first."""

NUMBER = sampled_from(range(NUMBERS))

Numbers = Tuple[int, ...]

EMPTY: Numbers = ()


@dataclass(frozen=True)
class Wishes:
    """How long a campaign is, and what it tries."""

    runs: Optional[int] = 200
    """The most runs; None for no end but the time's."""
    steps: int = 50
    """The most inputs of a run."""
    seed: int = 0
    seconds: Optional[float] = None
    """The most seconds, but for shrinking."""
    robust: bool = False
    """Whether inputs that the specification refuses are tried too."""
    database: Optional[str] = None
    """The folder in which failing runs are kept; None for none."""


@composite
def numbers_up_to(draw: Callable[[SearchStrategy[int]], int], count: int) -> List[int]:
    """Up to so many numbers, each of which asks for an input. What is drawn doesn't depend on the system."""
    found: List[int] = []
    while len(found) < count:
        number = draw(NUMBER)
        if number == END:
            break
        found.append(number)
    return found


class Shrinking:
    """What is known while a failing run is made shorter."""

    def __init__(self, failure: Failure, numbers: Numbers) -> None:
        self.shortest = failure
        self.attempts = 0
        """How many further runs were made."""
        self._failing: Set[Numbers] = {numbers}
        self._passing: Set[Numbers] = set()
        self._until = time.monotonic() + SHRINK_SECONDS

    def is_wanted(self, numbers: Numbers) -> bool:
        """Whether these are to be played. What failed is: it has to fail again, or it is flaky."""
        return numbers in self._failing or numbers not in self._passing and not self.is_over()

    def is_over(self) -> bool:
        """Whether it takes too long."""
        return time.monotonic() >= self._until

    def add(self, numbers: Numbers, failure: Optional[Failure]) -> None:
        """Adds what came of them."""
        self.attempts += 1
        if failure is None:
            self._passing.add(numbers)
            return
        self._failing.add(numbers)
        if len(failure.reports) < len(self.shortest.reports):
            self.shortest = failure


class Campaign:
    """Many runs of a system."""

    def __init__(
        self,
        system: System,
        wishes: Wishes,
        is_cancelled: Callable[[], bool] = lambda: False,
        watch: Callable[[Result, int], None] = lambda result, attempts: None,
    ) -> None:
        """is_cancelled -- whether somebody else asks for the end.
        watch -- is called after each run with what came so far, and in how many runs the failing one was made shorter.
        """
        self._system, self._wishes = system, wishes
        self._is_cancelled, self._watch = is_cancelled, watch
        self._result = result_for(system.adapter, wishes.seed)
        self._tried: Counter[str] = Counter()
        self._is_making_new = False
        """Whether hypothesis makes runs that are new, and doesn't play kept ones or make one shorter."""
        self._shrinking: Optional[Shrinking] = None
        self._begun = time.monotonic()

    def play(self) -> Result:
        """Makes runs until one fails, and makes that one shorter; or until all were made, the time is over, or the user
        interrupts."""
        result, seeds = self._result, random.Random(self._wishes.seed)
        try:
            self._play_first()
            self._play_batch(seeds.getrandbits(64), Phase.reuse)
            self._is_making_new = True
            while not self._is_over():
                steps = result.steps
                self._play_batch(seeds.getrandbits(64), Phase.generate)
                if result.steps == steps:
                    break
        except KeyboardInterrupt:
            result.interrupted = True
            if self._shrinking is not None:
                self._found(self._shrinking.shortest, flaky=False)
        result.seconds = time.monotonic() - self._begun
        return result

    def _is_over(self) -> bool:
        wishes, result = self._wishes, self._result
        if self._shrinking is not None or result.stopped is not None or self._is_cancelled():
            return True
        if wishes.runs is not None and result.runs >= wishes.runs:
            return True
        return wishes.seconds is not None and time.monotonic() - self._begun >= wishes.seconds

    def _choices(self) -> Choices:
        return Choices(list(self._system.adapter.inputs), dict(self._tried), self._wishes.robust)

    # The run without an input.
    def _play_first(self) -> None:
        choices = self._choices()
        try:
            self._play_next(EMPTY, choices)
        except Failure as failure:
            try:
                self._play(EMPTY, choices)
            except Failure:
                self._found(failure, flaky=False)
            else:
                self._found(failure, flaky=True)

    def _play_batch(self, number: int, phase: Phase) -> None:
        wishes, choices = self._wishes, self._choices()
        left = BATCH if wishes.runs is None else min(BATCH, wishes.runs - self._result.runs)
        if self._is_over() or phase is Phase.reuse and wishes.database is None:
            return

        # `seed` takes the database from the settings below it, so they stand above.
        @settings(
            max_examples=left,
            phases=[phase, Phase.shrink],
            database=self._database(),
            deadline=None,
            suppress_health_check=list(HealthCheck),
            report_multiple_bugs=False,
            verbosity=Verbosity.quiet,
        )
        @seed(number)
        @given(numbers_up_to(wishes.steps))
        def play(numbers: List[int]) -> None:
            self._play_numbers(tuple(numbers), choices)

        try:
            play()
        except SkipTest:
            # There was no kept run.
            return
        except Failure as failure:
            assert self._shrinking is not None
            self._found(self._searched(failure, self._shrinking, choices), flaky=False)
        except Flaky:
            assert self._shrinking is not None
            self._found(self._shrinking.shortest, flaky=True)

    def _play_numbers(self, numbers: Numbers, choices: Choices) -> None:
        if self._shrinking is not None:
            if self._shrinking.is_wanted(numbers) and not self._is_cancelled():
                self._try_shorter(self._shrinking, numbers, choices)
        elif self._is_making_new and len(numbers) < self._wishes.steps:
            # hypothesis begins with the smallest runs, and gives that up where they aren't wanted.
            reject()
        elif not self._is_over():
            self._play_next(numbers, choices)
        self._watch(self._result, self._shrinking.attempts if self._shrinking is not None else 0)

    def _play_next(self, numbers: Numbers, choices: Choices) -> None:
        failure: Optional[Failure] = None
        try:
            self._play(numbers, choices)
        except Failure as error:
            failure = error
            self._shrinking = Shrinking(error, numbers)
        except (AdapterFault, Hung, ProgramFault, Fault) as error:
            self._result.stopped = stopped_by(error, self._system.run)
            return
        run = self._system.run
        assert run is not None
        self._result.add(run)
        self._tried.update(run.tried)
        if failure is not None:
            raise failure

    def _try_shorter(self, shrinking: Shrinking, numbers: Numbers, choices: Choices) -> None:
        try:
            self._play(numbers, choices)
        except Failure as failure:
            shrinking.add(numbers, failure)
            raise
        except (AdapterFault, Hung, ProgramFault, Fault):
            pass
        shrinking.add(numbers, None)

    # The failing run that hypothesis ends with, or a shorter one. What hypothesis leaves out doesn't lead to every shorter run
    # that fails, so the shortest runs are all tried.
    def _searched(self, failure: Failure, shrinking: Shrinking, choices: Choices) -> Failure:
        assert self._system.run is not None
        steps, waiting, left = len(self._system.run.tried), deque([EMPTY]), SEARCHED
        while waiting and len(waiting[0]) + 1 < steps:
            known = waiting.popleft()
            for number in range(1, len(self._system.adapter.inputs) + 1):
                if left == 0 or shrinking.is_over() or self._is_cancelled():
                    return failure
                left -= 1
                try:
                    self._try_shorter(shrinking, (*known, number), choices)
                except Failure as shorter:
                    return shorter
                if len(self._system.run.tried) == len(known) + 1:
                    waiting.append((*known, number))
        return failure

    def _play(self, numbers: Sequence[int], choices: Choices) -> None:
        def steps(run: Run) -> None:
            for number in numbers:
                allowed = run.allowed()
                if not allowed and not self._wishes.robust:
                    return
                event = choices.input(number, allowed)
                if event is not None:
                    run.do(event)

        self._system.play(steps)

    def _found(self, failure: Failure, flaky: bool) -> None:
        attempts = self._shrinking.attempts if self._shrinking is not None else 0
        self._result.finding = finding_of(failure, self._system.judges, attempts, flaky)

    def _database(self) -> Optional[FailingRuns]:
        if self._wishes.database is None:
            return None
        adapter, process = self._system.adapter, self._system.judges.specification.process
        return FailingRuns(self._wishes.database, [process, adapter.name, str(self._wishes.robust), *adapter.inputs])
