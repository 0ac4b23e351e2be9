"""What comes of a campaign."""
from __future__ import annotations

from array import array
from dataclasses import asdict, dataclass, field
from typing import Dict, Optional, Tuple

from ..logs.program import ProgramFault
from ..replies import Fault
from .adapters import Adapter
from .coverage import Coverage
from .judging import Judges
from .runs import Failure, Run

BAD_USE_STATUS, FILE_STATUS, LIMIT_STATUS = 2, 5, 6

ORDER = (1, 3, 5, 6, 2, 0)
"""Of several statuses, the first of these counts."""


@dataclass(frozen=True)
class Finding:
    """A failing run, as short as it was found."""

    kind: str
    """`may`, `must`, `taken` or `refused`."""
    meaning: str
    """What is wrong, in words."""
    reason: str
    """Why the last report is rejected, as `check --explain` says; empty where it doesn't."""
    reports: Tuple[str, ...]
    """Lines for `cspwatch check`, of which the last is rejected."""
    attempts: int
    """In how many further runs it was made shorter."""
    flaky: bool
    """Whether it passed when it was replayed."""

    def rank(self) -> Tuple[bool, int]:
        """What is less for a finding that says more."""
        return self.flaky, len(self.reports)

    def text(self) -> str:
        """What is wrong, and why, in one line."""
        return self.meaning + (": " + self.reason if self.reason else "")


def finding_of(failure: Failure, judges: Judges, attempts: int = 0, flaky: bool = False) -> Finding:
    """What is to be said of a failing run."""
    return Finding(failure.kind, failure.meaning, judges.reason(failure.reports), failure.reports, attempts, flaky)


@dataclass(frozen=True)
class Stopped:
    """What ended a campaign before its end: a fault of the adapter, of the program, or a limit."""

    text: str
    status: int
    lines: Tuple[str, ...] = ()
    """The reports of the run so far."""


def stopped_by(error: Exception, run: Optional[Run]) -> Stopped:
    """What is to be said where a run couldn't go on."""
    lines = tuple(run.lines) if run is not None else ()
    if isinstance(error, ProgramFault):
        return Stopped(str(error), error.status, lines)
    if isinstance(error, Fault):
        return Stopped("a limit was met: the next report was answered ERR %s" % error, LIMIT_STATUS, lines)
    if isinstance(error, OSError):
        return Stopped("%s: %s" % (error.filename, error.strerror), FILE_STATUS, lines)
    return Stopped(str(error), BAD_USE_STATUS, lines)


@dataclass
class Result:
    """What came of a campaign, or of a part of it."""

    coverage: Coverage
    has_outputs: bool
    seed: int = 0
    steps: int = 0
    """The inputs that were done or refused."""
    refused: int = 0
    """How many of them were refused."""
    outputs: int = 0
    lengths: "array[int]" = field(default_factory=lambda: array("L"))
    """How many reports each run had."""
    seconds: float = 0.0
    finding: Optional[Finding] = None
    stopped: Optional[Stopped] = None
    interrupted: bool = False

    @property
    def runs(self) -> int:
        return len(self.lengths)

    @property
    def reports(self) -> int:
        return sum(self.lengths)

    def add(self, run: Run) -> None:
        """Adds a run."""
        self.steps += len(run.tried)
        self.refused += run.refused
        self.outputs += run.outputs
        self.lengths.append(run.reports)
        self.coverage.add(run.events)

    def merge(self, other: Result) -> None:
        """Adds what another part came to; of several failing runs the shortest stays."""
        self.has_outputs = self.has_outputs or other.has_outputs
        self.steps += other.steps
        self.refused += other.refused
        self.outputs += other.outputs
        self.lengths.extend(other.lengths)
        self.seconds = max(self.seconds, other.seconds)
        self.coverage.merge(other.coverage)
        if self.finding is None or other.finding is not None and other.finding.rank() < self.finding.rank():
            self.finding = other.finding
        self.stopped = self.stopped or other.stopped
        self.interrupted = self.interrupted or other.interrupted

    def not_judged(self) -> str:
        """Why a campaign that found nothing says nothing; empty where it does."""
        if self.steps == 0:
            return "nothing was tested: the specification offered no input of the adapter"
        if self.steps == self.refused:
            return "nothing was tested: the system refused every input"
        if self.has_outputs and self.outputs == 0:
            return "no output was tested: observe() gave none"
        return ""

    def status(self) -> int:
        """The exit status."""
        found = {1} if self.finding is not None else set()
        if self.stopped is not None:
            found.add(self.stopped.status)
        if self.not_judged():
            found.add(BAD_USE_STATUS)
        return next((status for status in ORDER if status in found), 0)

    def as_json(self) -> Dict[str, object]:
        """The same for other programs."""
        counts = {"runs": self.runs, "steps": self.steps, "refused": self.refused, "outputs": self.outputs, "reports": self.reports}
        return {
            "status": self.status(),
            "seed": self.seed,
            "seconds": round(self.seconds, 3),
            **counts,
            "interrupted": self.interrupted,
            "coverage": self.coverage.as_json(),
            "not_judged": self.not_judged() or None,
            "found": asdict(self.finding) if self.finding is not None else None,
            "stopped": asdict(self.stopped) if self.stopped is not None else None,
        }


def result_for(adapter: Adapter, seed: int) -> Result:
    """The result of a campaign that hasn't begun."""
    return Result(Coverage((*adapter.inputs, *adapter.outputs)), bool(adapter.outputs), seed)
