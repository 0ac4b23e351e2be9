"""A plugin for pytest: the fixture `monitor` judges what a test reports.

    @pytest.mark.cspwatch("turnstile.csp", "TURNSTILE")
    def test_turnstile(monitor):
        assert monitor.event("coin")

The script is looked for in the folder of the test, then in that of pytest's configuration. Tests that don't name one take the
settings `cspwatch_script`, `cspwatch_process` and `cspwatch_large`. Where a test fails, its report has the last reports that it
made, why the last one was rejected, and what may come next.
"""
from __future__ import annotations

import os
from typing import Generator, Iterable, List, Optional, Tuple

import pytest

from .replies import CspwatchError, Status, Verdict
from .running import Checker

LAST = 10
"""How many reports are shown of a test that failed."""

MARK = "cspwatch"
SCRIPT, PROCESS, LARGE = "cspwatch_script", "cspwatch_process", "cspwatch_large"


class Monitor:
    """What a test reports to, and what it has reported."""

    def __init__(self, checker: Checker) -> None:
        self._checker = checker
        self.last: List[Tuple[str, Optional[Verdict]]] = []
        """The last reports as lines, each with its verdict; None where there was none."""
        self.count = 0
        """How many reports were made."""

    def event(self, name: str) -> Verdict:
        """Reports that the event happened. `_tick` is termination."""
        self._report("E " + name)
        return self._judged(self._checker.event(name))

    def refusal(self, names: Iterable[str] = ()) -> Verdict:
        """Reports that the system refuses all of these events now."""
        given = names if isinstance(names, str) else list(names)
        self._report(" ".join(["R", *given]))
        return self._judged(self._checker.refusal(given))

    def next(self) -> Tuple[str, ...]:
        """The events that may come next."""
        return self._checker.next()

    def status(self) -> Status:
        """How many reports were judged so far, and how."""
        return self._checker.status()

    def _report(self, line: str) -> None:
        self.count += 1
        self.last = (self.last + [(line, None)])[-LAST:]

    def _judged(self, verdict: Verdict) -> Verdict:
        self.last[-1] = (self.last[-1][0], verdict)
        return verdict

    def told(self) -> str:
        """What is shown of a test that failed."""
        lines = ["the last %d of %d reports:" % (len(self.last), self.count)] if self.count > len(self.last) else ["%d reports:" % self.count]
        lines += ["  " + told_of(line, verdict) for line, verdict in self.last]
        try:
            lines.append("may come next: %s" % (" ".join(self.next()) or "nothing"))
        except CspwatchError as error:
            lines.append("what may come next isn't known: %s" % error)
        return "\n".join(shown(line) for line in lines)


def told_of(line: str, verdict: Optional[Verdict]) -> str:
    """A report with its verdict, and the reason of a rejected one."""
    if verdict is None:
        return "%s: not judged" % line
    if verdict.accepted or verdict.expected is None:
        return "%s: %s %d" % (line, "OK" if verdict.accepted else "NO", verdict.place)
    word = "expected" if line.startswith("E") else "may come"
    return "%s: NO %d, %s %s" % (line, verdict.place, word, " or ".join(verdict.expected) or "nothing")


def shown(line: str) -> str:
    """The line without characters that a terminal would obey."""
    return "".join(letter if letter.isprintable() else ascii(letter)[1:-1] for letter in line)


def pytest_addoption(parser: pytest.Parser) -> None:
    parser.addini(SCRIPT, "the script that `monitor` judges by, where a test names none")
    parser.addini(PROCESS, "its process")
    parser.addini(LARGE, "whether it has the limits for large systems", type="bool", default=False)


def pytest_configure(config: pytest.Config) -> None:
    config.addinivalue_line("markers", "%s(script, process, large=False): what the fixture `monitor` judges by" % MARK)


@pytest.fixture
def monitor(request: pytest.FixtureRequest) -> Generator[Monitor, None, None]:
    """A monitor of its own for the test: `event`, `refusal`, `next`, `status`."""
    script, process, large = specification_of(request)
    checker = Checker(script, process, large=large)
    found = Monitor(checker)
    request.node._cspwatch_monitor = found
    yield found
    checker.close()


def specification_of(request: pytest.FixtureRequest) -> Tuple[str, str, bool]:
    """The file of the script, the process, and whether it is large."""
    mark = request.node.get_closest_marker(MARK)
    config = request.config
    given = (str(config.getini(SCRIPT)), str(config.getini(PROCESS))) if mark is None else tuple(str(word) for word in mark.args)
    if len(given) != 2 or "" in given:
        raise pytest.UsageError("the fixture monitor needs @pytest.mark.cspwatch(SCRIPT, PROCESS), or the settings %s and %s" % (SCRIPT, PROCESS))
    large = bool(config.getini(LARGE)) if mark is None else bool(mark.kwargs.get("large", False))
    for folder in (os.path.dirname(str(request.path)), str(config.rootpath)):
        path = os.path.join(folder, given[0])
        if os.path.exists(path):
            return path, given[1], large
    raise pytest.UsageError("%s: there is no such script, neither beside the test nor in %s" % (given[0], config.rootpath))


@pytest.hookimpl(hookwrapper=True)
def pytest_runtest_makereport(item: pytest.Item, call: pytest.CallInfo[None]) -> Generator[None, object, None]:
    outcome = yield
    report = outcome.get_result()  # type: ignore[attr-defined]
    found = getattr(item, "_cspwatch_monitor", None)
    if report.when == "call" and report.failed and isinstance(found, Monitor):
        report.sections.append(("cspwatch", found.told()))
