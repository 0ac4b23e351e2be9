"""A campaign as a file of JUnit: a test case for each run, with the shortest failing run as a failure."""
from __future__ import annotations

from html import escape
from typing import Sequence

from ..logs.junit import Case, JUnit, quoted
from ..logs.showing import printable
from .results import Result


class RunCase(Case):
    """A run as a test case."""

    def __init__(self, name: str, reports: int, text: str = "", lines: Sequence[str] = ()) -> None:
        """text -- what is wrong; empty where the run passed."""
        super().__init__(name)
        self.reports = reports
        self.rejected = int(bool(text))
        self._text, self._lines = text, lines

    def is_complete(self) -> bool:
        return True

    def written(self, suite: str) -> str:
        if not self._text:
            return super().written(suite)
        body = escape("\n" + "\n".join(printable(line) for line in self._lines) + "\n", quote=False)
        wrong = "<failure message=%s>%s</failure>" % (quoted(self._text), body)
        return '<testcase classname=%s name=%s assertions="%d">%s</testcase>\n' % (quoted(suite), quoted(self.name), self.reports, wrong)


def write_junit(junit: JUnit, result: Result) -> None:
    """Writes the file. The failing run is the last one; what ended the campaign, or why it says nothing, is an error."""
    lengths, finding, stopped = result.lengths, result.finding, result.stopped
    passed = len(lengths) - (1 if finding is not None and lengths else 0)
    for number in range(passed):
        junit.add(RunCase("run %d" % (number + 1), lengths[number]))
    if finding is not None:
        text = ("flaky: " if finding.flaky else "") + finding.text()
        junit.add(RunCase("failing run", len(finding.reports), text, finding.reports))
    problems = ["\n".join([stopped.text, *stopped.lines])] if stopped is not None else []
    if not problems and finding is None and result.not_judged():
        problems = [result.not_judged()]
    junit.close(problems)
