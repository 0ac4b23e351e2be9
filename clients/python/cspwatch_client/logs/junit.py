"""Verdicts as a file of JUnit: a test case for each session, a failure for each rejected report."""
from __future__ import annotations

import os
import tempfile
from collections import deque
from html import escape
from typing import Deque, List, Sequence

from .reading import Line
from .showing import place_of, printable

AROUND = 3
"""How many lines of the log are shown before and after the one of a rejected report."""

MOST_FAILURES = 100
"""The most failures of a test case that are written in full. Further ones are counted."""


def quoted(text: str) -> str:
    """The text as the value of an attribute."""
    return '"%s"' % escape(printable(text))


class Context:
    """The lines that were read last, among them all those whose reports wait for an answer."""

    def __init__(self, window: int) -> None:
        self.lines: Deque[Line] = deque(maxlen=window + 2 * AROUND + 1)
        self.read = 0
        """How many lines were read."""
        self.unfinished: List[Failure] = []

    def add(self, line: Line) -> None:
        self.lines.append(line)
        self.read += 1
        if self.unfinished:
            self.complete(False)

    def failure(self, kind: str, index: int, line: Line, text: str) -> Failure:
        """A failure at the line with this number among all that were read; the lines after it are added as they come."""
        failure = Failure(kind, index, line, text)
        self.unfinished.append(failure)
        self.complete(False)
        return failure

    def complete(self, is_end: bool) -> None:
        """Gives the failures the lines around theirs, once those have been read."""
        for failure in self.unfinished:
            if is_end or self.read > failure.index + AROUND:
                failure.lines, failure.complete = self.around(failure.index, failure.line), True
        self.unfinished = [failure for failure in self.unfinished if not failure.complete]

    def around(self, index: int, line: Line) -> List[str]:
        first = self.read - len(self.lines)
        begin, end = max(0, index - AROUND - first), index + AROUND + 1 - first
        near = [self.lines[at] for at in range(begin, min(end, len(self.lines)))]
        return ["%s %d: %s" % (">" if one.number == line.number else " ", one.number, one.text) for one in near if one.file == line.file]


class Failure:
    """A rejected report, or one that wasn't judged."""

    def __init__(self, kind: str, index: int, line: Line, text: str) -> None:
        self.kind, self.index, self.line, self.text = kind, index, line, text
        self.lines: List[str] = []
        self.complete = False
        """Whether the lines around it are known."""

    def written(self) -> str:
        """The failure as an element."""
        message = quoted("%s: %s" % (place_of(self.line), self.text))
        body = "\n".join(printable(line) for line in self.lines)
        return "<%s message=%s>%s</%s>" % (self.kind, message, escape("\n" + body + "\n", quote=False), self.kind)


class Case:
    """A test case: a session, or the whole run."""

    def __init__(self, name: str) -> None:
        self.name = name
        self.reports = 0
        self.rejected = 0
        self.not_judged = 0
        self.after_no = 0
        """Reports after the first rejected one, where they aren't judged."""
        self.failures: List[Failure] = []

    def add(self, failure: Failure) -> None:
        self.rejected += failure.kind == "failure"
        self.not_judged += failure.kind == "error"
        if len(self.failures) < MOST_FAILURES:
            self.failures.append(failure)

    def is_empty(self) -> bool:
        """Whether nothing was judged, and nothing was to be judged: this has neither passed nor failed."""
        return self.reports == 0 and not self.failures

    def is_complete(self) -> bool:
        """Whether the lines around each failure are known."""
        return all(failure.complete for failure in self.failures)

    def written(self, suite: str) -> str:
        """The case as an element."""
        parts = [failure.written() for failure in sorted(self.failures, key=lambda failure: failure.index)]
        more = self.rejected + self.not_judged - len(self.failures)
        if more:
            parts.append("<system-out>%d more were rejected or not judged</system-out>" % more)
        if self.is_empty():
            parts.append('<skipped message="no report of it was judged in this run"/>')
        if self.after_no:
            parts.append("<system-out>%d reports after the first NO were not judged</system-out>" % self.after_no)
        names = quoted(suite), quoted(self.name), self.reports
        return "<testcase classname=%s name=%s assertions=\"%d\">%s</testcase>\n" % (*names, "\n".join(parts))


class JUnit:
    """Writes the file. Cases wait in a file of their own until all are known, so memory doesn't grow with them."""

    def __init__(self, path: str, suite: str) -> None:
        """Opens the file, so that a run doesn't begin whose result can't be written. `OSError` where that fails."""
        self.suite = suite
        self.file = open(path, "w", encoding="utf-8", errors="backslashreplace")
        self.cases = tempfile.TemporaryFile("w+", encoding="utf-8", errors="backslashreplace")
        self.ended: List[Case] = []
        """Cases that wait for the lines around their failures."""
        self.tests = self.failed = self.not_judged = self.skipped = 0

    def add(self, case: Case) -> None:
        """A case that has ended."""
        self.tests += 1
        self.failed += case.rejected > 0
        self.not_judged += case.rejected == 0 and case.not_judged > 0
        self.skipped += case.is_empty()
        self.ended.append(case)
        self.write_complete()

    def write_complete(self) -> None:
        """Writes the cases that wait for nothing."""
        for case in self.ended:
            if case.is_complete():
                self.cases.write(case.written(self.suite))
        self.ended = [case for case in self.ended if not case.is_complete()]

    def write_problems(self, problems: Sequence[str]) -> None:
        """What is wrong with the whole run, as errors of a case of their own."""
        if problems:
            self.tests += 1
            self.not_judged += 1
            errors = "\n".join("<error message=%s/>" % quoted(problem) for problem in problems)
            self.cases.write('<testcase classname=%s name="run" assertions="0">%s</testcase>\n' % (quoted(self.suite), errors))

    def close(self, problems: Sequence[str]) -> None:
        """Writes the file. All failures are complete by now.

        problems -- what is wrong with the whole run.
        """
        self.write_complete()
        self.write_problems(problems)
        name = quoted(self.suite)
        counts = 'tests="%d" failures="%d" errors="%d"' % (self.tests, self.failed, self.not_judged)
        counts += ' skipped="%d"' % self.skipped if self.skipped else ""
        with self.file as file, self.cases as cases:
            file.write('<?xml version="1.0" encoding="UTF-8"?>\n<testsuites>\n<testsuite name=%s %s>\n' % (name, counts))
            cases.seek(0)
            while part := cases.read(1 << 16):
                file.write(part)
            file.write("</testsuite>\n</testsuites>\n")


def suite_of(map_file: str) -> str:
    """The name of the suite of a map: its file's name without its ending."""
    return os.path.splitext(os.path.basename(map_file))[0]
