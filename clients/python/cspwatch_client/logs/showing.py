"""What is printed: a line for each rejected report, what wasn't judged, and the counts."""
from __future__ import annotations

import re
from dataclasses import dataclass, field
from typing import List, Set, TextIO

from .links import Sent, Ticks
from .reading import Line
from .times import SECOND, shown

SHOWN = 1000
"""The most characters of a log's line that are kept and printed."""

MOST_MESSAGES = 20
"""How many messages on lines that weren't judged are printed. Further ones are only counted."""

CONTROLS = re.compile("[\\x00-\\x08\\x0a-\\x1f\\x7f-\\x9f\u200e\u200f\u2028-\u202e\u2066-\u2069\ud800-\udfff\ufeff\ufffe\uffff]")
"""Characters that a terminal would obey (those that turn the direction of writing too), or that a page of XML can't have."""

ORDER = (4, 5, 1, 6, 2, 0)
"""Of several statuses, the first of these counts."""


def kept(line: Line) -> Line:
    """The line with no more of its text than is printed."""
    if len(line.text) <= SHOWN:
        return line
    return line._replace(text="%s … (%d characters)" % (line.text[:SHOWN], len(line.text)))


def printable(text: str) -> str:
    """The text without characters that a terminal would obey."""
    return CONTROLS.sub(lambda found: ("\\x%02x" if found[0] < "\u0100" else "\\u%04x") % ord(found[0]), text)


def place_of(line: Line) -> str:
    """Where the line stands."""
    return "%s:%d" % (printable(line.file), line.number)


def verdict(sent: Sent, is_first: bool = False) -> str:
    """A rejected report, and why where that is known.

    is_first -- whether it is marked as the first of its session.
    """
    more = sent.times - sent.passed() - 1
    marks = (" (first)" if is_first else "") + (" (and %d more)" % more if more else "")
    return "%s: NO %s%s%s" % (sent.report.line, sent.place, marks, ", " + sent.reason if sent.reason else "")


def tick_line(sent: Ticks) -> Line:
    """What is shown as the line of a tick that was rejected: its time, and the line before which it was due."""
    return sent.line._replace(text="tick at %s, before: %s" % (shown(sent.first + sent.passed() * sent.length), sent.line.text))


@dataclass
class Counts:
    """How many lines and reports there were, by what became of them."""

    lines: int = 0
    reports: int = 0
    """All reports that a rule made; those that were not judged among them."""
    accepted: int = 0
    rejected: int = 0
    not_judged: int = 0
    lost: int = 0
    """Reports that were judged, and whose verdicts were lost with a connection."""
    kept: int = 0
    """Reports that an earlier run had judged, as its state says."""
    earlier: int = 0
    """Reports that stood in the history already, and weren't sent."""
    ignored: int = 0
    joined: int = 0
    """First halves of joined lines."""
    without_rule: int = 0
    first_without_rule: str = ""
    """Where the first line without a rule stands."""
    outside: int = 0
    """Lines of no session: before the event that begins one, or after its end."""
    sessions: int = 0
    bad_sessions: int = 0
    """Sessions with a rejected report."""
    after_no: int = 0
    """Reports after the first rejected one of a session that isn't judged any more then."""
    skipped: int = 0
    """Lines before the one from which on it is judged."""
    taken_anew: int = 0
    """Places that were taken before they were given back."""
    back: int = 0
    """Lines that are earlier than one before them."""
    back_step: int = 0
    """By how much at most, in nanoseconds."""
    back_at: str = ""
    """Where the line stands that goes back the most."""
    undecided: int = 0
    """Lines of one time whose order was decided by nothing."""
    cut: int = 0
    """Lines that were longer than they may be."""
    unread: int = 0
    """Lines with bytes that are no text."""
    after_gap: int = 0
    """Rejected reports of a session after an event of it that wasn't judged."""
    statuses: Set[int] = field(default_factory=set)
    """The statuses that something asks for."""

    def status(self) -> int:
        """The status of the run."""
        return next((status for status in ORDER if status in self.statuses), 0)

    def judged(self) -> int:
        """How many reports were judged, those that stood in the history among them."""
        return self.accepted + self.rejected + self.lost + self.earlier + self.kept

    def text(self, in_sessions: bool) -> str:
        """The last line of a run."""
        first = "%d lines, %d reports: %d accepted, %d rejected, %d not judged" % (
            self.lines,
            self.reports,
            self.accepted,
            self.rejected,
            self.not_judged,
        )
        named = [(self.after_gap, "rejected after an event that was not judged"), (self.lost, "whose verdict was lost")]
        named += [(self.earlier, "in the history before")]
        parts = ["%d %s" % pair for pair in [pair for pair in named if pair[0]] + [(self.ignored, "ignored"), (self.without_rule, "without a rule")]]
        if self.first_without_rule:
            parts[-1] += " (first: %s)" % self.first_without_rule
        more = [(self.after_no, "after a NO"), (self.joined, "joined"), (self.skipped, "before the first that is judged")]
        more += [(self.outside, "outside a session"), (self.taken_anew, "places taken anew"), (self.cut, "cut")]
        more += [(self.unread, "with bytes that are no text")]
        parts += ["%d %s" % pair for pair in more if pair[0]]
        if self.back:
            parts.append("%d went back in time, by up to %g s (%s)" % (self.back, self.back_step / SECOND, self.back_at))
        if self.undecided:
            parts.append("%d whose order nothing decided" % self.undecided)
        if in_sessions:
            parts.append("%d sessions, %d with a rejected report" % (self.sessions, self.bad_sessions))
        return "%s; %s" % (first, ", ".join(parts))


class Printer:
    """Prints on two streams: verdicts on one, what is wrong on the other."""

    def __init__(self, out: TextIO, errors: TextIO, quiet: bool, annotations: bool) -> None:
        self.out, self.errors = out, errors
        self.quiet, self.annotations = quiet, annotations
        self.messages = 0

    def rejected(self, line: Line, session: str, said: str) -> None:
        """A rejected report, with its line below it.

        said -- the verdict.
        """
        text = (session + ": " if session else "") + said
        print("%s: %s" % (place_of(line), printable(text)), file=self.out)
        if not self.quiet:
            print("    " + printable(line.text), file=self.out)
        if self.annotations:
            self.annotate("error", line, text)

    def not_judged(self, line: Line, session: str, text: str) -> None:
        """A report that wasn't judged, and why."""
        self.message(line, (session + ": " if session else "") + text)

    def without_rule(self, line: Line) -> None:
        """A line that no rule takes, where there is to be none."""
        self.message(line, "no rule takes this line: " + line.text)

    def message(self, line: Line, text: str) -> None:
        self.messages += 1
        if self.messages <= MOST_MESSAGES:
            print("%s: %s" % (place_of(line), printable(text)), file=self.errors)
            if self.annotations:
                self.annotate("warning", line, text)
        elif self.messages == MOST_MESSAGES + 1:
            print("further lines that were not judged are only counted", file=self.errors)

    def annotate(self, kind: str, line: Line, text: str) -> None:
        """The same as an annotation of GitHub."""
        words = "file=%s,line=%d,title=cspwatch" % (escaped(printable(line.file), in_field=True), line.number)
        print("::%s %s::%s" % (kind, words, escaped(printable(text), in_field=False)), file=self.out)

    def coverage(self, never_came: List[str], unused: List[int], map_file: str) -> None:
        """Which events never came, and which rules took no line."""
        print("never came: %s" % (" ".join(never_came) or "none"), file=self.out)
        print("rules that took no line: %s" % (", ".join("%s:%d" % (printable(map_file), line) for line in unused) or "none"), file=self.out)

    def counts(self, counts: Counts, in_sessions: bool) -> None:
        if not self.quiet:
            print(counts.text(in_sessions), file=self.out)

    def problem(self, text: str) -> None:
        """What is wrong with the whole run. It may have several lines."""
        print("\n".join(printable(line) for line in text.split("\n")), file=self.errors)

    def flush(self) -> None:
        self.out.flush()


def escaped(text: str, in_field: bool) -> str:
    """The text as an annotation has it."""
    for plain, code in (("%", "%25"), ("\r", "%0D"), ("\n", "%0A")) + ((((":", "%3A"), (",", "%2C"))) if in_field else ()):
        text = text.replace(plain, code)
    return text
