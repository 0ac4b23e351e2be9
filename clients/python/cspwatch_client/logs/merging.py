"""Lines in the order of their times: of one log, or of several that are merged."""
from __future__ import annotations

import heapq
import time
from collections import deque
from typing import Deque, Dict, List, NamedTuple, Optional, Sequence, Set, Tuple

from .limits import TooLong, Watch
from .mapping import Rules, is_named
from .maps import Map, MapFault
from .reading import Line, Source
from .showing import Counts, Printer, place_of
from .times import SECOND, LogForm, Stamp, same_zones

MOST_WAITING = 50_000
"""The most lines of one log that wait for those of others. Nothing more is read of it then."""

NO_REPORT = -1
"""The rank of a line that reports nothing: it may come anywhere."""

BEFORE_ALL = -(1 << 80)
"""Where lines stand that come before the first time of their log."""


class Waiting(NamedTuple):
    """A line that waits for those of other logs."""

    time: int
    line: Line
    came: int
    """When it was read, by the clock of this machine, in nanoseconds."""


class Queue:
    """The lines of one log that wait."""

    def __init__(self, number: int, source: Source, form: LogForm) -> None:
        self.number, self.source, self.form = number, source, form
        self.lines: Deque[Waiting] = deque()
        self.last: Optional[int] = None
        """The greatest time of its lines."""
        self.is_late = False
        """Whether others went on without it."""
        self.is_undecided = False
        """Whether the order of its first line and that of another log's was decided by nothing."""


class Timeline:
    """Puts the lines of logs in the order of their times. Lines of one log keep their order."""

    def __init__(self, found: Map, rules: Rules, sources: Sequence[Source], follow: bool, printer: Printer, counts: Counts, watch: Watch) -> None:
        assert found.time is not None
        self.map, self.rules, self.form, self.follow = found, rules, found.time, follow
        self.printer, self.counts, self.watch = printer, counts, watch
        self.queues = [Queue(number, source, form_for(found, source.name)) for number, source in enumerate(sources)]
        self.by_source: Dict[Source, Queue] = {queue.source: queue for queue in self.queues}
        self.ranks = {number: rank for rank, number in enumerate(found.order)}
        self.latest: Optional[int] = None
        """The greatest time of a line that was given out."""
        self.behind: Optional[int] = None
        """How far the times of lines are behind the clock of this machine, at least."""

    def wanted(self, sources: Sequence[Source]) -> List[Source]:
        """Of which of these sources more is to be read now."""
        if self.follow:
            return [source for source in sources if len(self.by_source[source].lines) < MOST_WAITING]
        return [source for source in sources if not self.by_source[source].lines]

    def take(self, source: Source, lines: Sequence[Line]) -> None:
        """The next lines of a log."""
        queue = self.by_source[source]
        now = time.time_ns()
        for line in lines:
            self.watch.at = line
            try:
                at = self.time_of(queue, line)
            except TooLong as reason:
                self.counts.statuses.add(2)
                self.printer.message(line, "its time isn't known: %s" % reason)
                at = queue.last
            queue.lines.append(Waiting(BEFORE_ALL if at is None else at, line._replace(time=at), now))
        self.watch.at = None
        if queue.last is not None and lines:
            behind = now - queue.last
            self.behind = behind if self.behind is None else min(behind, self.behind)
            queue.is_late = False

    def time_of(self, queue: Queue, line: Line) -> Optional[int]:
        """The time of a line: its own, or that of the line before it where it has none or an earlier one."""
        text = queue.form.text(line.text, self.map.json)
        if text is None:
            return queue.last
        try:
            stamp = queue.form.format.read(text)
        except ValueError as error:
            if queue.last is None:
                raise unreadable(self.map, queue.form, line, text, error) from None
            self.counts.statuses.add(2)
            self.printer.message(line, "the time %r can't be read: %s" % (text, error))
            return queue.last
        if queue.last is not None and stamp.time < queue.last:
            self.goes_back(line, queue.last - stamp.time)
        else:
            queue.last = stamp.time
        return queue.last

    def goes_back(self, line: Line, step: int) -> None:
        """Counts a line that is earlier than one before it."""
        self.counts.back += 1
        if step > self.counts.back_step:
            self.counts.back_step, self.counts.back_at = step, place_of(line)

    def ready(self) -> List[Line]:
        """The lines that are next, as far as no log may have earlier ones."""
        found: List[Line] = []
        heads = [(queue.lines[0].time, queue.number) for queue in self.queues if queue.lines]
        heapq.heapify(heads)
        empty = {queue.number for queue in self.queues if not queue.lines and not queue.source.ended}
        now = time.time_ns()
        while heads and (not empty or self.is_due(heads[0][1], empty, now)):
            number = self.next_of(heads)
            queue = self.queues[number]
            waiting = queue.lines.popleft()
            found.append(self.given(queue, waiting))
            if queue.lines:
                heapq.heapreplace(heads, (queue.lines[0].time, number))
            else:
                heapq.heappop(heads)
                if not queue.source.ended:
                    empty.add(number)
        return found

    def is_due(self, number: int, empty: Set[int], now: int) -> bool:
        """Whether the first line of a log has waited long enough for logs that have none. They are said to be late then."""
        if not self.follow:
            return False
        if len(self.queues) > 1 and now - self.queues[number].lines[0].came < self.form.window:
            return False
        for other in empty - {number}:
            queue = self.queues[other]
            if not queue.is_late:
                queue.is_late = True
                self.printer.problem("%s lags: for %g s no line of it has come, and the others go on" % (queue.source.name, self.form.window / SECOND))
        return True

    def next_of(self, heads: List[Tuple[int, int]]) -> int:
        """The number of the log whose line is next; it becomes the first of the heap."""
        first = heads[0][0]
        if len(heads) == 1 or min(heads[1:3])[0] != first:
            return heads[0][1]
        tied = [number for at, number in heads if at == first]
        ranked = sorted((self.rank(self.queues[number].lines[0].line), number) for number in tied)
        least = ranked[0]
        if least[0] != NO_REPORT:
            equal = [number for rank, number in ranked if rank == least[0]]
            for number in equal if len(equal) > 1 else ():
                self.queues[number].is_undecided = True
        heads.remove((first, least[1]))
        heapq.heapify(heads)
        # Nothing is before it: the numbers of logs are not negative.
        heapq.heappush(heads, (first, -1))
        heads[0] = (first, least[1])
        return least[1]

    def given(self, queue: Queue, waiting: Waiting) -> Line:
        """Gives a line out."""
        if queue.is_undecided:
            self.counts.undecided += 1
            queue.is_undecided = False
        line = waiting.line
        if line.time is not None:
            if self.latest is not None and line.time < self.latest:
                self.goes_back(line, self.latest - line.time)
                return line._replace(time=self.latest)
            self.latest = line.time
        return line

    def rank(self, line: Line) -> int:
        """Where the map puts a line among those of the same time."""
        others = len(self.ranks)
        if self.map.json is not None:
            records = self.map.json.records(line.text)
            found = self.rules.match_fields(records[0], line.file) if records else None
        elif any(join.begin.search(line.text) or join.end.search(line.text) for join in self.map.joins):
            return others
        else:
            found = self.rules.match(line.text, line.file)
        if found is None or found[0] is None:
            return NO_REPORT
        return self.ranks.get(found[0].number, others)

    def passed(self) -> Optional[int]:
        """Up to which time no line can come any more, where logs are followed; None where that isn't known."""
        if self.behind is None:
            return None
        found = time.time_ns() - self.behind - self.form.window
        return min([found, *(queue.lines[0].time for queue in self.queues if queue.lines)])


def form_for(found: Map, name: str) -> LogForm:
    """How the lines of a log have their times."""
    assert found.time is not None
    for form in found.time.logs:
        if form.file is None or is_named(name, form.file):
            return form
    raise found.fault(("time",), "no pattern is for the log %s; write one without `file`, or [[time.log]]" % name)


def unreadable(found: Map, form: LogForm, line: Line, text: str, error: ValueError) -> MapFault:
    """The first time of a log can't be read."""
    return found.fault((*form.path, "format"), "%s: the time %r can't be read: %s" % (place_of(line), text, error))


def check_zones(found: Map, stamps: Sequence[Tuple[str, Stamp]]) -> None:
    """Finds logs whose times are of different zones.

    stamps -- the names of the logs, with the first stamp of each.
    """
    assert found.time is not None
    zones = [stamp.zone for _, stamp in stamps]
    if not found.time.any_zone and not same_zones(zones):
        told = ", ".join("%s has %s" % (name, stamp.zone or "none") for name, stamp in stamps)
        raise found.fault(("time", "format"), "the logs have different zones: %s; write `zones = \"any\"` where that is meant" % told)
