"""A run: lines become reports, reports are sent to what judges, and verdicts are shown in the order of the lines."""
from __future__ import annotations

from collections import deque
from dataclasses import dataclass
from typing import Any, Callable, Deque, Dict, Iterable, List, Optional, Sequence, Set, Tuple, Union

from .junit import Context, JUnit
from .limits import TooLong, Watch
from .links import UNJUDGED, Block, Connection, Link, Links, Lost, Sent, Ticks
from .mapping import Joiner, Report, Rules, Unmapped
from .maps import STOP, Found, Map, Reported, Rule
from .merging import Timeline
from .places import Groups, Places
from .reading import Line, Source
from .record import Record
from .sessions import Session, Sessions
from .showing import SHOWN, Counts, Printer, kept, place_of, tick_line, verdict
from .ticking import MOST_TICKS, SLICE, Clock

AHEAD = 32768
"""The most reports that are sent ahead of their replies, of all sessions together."""

BATCH = 16384
"""How many reports of many sessions are gathered, while there is more to be read: a large write for each costs less than many."""

WINDOW = 32768
"""The most lines that are read after one whose report waits for its reply."""

WAIT_SECONDS = 1
"""How long replies are waited for before it is looked whether a reason has been waited for long enough."""

NO_GROUPS: Groups = {}

LOST_STATUSES = {3: 3, 6: 6}
"""The statuses of a `check` that ended early which become the run's; any other is 5."""


@dataclass
class Wanted:
    """What a run is to do beside judging."""

    strict: bool = False
    first: bool = False
    coverage: bool = False
    at_least: int = 1
    """How many reports have to be judged."""
    skip: int = 0
    """How many reports stand in the history already."""
    junit: Optional[JUnit] = None
    record: Optional[Record] = None
    come_back: Optional[Callable[[Callable[[], bool]], Connection]] = None
    """Opens a connection again, as the same seat, until somebody asks for the end. None where one that is lost isn't opened again."""
    clock: Optional[Clock] = None
    """The ticks that are reported; None where there are none."""
    is_served: bool = False
    """Whether a server judges, whose history others may report to."""


class Run:
    """A run over lines."""

    def __init__(self, rules: Rules, start: Callable[[], Link], printer: Printer, wanted: Wanted) -> None:
        """start -- starts what judges a session."""
        self.rules, self.start, self.printer, self.wanted = rules, start, printer, wanted
        self.junit = wanted.junit
        self.map: Map = rules.map
        self.joiner = Joiner(self.map.joins)
        self.links = Links()
        self.counts = Counts()
        self.order: Deque[Union[Sent, Session]] = deque()
        """The reports without a complete answer in the order of their lines, and sessions where they end."""
        self.sessions = Sessions(self.map)
        self.by_link: Dict[Link, Session] = {}
        self.context = Context(WINDOW + AHEAD) if self.junit is not None else None
        self.came: Set[str] = set()
        """The events that were accepted."""
        self.is_asked: Callable[[], bool] = lambda: False
        """Whether somebody asks for the end."""
        self.problems: List[str] = []
        """What is wrong with the whole run."""
        self.is_broken = False
        """Whether something failed, so that the run couldn't go on."""
        self.stopped = False
        """Whether no more lines are wanted."""
        self.block: Optional[Block] = None
        """The reports that are gathered, where there is one session; None where each is sent alone."""
        self.plain: Dict[int, Report] = {}
        """What lines of some rules always are, where nothing else follows from them; by the numbers of the rules."""
        self.watch = Watch()
        self.timeline: Optional[Timeline] = None
        """What puts lines in the order of their times; None where they come in the order of the logs."""
        self.last_line: Optional[Line] = None
        """The line that came last, where there are ticks."""
        if self.sessions.single is not None:
            self.open(self.sessions.single).split = self.split
            if self.wanted.record is None and self.wanted.come_back is None:
                self.block = Block(self.sessions.single)
            if self.map.skip_until is None and self.wanted.clock is None and not self.sessions.may_end:
                self.plain = self.rules.plain()

    def take_from(self, source: Source, lines: Sequence[Line]) -> None:
        """The next lines of a log."""
        if self.timeline is None:
            self.take(lines)
        else:
            self.timeline.take(source, lines)

    def take_ready(self) -> None:
        """The lines that are next by their times, and the ticks of a silence."""
        timeline = self.timeline
        if timeline is None:
            return
        while lines := timeline.ready():
            self.take(lines)
        passed = timeline.passed() if timeline.follow and self.wanted.clock is not None else None
        if passed is not None:
            self.tick_all(passed)

    def take(self, lines: Sequence[Line]) -> None:
        """The next lines."""
        counts, context, watch = self.counts, self.context, self.watch
        for line in lines:
            counts.lines += 1
            if context is not None:
                context.add(kept(line))
            watch.at = line
            try:
                self.take_line(line)
            except TooLong as reason:
                self.not_mapped(line, NO_GROUPS, str(reason), True)
        watch.at = None
        self.send_block()
        if lines and self.wanted.clock is not None:
            self.last_line = kept(lines[-1])
        if self.sessions.single is not None or len(self.order) >= BATCH:
            self.pump(0)
        while self.is_far_ahead():
            self.pump(WAIT_SECONDS)

    def take_line(self, line: Line) -> None:
        """The next line, as the map reads it."""
        if self.map.json is not None:
            self.take_fields(line)
        elif self.map.joins:
            self.take_joined(line)
        else:
            found = self.rules.match(line.text, line.file)
            plain = self.plain.get(found[0].number) if found is not None and found[0] is not None else None
            if plain is not None:
                self.send(line, self.sessions.single, plain)
            else:
                self.take_match(line, found)

    def take_fields(self, line: Line) -> None:
        """A line of JSON, in which there may be several that stand for lines."""
        assert self.map.json is not None
        records = self.map.json.records(line.text)
        for record in records:
            self.take_match(line, self.rules.match_fields(record, line.file))
        if not records:
            self.take_match(line, None)

    def take_joined(self, line: Line) -> None:
        """A line that may belong together with another one."""
        text = self.joiner.line(line.text, line.file)
        if isinstance(text, str):
            if text is not line.text:
                line = line._replace(text=text)
            self.take_match(line, self.rules.match(text, line.file))
            return
        join, match = text
        self.counts.joined += 1
        if join.rule is not None:
            self.rules.used[join.rule.number] = True
            self.take_rule(line, join.rule, match.groupdict())

    def take_match(self, line: Line, found: Optional[Tuple[Optional[Rule], Found]]) -> None:
        """A line with the rule that takes it."""
        if found is None:
            self.counts.without_rule += 1
            self.counts.first_without_rule = self.counts.first_without_rule or place_of(line)
            if self.wanted.strict:
                self.counts.statuses.add(2)
                self.printer.without_rule(kept(line))
            return
        rule, match = found
        if rule is None:
            self.counts.ignored += 1
            return
        self.take_rule(line, rule, match.groupdict() if rule.pattern.groupindex else NO_GROUPS)

    def take_rule(self, line: Line, rule: Rule, groups: Groups) -> None:
        """A line that a rule takes."""
        if self.map.skip_until is not None and self.sessions.is_skipped(rule, groups):
            self.counts.skipped += 1
            return
        for reported in rule.reports:
            self.take_report(line, reported, groups)
        if not rule.reports:
            self.counts.ignored += 1
        if rule.frees:
            session = self.sessions.open.get(self.sessions.key(groups) or "")
            if session is not None:
                session.places.free(rule.frees, groups)

    def take_report(self, line: Line, reported: Reported, groups: Groups) -> None:
        """One of the reports of a line."""
        sessions = self.sessions
        try:
            session, report, ended = sessions.found(reported, groups, self.rules)
        except Unmapped as reason:
            self.not_mapped(line, groups, str(reason), reported.event is not None)
            return
        if not sessions.is_open(session):
            if report.line == "":
                self.counts.outside += 1
                return
            if ended is not None:
                self.end(ended)
            sessions.begins(session)
        if session.places.notes:
            self.say_notes(line, session)
        if self.wanted.clock is not None and line.time is not None:
            self.tick(session, line, line.time)
            session.quiet = 0
            session.silence += 1
        self.send(line, session, report)
        if sessions.may_end and report.event is not None:
            is_last = sessions.is_last(session, report.event, groups)
            session.places.after(report.event, groups)
            if is_last:
                self.end(session)

    def say_notes(self, line: Line, session: Session) -> None:
        """Says which places were taken anew."""
        for note in session.places.notes:
            self.counts.taken_anew += 1
            self.printer.message(line, note)
        session.places.notes.clear()

    def tick(self, session: Session, line: Line, time: int) -> None:
        """Reports the ticks that are due in the session before the line."""
        clock = self.wanted.clock
        assert clock is not None
        before = session.ticked
        count = clock.due(session, time)
        if count == 0 or before is None or (session.is_refused() and not self.wanted.is_served):
            return
        if count > MOST_TICKS:
            self.counts.statuses.add(2)
            self.printer.message(line, "%d ticks are due before this line, and the first %d of them are reported" % (count, MOST_TICKS))
            count = MOST_TICKS
        session.quiet += count
        self.watch.at = None
        self.send_block()
        shown = kept(line)
        # Those of a connection that may be lost are sent one by one, since each is answered or not.
        length = SLICE if self.wanted.come_back is None else 1
        for first in range(0, count, length):
            times = min(length, count - first)
            ticks = Ticks(clock.report, shown, self.counts.lines - 1, session, times)
            ticks.first, ticks.length, ticks.silence = (before + 1 + first) * clock.length, clock.length, session.silence
            self.send_report(ticks)
            while count > SLICE and self.order and not self.stopped:
                self.pump(WAIT_SECONDS)
            if session.is_refused() and not self.wanted.is_served:
                # A tick that was rejected has changed nothing, so those that follow it would be rejected too.
                return

    def tick_all(self, time: int) -> None:
        """Reports the ticks that are due by now in all open sessions, where no line has come."""
        if self.wanted.clock is not None and self.last_line is not None:
            for session in list(self.sessions.open.values()):
                if session.ticked is not None:
                    self.tick(session, self.last_line, time)

    def open(self, session: Session) -> Link:
        """Starts what judges the session."""
        session.link = link = self.start()
        self.by_link[link] = session
        self.links.add(link)
        self.counts.sessions += 1
        return link

    def send(self, line: Line, session: Optional[Session], report: Report) -> None:
        """Sends a report; where there is one session, with those that come next."""
        counts = self.counts
        if self.block is not None and counts.earlier == self.wanted.skip:
            counts.reports += 1
            self.block.add(report, line if len(line.text) <= SHOWN else kept(line), counts.lines - 1)
        else:
            self.send_alone(line, session, report)

    def send_block(self) -> None:
        """Sends the reports that were gathered."""
        block = self.block
        if block is not None and block.reports:
            self.block = Block(block.session)
            block.close()
            self.counts.reports -= block.times
            self.send_report(block)

    def split(self, block: Block, parts: List[Sent]) -> None:
        """A block has become parts, which take its place."""
        order = list(self.order)
        at = order.index(block)
        self.order = deque([*order[:at], *parts, *order[at + 1 :]])

    def send_alone(self, line: Line, session: Optional[Session], report: Report) -> None:
        self.send_report(Sent(report, line if len(line.text) <= SHOWN else kept(line), self.counts.lines - 1, session))

    def send_report(self, sent: Sent) -> None:
        """Sends a report, or several that are alike."""
        counts, session = self.counts, sent.session
        assert isinstance(session, Session)
        counts.reports += sent.times
        if counts.earlier < self.wanted.skip:
            counts.earlier += sent.times
            if counts.earlier <= self.wanted.skip:
                return
            sent.times = counts.earlier - self.wanted.skip
            counts.earlier = self.wanted.skip
        self.order.append(sent)
        if session.stopped:
            sent.done = True
            return
        link = session.link or self.open(session)
        link.send(sent)
        self.links.dirty.add(link)

    def end(self, session: Session) -> None:
        """Sends nothing more for the session. Its end is shown after its last verdict."""
        self.sessions.ended(session)
        if session.link is not None:
            session.link.finish()
            if session.link.outgoing:
                self.links.dirty.add(session.link)
            self.order.append(session)

    def settle(self) -> bool:
        """Waits until all that was sent is answered. Answers whether it is."""
        while self.order and not self.stopped and not self.is_asked():
            self.pump(WAIT_SECONDS)
        return not self.order

    def kept(self) -> Any:
        """What is known of earlier lines, as it is kept in a file."""
        session = self.sessions.single
        assert session is not None
        return [session.places.kept(), self.joiner.kept(), session.kept(), sorted(self.sessions.judged)]

    def restore(self, kept: Any, gap: str) -> None:
        """Takes what an earlier run kept."""
        session = self.sessions.single
        assert session is not None
        session.places.restore(kept[0])
        self.joiner.restore(kept[1])
        session.restore(kept[2])
        self.sessions.judged.update(kept[3])
        session.gap = gap

    def not_mapped(self, line: Line, groups: Groups, reason: str, is_event: bool) -> None:
        """A line of which a rule makes nothing that can be judged."""
        key = self.sessions.key(groups) or ""
        self.send_block()
        self.counts.reports += 1
        session = self.sessions.open.get(key) or Session(key, Places({}))
        self.order.append(Sent.unjudged(kept(line), self.counts.lines - 1, session, reason, is_event))

    def is_far_ahead(self) -> bool:
        """Whether replies have to be waited for before more is read."""
        if self.stopped or not self.order:
            return False
        front = self.order[0]
        return len(self.order) > AHEAD or isinstance(front, Sent) and self.counts.lines - front.index > WINDOW

    def pump(self, seconds: float, also: Sequence[int] = ()) -> None:
        """Writes and reads what it can, waits so long for anything, and shows the verdicts that are complete."""
        for link in self.links.pump(seconds, also):
            self.link_ended(link)
        self.show()
        if self.wanted.record is not None:
            self.wanted.record.flush()

    def link_ended(self, link: Link) -> None:
        """Nothing more comes from this one. `Lost` where it should have answered more."""
        session = self.by_link.pop(link)
        status = link.status()
        if link.waiting or not (link.finishing or self.stopped):
            link.split_first()
            self.show()
            if self.wanted.come_back is not None and isinstance(link, Connection):
                self.replace(link, self.wanted.come_back(self.is_asked), session)
                return
            said = "\n".join(link.errors) or ("it ended with status %d" % status if status is not None else "the connection has ended")
            count = link.unanswered()
            text = "%s: %s" % (link.name, said) if not link.errors else said
            raise Lost("%s (%d reports were not answered)" % (text, count) if count else text, LOST_STATUSES.get(status or 0, 5))
        link.close()
        session.is_over = True

    def replace(self, lost: Connection, found: Connection, session: Session) -> None:
        """Goes on over another connection. What the server has judged isn't sent again; its verdicts were lost."""
        lost.close()
        known = lost.reported + lost.judged
        if not known <= found.reported <= known + len(lost.waiting):
            found.close()
            raise Lost("%s: the history has %d reports of the seat, and not the %d of this run" % (found.name, found.reported, known))
        for number in range(known + 1, found.reported + 1):
            sent = lost.waiting.popleft()
            sent.done, sent.number_lost = True, number
        session.link = found
        self.by_link[found] = session
        self.links.add(found)
        for sent in lost.waiting:
            found.send(sent)
        self.links.dirty.add(found)
        if lost.finishing:
            found.finish()

    def show(self) -> None:
        """Shows the verdicts from the front on that are complete."""
        order = self.order
        while order and not self.stopped:
            front = order[0]
            if isinstance(front, Session):
                if not front.is_over:
                    return
                self.session_over(front)
            elif not front.is_complete():
                return
            else:
                self.show_sent(front)
            order.popleft()

    def show_sent(self, sent: Sent) -> None:
        session = sent.session
        assert isinstance(session, Session)
        sent.after_no = session.stopped
        is_new = self.wanted.record is None or self.wanted.record.add(sent, session.name)
        session.case.reports += sent.times
        if sent.after_no:
            self.counts.after_no += sent.times
            session.case.after_no += sent.times
            return
        self.counts.accepted += sent.passed()
        if sent.accepted:
            reports = sent.reports if isinstance(sent, Block) else [sent.report]
            self.came.update([report.event for report in reports if report.event is not None])
            return
        if sent.number_lost:
            self.lost(sent, session)
            return
        if sent.fault:
            self.counts.not_judged += sent.times - sent.passed()
            self.counts.statuses.add(sent.status)
            if sent.report.event is not None:
                session.gap = session.gap or place_of(sent.line)
            text = "not judged: " + ("%s: ERR %s" % (sent.report.line, sent.fault) if sent.report.line else sent.fault)
            if is_new:
                self.printer.not_judged(sent.line, session.name, text)
            self.add_failure("error", sent, session, text)
        else:
            self.show_rejected(sent, session, is_new)

    def show_rejected(self, sent: Sent, session: Session, is_new: bool) -> None:
        """Shows a report that was rejected."""
        if isinstance(sent, Ticks):
            is_new = is_new and session.refused_in != sent.silence
            session.refused_in = sent.silence
            sent.line = tick_line(sent)
        text = self.rejected(sent, session)
        if is_new:
            self.printer.rejected(sent.line, session.name, text)
            self.stopped = self.stopped or self.wanted.first
        session.stopped = self.map.after_no == STOP
        self.add_failure("failure", sent, session, text)

    def add_failure(self, kind: str, sent: Sent, session: Session, text: str) -> None:
        """Keeps what was rejected or not judged for the test case of its session."""
        if self.context is not None:
            session.case.add(self.context.failure(kind, sent.index, sent.line, text))
        else:
            session.case.rejected += kind == "failure"

    def lost(self, sent: Sent, session: Session) -> None:
        """A report that was judged, and whose verdict was lost."""
        self.counts.lost += 1
        self.counts.statuses.add(UNJUDGED)
        text = "%s: its verdict was lost with the connection; it is report %d of the seat in the journal (cspwatch show)" % (sent.report.line, sent.number_lost)
        self.printer.not_judged(sent.line, "", text)
        if self.context is not None:
            session.case.add(self.context.failure("error", sent.index, sent.line, text))

    def rejected(self, sent: Sent, session: Session) -> str:
        """Counts a rejected report, and answers what is to be said of it."""
        count = sent.times - sent.passed()
        self.counts.rejected += count
        said = verdict(sent, self.map.sessions is not None and session.case.rejected == 0)
        if not session.gap:
            self.counts.statuses.add(sent.status)
            return said
        # The system may have been right: the trace lacks an event that it did.
        self.counts.after_gap += count
        self.counts.statuses.add(UNJUDGED)
        return "%s (after %s, whose event was not judged)" % (said, session.gap)

    def session_over(self, session: Session) -> None:
        self.counts.bad_sessions += session.case.rejected > 0
        if self.junit is not None:
            self.junit.add(session.case)

    def finish(self) -> None:
        """Ends all sessions, and waits for what is still to come."""
        if self.last_line is not None and self.last_line.time is not None:
            self.tick_all(self.last_line.time)
        for session in list(self.sessions.open.values()):
            self.end(session)
        while self.by_link and not self.stopped:
            self.pump(WAIT_SECONDS)
        if self.stopped:
            self.abandon()
        self.counts.without_rule += self.joiner.waiting()
        self.counts.joined -= self.joiner.waiting()

    def abandon(self) -> None:
        """Ends at once, with the cases as they are."""
        for link in self.by_link:
            link.close()
        over = {id(session): session for session in [*self.by_link.values(), *self.sessions.open.values()]}
        for waiting in self.order:
            if isinstance(waiting, Session):
                over[id(waiting)] = waiting
        for session in over.values():
            self.session_over(session)
        self.by_link.clear()

    def problem(self, text: str, status: int) -> None:
        """What is wrong with the whole run."""
        self.printer.problem(text)
        self.problems.append(text)
        self.counts.statuses.add(status)
        self.is_broken = self.is_broken or status != UNJUDGED

    def find_problems(self) -> None:
        """What the counts say against the run: it was to judge more, or to leave no line without a rule."""
        counts = self.counts
        if counts.judged() < self.wanted.at_least and not (self.stopped or self.is_broken):
            hint = "; the first line without a rule is %s" % counts.first_without_rule if counts.first_without_rule else ""
            self.problem("cspwatch-logs: %d reports were judged, and --min-reports is %d%s" % (counts.judged(), self.wanted.at_least, hint), UNJUDGED)
        if self.wanted.strict and counts.without_rule:
            self.problems.append("%d lines without a rule, the first %s" % (counts.without_rule, counts.first_without_rule))

    def close(self, sources: Iterable[Source], is_whole: bool) -> None:
        """Shows coverage and counts, and ends the files that are written.

        sources -- what was read.
        is_whole -- whether the whole log was read and judged.
        """
        self.counts.cut = sum(source.splitter.cut for source in sources)
        self.counts.unread = sum(source.splitter.unread for source in sources)
        self.find_problems()
        if self.context is not None and self.junit is not None:
            self.context.complete(True)
            self.junit.close(self.problems)
        if self.wanted.coverage:
            self.show_coverage()
        self.printer.counts(self.counts, self.map.sessions is not None)
        self.printer.flush()
        if self.wanted.record is not None:
            self.wanted.record.close(is_whole)

    def show_coverage(self) -> None:
        never = by_channel(self.rules.events, self.came)
        unused = [rule.line for rule in self.map.rules if not self.rules.used[rule.number]]
        self.printer.coverage(never, unused, self.map.file)


def by_channel(events: Sequence[str], came: Set[str]) -> List[str]:
    """The events that never came; one word for all of a channel of which none came."""
    some = {event.split(".")[0] for event in came}
    never = [event if event.split(".")[0] in some or "." not in event else event.split(".")[0] + ".*" for event in events if event not in came]
    return list(dict.fromkeys(never))
