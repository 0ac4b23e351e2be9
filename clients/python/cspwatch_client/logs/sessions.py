"""Sessions: what begins one, what ends it, and which of its lines are judged."""
from __future__ import annotations

from typing import Any, Dict, Optional, Set, Tuple

from .junit import Case
from .links import Link
from .mapping import Report, Rules, Unmapped
from .maps import Map, Reported, Rule
from .places import Groups, Places

WHOLE = ""
"""The key of the one session of a map without keys."""


class Session:
    """One history: what judges it, and the numbers of its names."""

    # These are as they are at the beginning for most sessions.
    ticked: Optional[int] = None
    """The number of the last tick that was reported or passed over; None before the first line."""
    quiet = 0
    """How many ticks were reported since the last other report."""
    silence = 0
    """How many other reports there were; it tells one silence from another."""
    refused_in = -1
    """The last silence in which a tick was rejected."""
    stopped = False
    """Whether a report was rejected, and nothing is judged after it."""
    is_over = False
    """Whether its last report was sent, and each was answered."""

    def __init__(self, name: str, places: Places) -> None:
        self.name = name
        """Its key; empty where there is one session for all."""
        self.places = places
        self.link: Optional[Link] = None
        """None before its first report."""
        self.case = Case(name or "reports")
        self.gap = ""
        """Where the first line stands that reported an event which wasn't judged: later verdicts are of a trace without it."""

    def is_refused(self) -> bool:
        """Whether a tick was rejected since the last other report."""
        return self.refused_in == self.silence

    def kept(self) -> Any:
        """What is known of time and of rejected reports, as it is kept in a file."""
        return [self.ticked, self.quiet, self.silence, self.refused_in, self.stopped]

    def restore(self, kept: Any) -> None:
        """Takes what was kept."""
        self.ticked, self.quiet, self.silence, self.refused_in, self.stopped = kept


class Sessions:
    """The sessions that are open."""

    def __init__(self, found: Map) -> None:
        self.map = found
        self.open: Dict[str, Session] = {}
        """By their keys."""
        self.single: Optional[Session] = None
        """The one session, where the map has no sessions by keys."""
        self.judged: Set[str] = set()
        """The keys of the sessions in which the line has come from which on they are judged."""
        self.may_end = found.sessions is not None or bool(found.places)
        """Whether an event may end something: the number of a name, or a session."""
        if found.sessions is None:
            self.single = self.new(WHOLE)

    def new(self, key: str) -> Session:
        """A new session."""
        session = self.open[key] = Session(key, Places(self.map.places))
        return session

    def key(self, groups: Groups) -> Optional[str]:
        """The key of a line; None where a group of it took no part."""
        return self.map.sessions.key.filled_from(groups) if self.map.sessions is not None else WHOLE

    def is_skipped(self, rule: Rule, groups: Groups) -> bool:
        """Whether the line comes before the one from which on its session is judged."""
        key = self.key(groups)
        if self.map.skip_until is None or key is None or key in self.judged:
            return False
        if rule.number == self.map.skip_until:
            self.judged.add(key)
            return False
        return True

    def found(self, reported: Reported, groups: Groups, rules: Rules) -> Tuple[Session, Report, Optional[Session]]:
        """The session of a report, the report, and the session with its key that it ends by beginning a new one. The session isn't
        among the open ones where the line belongs to none."""
        if self.single is not None:
            return self.single, rules.report(reported, groups, self.single.places), None
        assert self.map.sessions is not None
        begin, key = self.map.sessions.begin, self.key(groups)
        if key is None:
            raise Unmapped("a group of sessions.key took no part in the match")
        session = self.open.get(key)
        if begin is None:
            session = session or self.new(key)
            return session, rules.report(reported, groups, session.places), None
        fresh = Session(key, Places(self.map.places))
        if reported.event is not None and begin.may_equal(reported.event):
            report = rules.report(reported, groups, fresh.places)
            if report.event == fresh.places.text(begin.literals, begin.fields, groups):
                return fresh, report, session
        if session is None:
            return fresh, Report("", None), None
        return session, rules.report(reported, groups, session.places), None

    def is_open(self, session: Session) -> bool:
        return session is self.single or self.open.get(session.name) is session

    def begins(self, session: Session) -> None:
        """The session is the one of its key from now on."""
        self.open[session.name] = session

    def ended(self, session: Session) -> None:
        """No line belongs to the session any more."""
        del self.open[session.name]
        self.judged.discard(session.name)

    def is_last(self, session: Session, event: str, groups: Groups) -> bool:
        """Whether the event is the last of its session."""
        sessions = self.map.sessions
        return sessions is not None and any(session.places.text(end.literals, end.fields, groups) == event for end in sessions.end)
