"""What the log of a service (`cspwatch serve --log`) says, counted as it grows."""
from __future__ import annotations

import json
import threading
from collections import Counter
from typing import Dict, Optional

from ..logs.following import Followed
from ..logs.packed import LogFault

MOST_READS = 100
"""How often a look reads at most, 64 KiB each time: what is left of a long log is for the next look."""

MOST_KINDS = 64
"""How many codes and reasons are told apart; what more there are is counted together."""

OTHER = "other"

FAILED_JOURNAL = 30
"""The code of a session that its journal's failure has closed."""


class ServiceLog:
    """The counts of a log's lines. The log is read from its beginning, and then as it grows, also where it is rotated."""

    def __init__(self, path: str) -> None:
        self.path = path
        self.source: Optional[Followed] = None
        self.is_read = False
        """Whether the log was read to its end once: before that its counts are too small."""
        self.not_judged: Counter[str] = Counter()
        """Lines that were answered `ERR`, by code."""
        self.ended: Counter[str] = Counter()
        """Connections that have ended, by the reason."""
        self.connected = 0
        self.lost = 0
        """Lines that the log says are missing."""
        self.unread = 0
        """Lines that are none of a log."""
        self.connections = 0
        """Connections that are there now, as far as the log says."""
        self.listens: Optional[bool] = None
        """Whether the last run listens; None before the first line."""
        self.failed = False
        """Whether the journal has failed in the last run."""

    def look(self, lock: threading.Lock) -> None:
        """Reads what came. The counts are changed under the lock."""
        try:
            if self.source is None:
                self.source = Followed(self.path)
            for _ in range(MOST_READS):
                lines = self.source.read()
                with lock:
                    for line in lines:
                        self.take(line.text)
                # What was lost at a rotation stands in no log that is there.
                self.source.lost.clear()
                if not lines and self.source.is_idle:
                    self.is_read = True
                    return
        except (OSError, LogFault):
            # Without a log there is nothing to count.
            self.is_read = True

    def take(self, text: str) -> None:
        """Counts a line."""
        try:
            fields = json.loads(text)
            what = fields["what"]
            self.count(what, fields)
        except (ValueError, KeyError, TypeError, RecursionError):
            self.unread += 1

    def count(self, what: object, fields: Dict[str, object]) -> None:
        """Counts what happened."""
        if what == "listening":
            self.listens, self.failed, self.connections = True, False, 0
        elif what == "connected":
            self.connected += 1
            self.connections += 1
        elif what == "ended":
            add(self.ended, str(fields["why"]))
            self.connections = max(0, self.connections - 1)
        elif what == "not judged":
            code = int(str(fields["code"]))
            add(self.not_judged, str(code))
            self.failed = self.failed or code == FAILED_JOURNAL
        elif what == "closed":
            self.listens, self.connections = False, 0
            self.lost += int(str(fields.get("lost", 0)))


def add(counts: Counter[str], kind: str) -> None:
    """Counts one of this kind, where there aren't too many kinds."""
    counts[kind if kind in counts or len(counts) < MOST_KINDS else OTHER] += 1
