"""How far a run has read its logs, kept in a file, so that the next run goes on there: by what the logs hold, not by their names."""
from __future__ import annotations

import hashlib
import json
import os
import time
from dataclasses import dataclass, field
from typing import Any, Dict, Mapping, Optional, Sequence

from .following import Followed, Mark
from .links import Connection
from .reading import Source
from .running import Run
from .showing import printable

FORM = "cspwatch-logs state 1"
"""What the file says of itself."""

SECONDS = 1.0
"""How often the file is written at most."""


class StateFault(Exception):
    """The state isn't one of this run."""

    status = 5


@dataclass
class State:
    """What is kept."""

    judged: int
    """How many reports of the seat were judged, of the lines before the marks."""
    logs: Dict[str, Mark] = field(default_factory=dict)
    """How far each log was read."""
    numbers: Any = None
    """The numbers of names, and the lines that wait for others: what the map knows of earlier lines."""
    gap: str = ""
    """Where the first line stands that reported an event which wasn't judged."""


class StateFile:
    """The file of a state."""

    def __init__(self, path: str, seat: int, map_file: str) -> None:
        """Reads it, where it is there. `StateFault` where it is that of another seat or map, or none."""
        self.path, self.seat = path, seat
        with open(map_file, "rb") as file:
            self.map = hashlib.sha256(file.read()).hexdigest()
        self.written = 0.0
        self.earlier = self.read()

    def read(self) -> Optional[State]:
        try:
            with open(self.path, "rb") as file:
                found = json.load(file)
            return self.state_of(found)
        except FileNotFoundError:
            return None
        except (ValueError, LookupError, TypeError, AttributeError):
            raise self.fault("this is no state of cspwatch-logs") from None

    def state_of(self, found: Mapping[str, Any]) -> State:
        if found["form"] != FORM:
            raise ValueError(found["form"])
        if found["seat"] != self.seat:
            raise self.fault("this is the state of seat %d" % int(found["seat"]))
        if found["map"] != self.map:
            raise self.fault("the map was another one when this was written; a map that changes begins a seat of its own")
        logs = {name: Mark(int(one[0]), int(one[1]), int(one[2]), str(one[3]), int(one[4])) for name, one in found["logs"].items()}
        return State(int(found["judged"]), logs, found["numbers"], str(found["gap"]))

    def fault(self, text: str) -> StateFault:
        return StateFault("%s: %s" % (printable(self.path), text))

    def is_due(self) -> bool:
        return time.monotonic() - self.written > SECONDS

    def write(self, state: State) -> None:
        """Replaces the file, so that it is there as a whole after a crash too. `StateFault` where that fails."""
        content = {
            "form": FORM,
            "seat": self.seat,
            "map": self.map,
            "judged": state.judged,
            "logs": {name: list(mark) for name, mark in state.logs.items()},
            "numbers": state.numbers,
            "gap": state.gap,
        }
        beside = self.path + ".new"
        try:
            with open(beside, "w", encoding="ascii") as file:
                json.dump(content, file)
                file.write("\n")
                file.flush()
                os.fsync(file.fileno())
            os.replace(beside, self.path)
        except OSError as error:
            raise self.fault("cannot write: %s" % error.strerror) from None
        self.written = time.monotonic()


class Keeper:
    """Keeps how far a run is, while it goes on."""

    def __init__(self, file: StateFile, running: Run, sources: Sequence[Source]) -> None:
        self.file, self.running = file, running
        self.logs = [source for source in sources if isinstance(source, Followed)]
        self.is_changed = False
        """Whether something was read since the file was written."""

    def look(self, came: bool) -> None:
        """Writes the file where it is time for that."""
        self.is_changed = self.is_changed or came
        if self.is_changed and self.file.is_due() and self.running.settle():
            self.write()

    def write(self) -> None:
        """Writes the file. All that was read is judged by now."""
        session = self.running.sessions.single
        assert session is not None and isinstance(session.link, Connection)
        # Of what the history has, these are still to be found in the logs.
        ahead = self.running.wanted.skip - self.running.counts.earlier
        judged = session.link.reported + session.link.judged - ahead
        self.file.write(State(judged, {log.name: log.mark() for log in self.logs}, self.running.kept(), session.gap))
        self.is_changed = False
