"""The system under test, with what judges it."""
from __future__ import annotations

import os
import shutil
from dataclasses import dataclass
from typing import Callable, Optional

from ..logs.maps import Specification
from ..logs.program import ProgramFault, events_of, program_at
from .adapters import Adapter
from .calls import Calls
from .judging import Judges
from .runs import Run

TIMEOUT_SECONDS = 10.0
"""How long a call of the adapter may take, where nothing else is said."""


@dataclass
class System:
    """The system under test, and what judges it."""

    judges: Judges
    adapter: Adapter
    calls: Calls
    run: Optional[Run] = None
    """The run that is played, or the last one."""

    def play(self, steps: Callable[[Run], None]) -> Run:
        """Begins a run and plays these steps. `Failure` where a report is rejected; `AdapterFault`, `Hung`, `ProgramFault` or
        `Fault` where it can't go on."""
        judge = self.judges.begin()
        try:
            self.run = Run(judge, self.adapter, self.calls)
            self.run.begin()
            steps(self.run)
            return self.run
        finally:
            judge.close()

    def stuck(self, what: str) -> str:
        """What is said where a call never comes back."""
        lines = self.run.lines if self.run is not None else []
        return "\n".join(["%s: no answer, and the call can't be interrupted; the run so far:" % what, *lines])

    def close(self) -> None:
        """Ends what judges, and the adapter's event loop."""
        self.judges.close()
        self.calls.close()


def system_for(
    specification: Specification, adapter: object, name: str, program: Optional[str] = None, timeout: float = TIMEOUT_SECONDS
) -> System:
    """The system behind this adapter, judged by this specification.

    adapter -- a module or another object; see `Adapter`.
    name -- what messages call it.
    program -- the program `cspwatch`; the one that the variable CSPWATCH names, or on the PATH, where left out.
    timeout -- how many seconds a call of the adapter may take.

    `AdapterFault` is raised where the adapter doesn't fit the script, `ProgramFault` where the program isn't there or refuses
    the script.
    """
    wanted = program or os.environ.get("CSPWATCH") or "cspwatch"
    path = shutil.which(wanted)
    if path is None:
        raise ProgramFault("%s: there is no such program; --program FILE or the variable CSPWATCH says where it is" % wanted, 5)
    found = program_at(path)
    if specification.large and not found.is_large:
        raise ProgramFault("%s: %s has no `check --large`" % (path, found.version), 2)
    held = Adapter(adapter, events_of(found, specification), name)
    system = System(Judges(found, specification), held, Calls(timeout, lambda what: system.stuck(what)))
    return system
