"""Replays: the inputs of a run that was written down, once more."""
from __future__ import annotations

from dataclasses import dataclass
from typing import List, Sequence

from .adapters import Adapter
from .runs import Run


class ReplayFault(Exception):
    """What is wrong with the file of a run: `FILE:LINE: reason`."""


@dataclass(frozen=True)
class Replay:
    """The inputs of a run, in their order."""

    inputs: Sequence[str]

    def steps(self, run: Run) -> None:
        """Plays them."""
        for event in self.inputs:
            run.do(event)


def replay_of(path: str, adapter: Adapter) -> Replay:
    """The run in a file of report lines. Outputs and quiet come of the system again; an input that was refused is tried again.

    `OSError` is raised where the file can't be read, `ReplayFault` where it is no run of this adapter.
    """
    inputs: List[str] = []
    with open(path, encoding="utf-8", errors="backslashreplace", newline="\n") as file:
        for number, line in enumerate(file, 1):
            kind, *names = line.rstrip("\n").split(" ")
            if kind not in ("E", "R") or kind == "E" and len(names) != 1:
                raise ReplayFault("%s:%d: %r is no report; one is `E EVENT` or `R EVENT ..`" % (path, number, line.rstrip("\n")))
            for name in names:
                if name not in adapter.inputs and name not in adapter.outputs:
                    raise ReplayFault("%s:%d: %r is neither an input nor an output of %s" % (path, number, name, adapter.name))
            inputs += [name for name in names if name in adapter.inputs]
    if not inputs:
        raise ReplayFault("%s: it has no input of %s" % (path, adapter.name))
    return Replay(inputs)
