"""A trace through a specification, with a way back."""
from __future__ import annotations

from typing import Dict, List, Tuple

from .machine import Machine, NotPossible, State, Trace


class Walk:
    """Where somebody stands in a specification, how he came there, and the places that he has marked."""

    def __init__(self, machine: Machine) -> None:
        """Begins at the empty trace."""
        self.machine = machine
        self.trace: Trace = ()
        """The events so far."""
        self._earlier: List[Trace] = []
        self._marks: Dict[str, Trace] = {}

    @property
    def state(self) -> State:
        """What the specification says here."""
        return self.machine.after(self.trace)

    @property
    def marks(self) -> Tuple[Tuple[str, Trace], ...]:
        """The marks, in the order in which they were made."""
        return tuple(self._marks.items())

    def take(self, event: str) -> None:
        """One event further. `NotPossible` where it may not come; then nothing has changed."""
        if event not in self.state.may:
            raise NotPossible(event, self.trace)
        self.go(self.trace + (event,))

    def go(self, trace: Trace) -> None:
        """To the end of another trace. Raises as `Machine.after` does; then nothing has changed."""
        self.machine.after(trace)
        self._earlier.append(self.trace)
        self.trace = trace

    def undo(self, steps: int = 1) -> bool:
        """Takes back the last so many moves, and answers whether there were that many; else nothing has changed."""
        if not 1 <= steps <= len(self._earlier):
            return False
        self.trace = self._earlier[-steps]
        del self._earlier[-steps:]
        return True

    def mark(self, name: str) -> None:
        """Gives this place a name; the name's earlier place is forgotten."""
        self._marks.pop(name, None)
        self._marks[name] = self.trace

    def back(self, name: str) -> bool:
        """To the place of this mark. Answers whether there is one."""
        if name not in self._marks:
            return False
        self.go(self._marks[name])
        return True
