"""From numbers that are drawn to the inputs that are done."""
from __future__ import annotations

from typing import Container, Mapping, Optional, Sequence

END = 0
"""The number that ends a run."""

NUMBERS = 1 << 16
"""A number that is drawn is less than this."""


class Choices:
    """What a number asks for. It depends on the number and on what is allowed alone, so a run can be repeated and shrunk.

    Most numbers name two inputs, of which the one is done that was done less often before. A small number names one input;
    shrinking ends with these.
    """

    def __init__(self, inputs: Sequence[str], done: Mapping[str, int], robust: bool) -> None:
        """inputs -- all inputs.
        done -- how often each was done before; it has to stay as it is.
        robust -- whether inputs that the specification refuses are tried too.
        """
        self._inputs, self._done, self._robust = inputs, done, robust

    def input(self, number: int, allowed: Container[str]) -> Optional[str]:
        """The input that the number asks for; None where it asks for none that is allowed."""
        count = len(self._inputs)
        rest, first = divmod(number - 1, count)
        second = rest % (count + 1)
        if second == 0:
            named = self._inputs[first]
            return named if self._robust or named in allowed else None
        one, other = self._from(first, allowed), self._inputs[second - 1] if self._robust else self._from(second - 1, allowed)
        if one is None or other is None:
            return one or other
        return other if self._done.get(other, 0) < self._done.get(one, 0) else one

    # The first input from this one on, round about, that is allowed.
    def _from(self, index: int, allowed: Container[str]) -> Optional[str]:
        inputs = self._inputs
        for at in range(index, index + len(inputs)):
            event = inputs[at % len(inputs)]
            if event in allowed:
                return event
        return None
