"""A machine of hypothesis made from a specification, for pytest and for rules of one's own."""
from __future__ import annotations

from typing import Any, Callable, Dict, List, Optional, Type

from hypothesis.stateful import RuleBasedStateMachine, rule
from hypothesis.strategies import sampled_from

from ..logs.maps import Specification
from .adapters import channel_of
from .runs import Failure, Run
from .systems import TIMEOUT_SECONDS, System, system_for


class SpecificationMachine(RuleBasedStateMachine):
    """Tests a system by its specification: each rule does an input, and what comes of it is judged. See `machine`."""

    system: System
    """The system under test."""
    robust: bool
    """Whether inputs that the specification refuses are tried too."""

    def __init__(self) -> None:
        super().__init__()
        self._judge = self.system.judges.begin()
        self.run = Run(self._judge, self.system.adapter, self.system.calls)
        """The run so far."""
        try:
            self._judged(self.run.begin)
        except BaseException:
            self._judge.close()
            raise

    def do(self, event: str) -> None:
        """Does the input, where the specification allows it here. `Failure` where a report is rejected."""
        if self.robust or event in self.run.allowed():
            self._judged(lambda: self.run.do(event))

    def teardown(self) -> None:
        """Ends the run."""
        self._judge.close()

    # A failure of a machine is read as it is raised, so it says why at once.
    def _judged(self, step: Callable[[], None]) -> None:
        try:
            step()
        except Failure as failure:
            reason = self.system.judges.reason(failure.reports)
            raise Failure(failure.kind, failure.event, failure.reports, reason) from None


def machine(
    script: str,
    process: str,
    adapter: object,
    program: Optional[str] = None,
    large: bool = False,
    robust: bool = False,
    timeout: float = TIMEOUT_SECONDS,
) -> Type[SpecificationMachine]:
    """A machine whose rules are the input channels of the adapter, each with an event of the channel as `event`.

        TestLock = machine("lock.csp", "LOCK", lock_adapter).TestCase

    It may have further rules and invariants in a class of its own (`class Lock(machine(..))`); `self.do(event)` does an input.

    adapter -- a module or another object; see `Adapter`.
    program -- the program `cspwatch`; the one that the variable CSPWATCH names, or on the PATH, where left out.
    large -- whether it judges by `check --large`.
    robust -- whether inputs that the specification refuses are tried too.
    timeout -- how many seconds a call of the adapter may take.
    """
    name = getattr(adapter, "__name__", type(adapter).__name__)
    system = system_for(Specification(script, process, large), adapter, name, program, timeout)
    channels: Dict[str, List[str]] = {}
    for event in system.adapter.inputs:
        channels.setdefault(channel_of(event), []).append(event)
    rules: Dict[str, Any] = {"rule_" + channel: rule_of(events) for channel, events in channels.items()}
    return type(process, (SpecificationMachine,), {**rules, "system": system, "robust": robust})


def rule_of(events: List[str]) -> Callable[..., None]:
    """The rule that does one of these inputs."""

    @rule(event=sampled_from(events))
    def do(self: SpecificationMachine, event: str) -> None:
        self.do(event)

    return do
