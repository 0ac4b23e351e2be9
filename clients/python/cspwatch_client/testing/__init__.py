"""Tests from the specification: the command `cspwatch-test`, which does inputs to a system and has its outputs judged.

    cspwatch-test lock.csp LOCK lock_adapter.py

An adapter, a file of Python, says how inputs are done and outputs seen:

    from cspwatch_client.testing import Refused, does

    outputs = ["granted"]

    @does("acquire.{client}")
    def acquire(client): ...

    def observe(wait): ...

    def reset(): ...

The manual page `cspwatch-test(1)` describes adapters, options and what is printed. `machines.machine` makes a test for pytest,
`campaigns.Campaign` plays runs for a program. It needs Python 3.11 or later, the program `cspwatch`, and hypothesis.
"""
from .adapters import AdapterFault, Refused, does
from .runs import Failure

__all__ = ["AdapterFault", "Failure", "Refused", "does"]
