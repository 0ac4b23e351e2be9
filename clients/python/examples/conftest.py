"""Fixtures for pytest. CSPWATCH in the environment names the program; without it, `cspwatch` is looked for on the PATH.

Copy this file beside your own tests, and set the script and the process.
"""
import os

import pytest

from cspwatch_client import Checker, Server

HERE = os.path.dirname(os.path.abspath(__file__))
SPEC = os.path.join(HERE, "turnstile.csp")
PROGRAM = os.environ.get("CSPWATCH", "cspwatch")


@pytest.fixture
def monitor():
    """A client for one test, with a history of its own."""
    with Checker(SPEC, "SYSTEM", program=PROGRAM) as client:
        yield client


@pytest.fixture
def server(tmp_path):
    """A server for one test whose components report side by side: two clients, one history."""
    with Server(SPEC, "SYSTEM", tmp_path / "journal", connections=2, program=PROGRAM) as running:
        yield running
