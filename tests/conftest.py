"""What the tests by pytest share: the option `--program`, and the line that `.ci/run` counts."""
from __future__ import annotations

import os

import opinions
import pytest


def pytest_addoption(parser: pytest.Parser) -> None:
    parser.addoption("--program", default=opinions.default_program(), help="the program, if not the built or the released one")


@pytest.fixture(scope="session")
def program(request: pytest.FixtureRequest) -> str:
    """The program under test."""
    path = os.path.abspath(str(request.config.getoption("--program")))
    assert os.access(path, os.X_OK), f"{path}: there is no such program"
    return path


def pytest_unconfigure(config: pytest.Config) -> None:
    """Prints `N passed, M failed` last."""
    reporter = config.pluginmanager.get_plugin("terminalreporter")
    if reporter is not None:
        counts = {word: len(reporter.stats.get(word, [])) for word in ("passed", "failed", "error")}
        print(f"{counts['passed']} passed, {counts['failed'] + counts['error']} failed")
