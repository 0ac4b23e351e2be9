#!/usr/bin/env python3
"""Mistakes that people make, and what they are told: `mistakes.json`, over the program and over `cspwatch-logs`.

    python3 -m pytest tests/mistakes.py [--program FILE]

Each row is run twice, with standard error as a file and as a terminal. In a row, `run` has the words, `files` the files of the folder
(`p.csp` is there anyway), `input` the standard input, `environment` more variables, `stderr` the lines on standard error, `terminal`
those on a terminal where they are others, and `status` the exit status. A line that ends in `...` is the beginning of one, `...` alone
stands for any lines, and `~words` for a line that has these words. A row that is `unreleased` is for the program that is built.
"""
from __future__ import annotations

import json
import os
import sys
from pathlib import Path
from typing import Any, Dict, List, Tuple

import large
import pytest
import terminal

HERE = os.path.dirname(os.path.abspath(__file__))
LOGS = os.path.join(os.path.dirname(HERE), "clients", "python", "bin", "cspwatch-logs")
GOOD = "channel a, b\nP = a -> b -> P\n"
PACKED = ".gz"
MORE = "..."

FEWEST = 100
"""How many mistakes the table has at least."""

with open(os.path.join(HERE, "mistakes.json"), encoding="ascii") as table:
    ROWS: List[Dict[str, Any]] = json.load(table)


def fits(wanted: str, line: str) -> bool:
    """Whether the line is as a row has it."""
    if wanted.startswith("~"):
        return wanted[1:] in line
    return line.startswith(wanted[: -len(MORE)]) if wanted.endswith(MORE) else line == wanted


def fit(wanted: List[str], lines: List[str]) -> bool:
    """Whether the lines are as a row has them."""
    if not wanted:
        return not lines
    if wanted[0] == MORE:
        return any(fit(wanted[1:], lines[at:]) for at in range(len(lines) + 1))
    return bool(lines) and fits(wanted[0], lines[0]) and fit(wanted[1:], lines[1:])


def prepared(row: Dict[str, Any], program: str, folder: Path) -> List[str]:
    """Makes the files of the row, and answers the command."""
    for name, text in {"p.csp": GOOD, **row.get("files", {})}.items():
        # A text has each byte of a compressed file as a character.
        (folder / name).write_bytes(text.encode("latin-1" if name.endswith(PACKED) else "utf-8"))
    if "input" in row:
        (folder / "input").write_bytes(row["input"].encode("utf-8"))
    name, *words = row["run"]
    return [program, *words] if name == "cspwatch" else [sys.executable, "-B", LOGS, *words]


def told(row: Dict[str, Any], program: str, folder: Path) -> Tuple[Tuple[List[str], int], Tuple[List[str], int]]:
    """The lines and the status, without a terminal and with one."""
    plain, shown = folder / "plain", folder / "terminal"
    for place in (plain, shown):
        place.mkdir()
    return terminal.elsewhere(prepared(row, program, plain), plain), terminal.on_terminal(prepared(row, program, shown), shown)


@pytest.mark.parametrize("row", ROWS, ids=[row["name"] for row in ROWS])
def test_mistake(row: Dict[str, Any], program: str, tmp_path: Path, monkeypatch: pytest.MonkeyPatch) -> None:
    if row.get("unreleased") and os.path.realpath(program) != os.path.realpath(large.BUILT):
        pytest.skip("the program is one before this")
    monkeypatch.delenv("CSPWATCH_EXPLAIN", raising=False)
    for name, value in {"CSPWATCH": program, "COLUMNS": "80", **row.get("environment", {})}.items():
        monkeypatch.setenv(name, value)
    plain, shown = told(row, program, tmp_path)
    assert fit(row["stderr"], plain[0]), plain
    assert fit(row.get("terminal", row["stderr"]), shown[0]), shown
    assert (plain[1], shown[1]) == (row["status"], row["status"])
    assert not any(letter in "".join(plain[0] + shown[0]) for letter in "\x1b\x07\x08")


def test_the_table_is_large_enough() -> None:
    assert len(ROWS) >= FEWEST
    assert len({row["name"] for row in ROWS}) == len(ROWS)
