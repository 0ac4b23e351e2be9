#!/usr/bin/env python3
"""The rows over the libraries, from files in which a row and its answer are side by side.

    tests/rows.py                looks whether `stdin` and `stdout` of `crates/scenarios` are what the files of rows make
    tests/rows.py --write        writes them

The program `scenarios` plays rows of text: a row is a line of `stdin`, after the name of the crate that plays it, and the
line of `stdout` at the same place is the answer that is wanted. Both files are made from `crates/NAME/rows/*.rows`, in the
order of the names of these files. They are committed, since the gate reads them.

A line of a file of rows is one of these:

    [session_rows: turns]     a group begins: its name, and what its rows show; written to both as `# session_rows: turns`
    # text                    a comment, or an empty line: left out
    > text                    a row
    < text                    the answer to the row before it
      text                    two blanks: the line before goes on, after one blank

The last line is `N passed, M failed`: of the groups, or of the files that are wrong.
"""
from __future__ import annotations

import argparse
import os
import sys
from typing import NamedTuple

TOP = os.path.dirname(os.path.dirname(os.path.abspath(__file__)))
CRATES = ["part_scenarios", "scenarios", "server_rows", "shared_rows"]
PLAYER = os.path.join(TOP, "crates", "scenarios")
GROUP, ROW, ANSWER, MORE, COMMENT = "[", "> ", "< ", "  ", "#"


class WrongFile(Exception):
    """A line of a file of rows can't be where it is."""


class Group(NamedTuple):
    name: str
    rows: list[str]
    answers: list[str]


def groups_of(lines: list[str], path: str) -> list[Group]:
    """The groups of a file."""
    groups: list[Group] = []
    for number, line in enumerate(lines, 1):
        if not line or line.startswith(COMMENT):
            continue
        try:
            add(line, groups)
        except WrongFile as fault:
            raise WrongFile(f"{path}:{number}: {fault}") from None
    for group in groups:
        if not group.rows or len(group.rows) != len(group.answers):
            raise WrongFile(f"{path}: [{group.name}] has {len(group.rows)} rows and {len(group.answers)} answers")
    return groups


def add(line: str, groups: list[Group]) -> None:
    """Adds what a line says to the last group."""
    if line.startswith(GROUP):
        if not line.endswith("]"):
            raise WrongFile("a group's name ends with ]")
        groups.append(Group(line[1:-1], [], []))
        return
    if not groups:
        raise WrongFile("no group has begun")
    rows, answers = groups[-1].rows, groups[-1].answers
    if line.startswith(ROW) and len(rows) == len(answers):
        rows.append(line[len(ROW):])
    elif line.startswith(ANSWER) and len(rows) == len(answers) + 1:
        answers.append(line[len(ANSWER):])
    elif line.startswith(MORE) and rows:
        last = answers if len(answers) == len(rows) else rows
        last[-1] += " " + line[len(MORE):]
    else:
        raise WrongFile("a row, its answer, and so on are wanted")


def groups_in(crate: str) -> list[Group]:
    """The groups of a crate, each row after the crate's name."""
    folder = os.path.join(TOP, "crates", crate, "rows")
    groups: list[Group] = []
    for name in sorted(os.listdir(folder)):
        if name.endswith(".rows"):
            with open(os.path.join(folder, name), encoding="utf-8", newline="\n") as file:
                groups += groups_of(file.read().split("\n"), f"crates/{crate}/rows/{name}")
    return [Group(group.name, [f"{crate} {row}" for row in group.rows], group.answers) for group in groups]


def made(groups: list[Group]) -> dict[str, str]:
    """The texts of `stdin` and `stdout` for these groups."""
    return {"stdin": "\n".join(text_of(group.name, group.rows) for group in groups),
            "stdout": "\n".join(text_of(group.name, group.answers) for group in groups)}


def text_of(name: str, lines: list[str]) -> str:
    return "".join(line + "\n" for line in [f"# {name}"] + lines)


def is_as_made(path: str, text: str) -> bool:
    with open(path, encoding="utf-8", newline="") as file:
        return file.read() == text


def main() -> int:
    parser = argparse.ArgumentParser(description=__doc__, formatter_class=argparse.RawDescriptionHelpFormatter)
    parser.add_argument("--write", action="store_true", help="write stdin and stdout")
    given = parser.parse_args()
    passed = failed = 0
    groups: list[Group] = []
    for crate in CRATES:
        try:
            groups += groups_in(crate)
            passed += 1
        except WrongFile as fault:
            print(fault)
            failed += 1
    for name, text in made(groups).items():
        path = os.path.join(PLAYER, name)
        if given.write and not failed:
            with open(path, "w", encoding="utf-8", newline="") as file:
                file.write(text)
        elif not is_as_made(path, text):
            print(f"crates/scenarios/{name} isn't what the rows make: run tests/rows.py --write")
            failed += 1
            continue
        passed += 1
    print(f"{passed} passed, {failed} failed")
    return 1 if failed else 0


if __name__ == "__main__":
    sys.exit(main())
