#!/usr/bin/env python3
"""Looks whether each edit fits the text that it changes.

    tests/edits.py

The edits are those of crates/*/wrong, crates/*/must-fail and tests/planted. Each names a file, a text that stands there exactly once, and what
comes in its place; a further change applies to what the earlier ones made. The function that it names, if any, has to be one of the crate's. An
edit that doesn't fit shows nothing, and only a kit would say so. This needs none. The last line is `N passed, M failed`.
"""
from __future__ import annotations

import functools
import glob
import os
import re
import sys

TOP = os.path.dirname(os.path.dirname(os.path.abspath(__file__)))
FOLDERS = ["crates/*/wrong", "crates/*/must-fail", "tests/planted"]

Change = tuple[str, str, str]
"""A file, what stands there, and what comes in its place."""


def changes_of(path: str) -> list[Change]:
    """The changes of an edit. A file is named from the crate's folder on, or, in tests/planted, from the top."""
    folder = os.path.dirname(path)
    begin = "" if os.path.basename(folder) == "planted" else os.path.relpath(os.path.dirname(folder), TOP)
    changes: list[Change] = []
    at = old = ""
    with open(path, encoding="utf-8") as file:
        for line in file.read().split("\n"):
            word, _, rest = line.partition(":")
            at = os.path.join(begin, rest.strip()) if word == "file" else at
            old = rest[1:] if word == "old" else old
            if word == "new":
                changes.append((at, old, rest[1:]))
    return changes


METHODS = r"^(?:unsafe )?impl(?:<[^{]*?>)?\s(?:(?P<trait>\w+)[^{;]*?\sfor )?(?:&\S* )?(?P<type>\w+)|^pub trait (?P<own>\w+)"
FUNCTION = r"^(?P<within> *)(?:pub(?:\(\w+\))? )?(?:const |unsafe )*fn (?P<name>\w+)"
TYPE = r"^(?:pub(?:\(\w+\))? )?(?:struct|enum) (?P<declared>\w+)"
ANY = re.compile(f"{METHODS}|{FUNCTION}|{TYPE}", re.MULTILINE)
"""Where the methods of a type or a trait begin, a function, or the declaration of a type."""


@functools.cache
def names_in(crate: str) -> tuple[list[tuple[str, str, str | None, str]], set[tuple[str, str]]]:
    """The functions of the crate in this folder, each with its module, and of a method the type that it is one of, and the trait, if any;
    and the types with their modules."""
    functions: list[tuple[str, str, str | None, str]] = []
    types: set[tuple[str, str]] = set()
    sources = os.path.join(crate, "src")
    for path in sorted(glob.glob(os.path.join(sources, "**", "*.rt"), recursive=True)):
        module = os.path.relpath(path, sources)[: -len(".rt")].replace(os.sep, "::")
        module = "" if module == "lib" else module
        of: tuple[str, str | None] = "", None
        with open(path, encoding="utf-8") as file:
            for one in ANY.finditer(file.read()):
                if one["declared"] is not None:
                    types.add((module, one["declared"]))
                elif one["name"] is None:
                    of = one["own"] or one["type"], one["trait"]
                else:
                    functions.append((module, *(of if one["within"] else ("", None)), one["name"]))
    return functions, types


def lacks_function(path: str) -> str | None:
    """The function that the edit names, where its crate doesn't have it.

    A method is named by the module where it stands, or where its type does. The methods of `impl Absorb<Summary> for Board` are those of
    `BoardAbsorbSummary`, and those of `impl<D, A> Session<D, A>` may be those of `Session+D+A`.
    """
    with open(path, encoding="utf-8") as file:
        named = re.search(r"^function: *(\S+)$", file.read(), re.MULTILINE)
    if named is None:
        return None
    where, _, name = named[1].rpartition("::")
    within, _, holder = where.rpartition("::")
    if not holder[:1].isupper():
        within, holder = where, ""
    holder = holder.partition("+")[0]
    functions, types = names_in(os.path.dirname(os.path.dirname(path)))
    for module, of, trait, function in functions:
        is_place = within == module or (within, of) in types
        if function == name and is_place and (holder == of if trait is None else holder.startswith(of + trait)):
            return None
    return named[1]


def fault_of(path: str) -> str | None:
    """Why the edit can't be made, or tried."""
    function = lacks_function(path)
    if function is not None:
        return f"its crate has no function '{function}'"
    texts: dict[str, str] = {}
    changes = changes_of(path)
    for at, old, new in changes:
        if at not in texts:
            if not os.path.isfile(os.path.join(TOP, at)):
                return f"there is no file '{at}'"
            with open(os.path.join(TOP, at), encoding="utf-8") as file:
                texts[at] = file.read()
        times = texts[at].count(old) if old else 0
        if times != 1:
            return f"{at} has '{old}' {times} times"
        if old == new:
            return f"'{old}' stays as it is"
        texts[at] = texts[at].replace(old, new)
    return None if changes else "it changes nothing"


def main() -> int:
    edits = sorted(path for folder in FOLDERS for path in glob.glob(os.path.join(TOP, folder, "*.edit")))
    failed = 0
    for path in edits:
        fault = fault_of(path)
        if fault is not None:
            print(f"{os.path.relpath(path, TOP)}: {fault}")
            failed += 1
    print(f"{len(edits) - failed} passed, {failed} failed")
    return 1 if failed or not edits else 0


if __name__ == "__main__":
    sys.exit(main())
