#!/usr/bin/env python3
"""Compares the table at the end of docs/PROVED-CALLS.md with the files of definitions, which are crates/*/specs/*.antt.

    tests/definitions.py [--write]

Each file is in the row of its crate once: under "To believe" or under "Steps of the program", as the `Lib.antt` beside it
says, with its number of lines; in bold where the contracts that docs/PROVED.md quotes are made of one of its definitions. With
--write the table is made again. The last line is `N passed, M failed`.
"""
import argparse
import os
import re
import sys

from definition_graph import CRATES, ROOT, files_reached, spec_text
from layout import laid_out
from proved import CALLS_PAGE, TABLE_TITLE, line_count, quoted_calls, text_of
from public_calls import calls_of, crates as libraries

BELIEVE, STEPS = "To believe", "Steps of the program"

INTRODUCTION = """
Files of `crates/CRATE/specs`, with their lines. **To believe**: a clause of a public call, of this crate or one above it,
or what a public type shows, uses one of its definitions, directly or through others. In **bold** are those that the
contracts quoted in `docs/PROVED.md` are made of. **Steps of the program**: only private functions, invariants and proofs use
them; nobody has to read them to know what is promised. Calls of inner crates in the lists above also use definitions of these
steps, which the quoted contracts don't: %s.

| Crate | To believe | Lines | In bold | Steps of the program | Lines |
|---|---|---|---|---|---|
"""

CLOSING = """
Lines are those of `wc -l`, comments included; the `Lib.antt` files, which only list modules, have %d more. Crates without a
row have no definitions. A file counts whole where one of its definitions does.
"""


def modules(crate):
    """By the name of each file of the crate the part of `Lib.antt` in which it is listed; None where it is in neither."""
    folder = os.path.join(CRATES, crate, "specs")
    found, part = {}, None
    for line in spec_text(crate, "Lib").split("\n"):
        if line.startswith("-- "):
            part = next((each for each in (BELIEVE, STEPS) if line.strip() == "-- %s." % each), None)
        listed = re.match(r"pub mod (\w+)$", line)
        if listed:
            found[listed[1]] = part
    for name in sorted(os.listdir(folder)):
        if name.endswith(".antt") and name != "Lib.antt":
            found.setdefault(name[:-5], None)
    return found


def crates():
    """The crates that have definitions, in the order of crates.txt."""
    with open(os.path.join(ROOT, "crates.txt"), encoding="utf-8") as file:
        names = [line.partition(":")[0].split()[0] for line in file if ":" in line and not line.startswith("#")]
    return [name for name in names if os.path.exists(os.path.join(CRATES, name, "specs", "Lib.antt")) and modules(name)]


def cell(crate, files, bold):
    """The cell of the table that names these files."""
    lines = [(name, line_count("%s/%s" % (crate, name)), "%s/%s" % (crate, name) in bold) for name in files]
    return ", ".join("%s %d" % ("**%s**" % name if is_bold else name, count) for name, count, is_bold in lines) or "-"


def row_of(crate, bold):
    """The row of a crate, with its three sums: to believe, in bold, steps."""
    listed = modules(crate)
    believed = [name for name, part in listed.items() if part == BELIEVE]
    steps = [name for name, part in listed.items() if part == STEPS]
    counts = [sum(line_count("%s/%s" % (crate, name)) for name in files) for files in (believed, steps)]
    strong = sum(line_count(name) for name in bold if name.startswith(crate + "/"))
    row = "| `%s` | %s | %d | %d | %s | %d |" % (
        crate,
        cell(crate, believed, bold),
        counts[0],
        strong,
        cell(crate, steps, bold),
        counts[1],
    )
    return row, (counts[0], strong, counts[1])


def library_lines():
    """The lines of all files `Lib.antt`."""
    return sum(len(spec_text(name, "Lib").splitlines()) for name in os.listdir(CRATES))


def inner_steps():
    """The files among the steps that public calls of inner crates use."""
    calls = [call for crate in libraries() for call in calls_of(crate) if call.public]
    parts = {"%s/%s" % (crate, name): part for crate in crates() for name, part in modules(crate).items()}
    return sorted(name for name in files_reached(calls) if parts.get(name) == STEPS)


def table():
    """The section, as it has to be."""
    bold = set(files_reached(quoted_calls()))
    rows = [row_of(crate, bold) for crate in crates()]
    sums = [sum(row[1][at] for row in rows) for at in range(3)]
    lines = [row for row, _ in rows] + ["| all | | %d | %d | | %d |" % tuple(sums)]
    introduction = INTRODUCTION % ", ".join("`%s`" % name for name in inner_steps())
    return laid_out(TABLE_TITLE + "\n" + introduction) + "\n".join(lines) + "\n" + laid_out(CLOSING % library_lines())


def problems():
    """What is wrong with the lists of the crates themselves."""
    bold = set(files_reached(quoted_calls()))
    for crate in crates():
        for name, part in modules(crate).items():
            if not spec_text(crate, name):
                yield "%s/%s: there is no such file" % (crate, name)
            elif part is None:
                yield "%s/%s is in neither part of Lib.antt" % (crate, name)
            elif part == STEPS and "%s/%s" % (crate, name) in bold:
                yield "%s/%s is among the steps, and a quoted contract uses it" % (crate, name)


def compare(text, wanted):
    """How many lines of the section are as they have to be, and what is wrong with the others."""
    here, there = text.split("\n"), wanted.split("\n")
    wrong = ["the page hasn't: %s" % line for line in there if line not in here]
    wrong += ["the page has what isn't so: %s" % line for line in here if line not in there]
    return sum(1 for line in there if line.startswith("| ") and line in here), wrong


def main():
    parser = argparse.ArgumentParser(description=__doc__.split("\n")[0])
    parser.add_argument("--write", action="store_true", help="make the table again")
    options = parser.parse_args()
    head, _, rest = text_of(CALLS_PAGE).partition(TABLE_TITLE)
    wanted = table()
    if options.write:
        with open(CALLS_PAGE, "w", encoding="utf-8") as file:
            file.write(head + wanted)
        rest = wanted[len(TABLE_TITLE) :]
    passed, wrong = compare(TABLE_TITLE + rest, wanted)
    wrong += problems()
    for problem in wrong:
        print(problem)
    print("%d passed, %d failed" % (passed, len(wrong)))
    return 1 if wrong else 0


if __name__ == "__main__":
    sys.exit(main())
