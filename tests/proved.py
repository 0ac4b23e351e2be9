#!/usr/bin/env python3
"""Compares docs/PROVED.md and docs/PROVED-CALLS.md with the sources that they quote and list.

    tests/proved.py [--write]

In docs/PROVED.md the block below `<!-- quoted: CRATE::CALL -->` is the call's contract as crates/CRATE/src has it, that
below `<!-- defined: CRATE/FILE.NAME -->` the definition with its comment, as crates/CRATE/specs/FILE.antt has them, and
what stands between `<!-- definitions -->` and `<!-- end -->` are the files that the contracts quoted in that section are
made of: bottom up, without those of an earlier section. `<!-- definitions, but those of CRATE::CALL -->` leaves that
call's own out.
docs/PROVED-CALLS.md has a line for each public call of the product's libraries, and then the table of tests/definitions.py.
With --write both pages are made to be so. The last line is `N passed, M failed`.
"""
import argparse
import os
import re
import sys
import textwrap

from definition_graph import ROOT, files_reached, spec_text
from layout import laid_out
from public_calls import calls_of, clause_names, crates, find, first_sentence

PAGE = os.path.join(ROOT, "docs", "PROVED.md")
CALLS_PAGE = os.path.join(ROOT, "docs", "PROVED-CALLS.md")
TABLE_TITLE = "## How much there is to believe"

QUOTED = re.compile(r"(<!-- quoted: ([\w:]+) -->\n```rust\n).*?(\n```)", re.DOTALL)
"""A quoted contract."""

DEFINED = re.compile(r"(<!-- defined: (\w+)/(\w+)\.(\w+) -->\n```text\n).*?(\n```)", re.DOTALL)
"""A quoted definition."""

LISTED = re.compile(r"(<!-- definitions(?:, but those of ([\w:, ]+))? -->\n).*?(\n<!-- end -->)", re.DOTALL)
"""A list of files of definitions."""

HEAD = """# Public calls, and the definitions behind them

`docs/PROVED.md` has the theorems, and what they don't say. This page lists what they are made of. `tests/proved.py --write`
and `tests/definitions.py --write` make it from the sources.

Each public call of the product's libraries has a line: the names of its `ensures` clauses, in the order of the source (`result`
is one without a name), and the first sentence of its docstring. The clauses themselves are in `crates/CRATE/src`. A call without
clauses promises only that it is safe. A law is a function that does nothing: what its clauses say always holds.
"""


def contract(call):
    """A call's signature and clauses, as the source has them."""
    signature, clauses = textwrap.dedent(call.signature), call.clauses.strip("\n")
    indent = re.match(r"\s*", call.signature.split("\n")[0])[0]
    lines = [line[len(indent) :] if line.startswith(indent) else line for line in clauses.split("\n")]
    return signature.strip("\n") + "\n" + "\n".join(lines)


def definition(crate, file, name):
    """A record with the comment before it, as the file of definitions has it."""
    text = spec_text(crate, file)
    found = re.search(r"(?m)^(--.*\n)*^pub record %s\b.*(\n +.*)*" % name, text)
    if found is None:
        raise SystemExit("docs/PROVED.md: there is no record %s in crates/%s/specs/%s.antt" % (name, crate, file))
    return found[0]


def line_count(name):
    """The lines of the file `CRATE/FILE` of definitions."""
    return len(spec_text(*name.split("/")).splitlines())


def reading_list(files):
    """What there is to read, crate by crate where files of one crate come together."""
    groups = []
    for name in files:
        crate, _, file = name.partition("/")
        if groups and groups[-1][0] == crate:
            groups[-1][1].append(file)
        else:
            groups.append((crate, [file]))
    named = ", ".join("`%s`: %s" % (crate, " ".join(inside)) for crate, inside in groups)
    return "Read in this order (%d files, %d lines): %s." % (len(files), sum(map(line_count, files)), named.replace(",", ";"))


def sections(text):
    """The parts of a page, each from a heading on."""
    return re.split(r"(?m)^(?=##+ )", text)


def written_page(text):
    """docs/PROVED.md, with its contracts quoted and its files listed again."""
    found, seen = [], set()
    for section in sections(text):
        section = QUOTED.sub(lambda quoted: quoted[1] + contract(find(quoted[2])) + quoted[3], section)
        section = DEFINED.sub(lambda quoted: quoted[1] + definition(*quoted.group(2, 3, 4)) + quoted[5], section)
        calls = [find(path) for _, path, _ in QUOTED.findall(section)]

        def listed(match, calls=calls):
            later = [find(path.strip()) for path in (match[2] or "").split(",") if path.strip()]
            own = set(files_reached(later))
            files = [name for name in files_reached(calls) if name not in seen and name not in own]
            seen.update(files)
            return match[1] + reading_list(files) + match[3]

        found.append(LISTED.sub(listed, section))
    return laid_out("".join(found))


def quoted_calls():
    """The calls that docs/PROVED.md quotes."""
    with open(PAGE, encoding="utf-8") as file:
        return [find(path) for _, path, _ in QUOTED.findall(file.read())]


def escaped(text):
    """A text as a cell of a table has it."""
    return text.replace("|", "\\|")


def row_of(call):
    """The line of a call."""
    clauses = ", ".join(name or "result" for name in clause_names(call))
    return "| `%s` | %s | %s |" % (call.name, clauses or "-", escaped(first_sentence(call.comment)))


def calls_section():
    """The lines of all public calls, by crate."""
    lines = []
    for crate in crates():
        calls = [call for call in calls_of(crate) if call.public]
        if calls:
            lines += ["", "## `%s`" % crate, "", "| Call | Clauses | What it does |", "|---|---|---|"]
            lines += [row_of(call) for call in calls]
    return "\n".join(lines) + "\n\n"


def written_calls(text):
    """docs/PROVED-CALLS.md; its table stays."""
    table = text[text.index(TABLE_TITLE) :] if TABLE_TITLE in text else TABLE_TITLE + "\n"
    return laid_out(HEAD) + calls_section() + table


def text_of(path):
    if not os.path.exists(path):
        return ""
    with open(path, encoding="utf-8") as file:
        return file.read()


def compare(path, wanted, write):
    """Whether the page is as it has to be; with `write` it is then made so."""
    if text_of(path) == wanted:
        return True
    if write:
        with open(path, "w", encoding="utf-8") as file:
            file.write(wanted)
        print("%s: written" % os.path.relpath(path, ROOT))
        return True
    print("%s: differs from the sources: run tests/proved.py --write" % os.path.relpath(path, ROOT))
    return False


def main():
    parser = argparse.ArgumentParser(description=__doc__.split("\n")[0])
    parser.add_argument("--write", action="store_true", help="make both pages from the sources")
    options = parser.parse_args()
    pages = (PAGE, written_page), (CALLS_PAGE, written_calls)
    results = [compare(path, written(text_of(path)), options.write) for path, written in pages]
    print("%d passed, %d failed" % (results.count(True), results.count(False)))
    return 0 if all(results) else 1


if __name__ == "__main__":
    sys.exit(main())
