#!/usr/bin/env python3
"""Prints the tables of docs/PERFORMANCE.md and docs/GATE.md from the newest file of bench/results.

    bench/tables.py [--write] [TABLE ..]

A file DATE.csv has a line for each figure: subject, program, version, figure, unit, machine, load. A subject is
`TABLE / ROW / COLUMN`; figures of another program than cspwatch that stand in one table with those of cspwatch have a column of
their own. On a page a table stands below `<!-- table: TABLE -->`; `<!-- table: TABLE, at least N -->` has the rows alone whose
first figure is as large, the largest first. With --write the pages get the tables.
"""
import argparse
import collections
import csv
import os
import re
import sys

ROOT = os.path.dirname(os.path.dirname(os.path.abspath(__file__)))
RESULTS = os.path.join(ROOT, "bench", "results")
PAGES = os.path.join("docs", "PERFORMANCE.md"), os.path.join("docs", "GATE.md")

MARK = re.compile(r"(<!-- table: ([\w ]+?)(?:, at least (\d+))? -->\n)((?:\|[^\n]*\n)*)")
"""The place of a table on a page, with the table that is there."""

Figure = collections.namedtuple("Figure", "row column text value")
"""A figure of a table: its row, its column's title, how it is written, and its number."""


def newest():
    """The newest file of results."""
    names = sorted(name for name in os.listdir(RESULTS) if re.fullmatch(r"\d{4}-\d\d-\d\d\.csv", name))
    if not names:
        raise SystemExit("bench/results has no file DATE.csv")
    return os.path.join(RESULTS, names[-1])


def written(text):
    """A number as the pages write it: digits in threes before the point."""
    whole, dot, rest = text.partition(".")
    return re.sub(r"(?<=\d)(?=(\d{3})+$)", ",", whole) + dot + rest


def title(column, unit, program):
    """The title of a column."""
    shown = column if unit in ("ratio", "count") else "%s (%s)" % (column, unit)
    return shown if program is None else "%s: %s" % (program, shown)


def tables():
    """By name, the figures of each table, in the order of the file."""
    found = collections.OrderedDict()
    with open(newest(), encoding="utf-8", newline="") as file:
        lines = list(csv.DictReader(file))
    own = {line["subject"].split(" / ")[0] for line in lines if line["program"] == "cspwatch"}
    for line in lines:
        table, row, column = line["subject"].split(" / ")
        other = line["program"] if table in own and line["program"] != "cspwatch" else None
        figure = Figure(row, title(column, line["unit"], other), written(line["figure"]), float(line["figure"]))
        found.setdefault(table, []).append(figure)
    return found


def drawn(figures, least=None):
    """The table of these figures."""
    rows, columns = collections.OrderedDict(), []
    for figure in figures:
        rows.setdefault(figure.row, {})[figure.column] = figure
        if figure.column not in columns:
            columns.append(figure.column)
    listed = list(rows.items())
    if least is not None:
        listed = [item for item in listed if item[1][columns[0]].value >= least]
        listed.sort(key=lambda item: -item[1][columns[0]].value)
    lines = ["| | %s |" % " | ".join(columns), "|---|%s" % ("---|" * len(columns))]
    for row, cells in listed:
        texts = [cells[column].text if column in cells else "" for column in columns]
        lines.append("| %s | %s |" % (row, " | ".join(texts)))
    return re.sub(r"\|  (?=\|)", "| ", "\n".join(lines)) + "\n"


def with_tables(text):
    """The page, with its tables made again."""
    figures = tables()

    def made(mark):
        if mark[2] not in figures:
            raise SystemExit("%s has no table `%s`" % (os.path.relpath(newest(), ROOT), mark[2]))
        return mark[1] + drawn(figures[mark[2]], int(mark[3]) if mark[3] else None)

    return MARK.sub(made, text)


def main():
    parser = argparse.ArgumentParser(description=__doc__.split("\n")[0])
    parser.add_argument("--write", action="store_true", help="put the tables into the pages")
    parser.add_argument("names", metavar="TABLE", nargs="*")
    options = parser.parse_args()
    if options.write:
        for page in PAGES:
            path = os.path.join(ROOT, page)
            with open(path, encoding="utf-8") as file:
                text = file.read()
            with open(path, "w", encoding="utf-8") as file:
                file.write(with_tables(text))
        return 0
    for name, figures in tables().items():
        if not options.names or name in options.names:
            print("%s\n\n%s" % (name, drawn(figures)))
    return 0


if __name__ == "__main__":
    sys.exit(main())
