"""A look at logs before the first line is judged: whether what the map says of their times and fields can be so."""
from __future__ import annotations

import os
from typing import Iterator, List, Sequence, Set

from .maps import Map
from .merging import check_zones, form_for, unreadable
from .reading import Line, Source
from .times import Stamp

MOST_LINES = 10_000
"""In so many lines from the beginning of a log a time has to be."""


def look(found: Map, names: Sequence[str], follow: bool) -> None:
    """Finds times that can't be read, logs of different zones, and paths that no line has (`MapFault`). Logs that aren't files can't be
    read twice, and aren't looked at."""
    files = [name for name in names if os.path.isfile(name)]
    if found.time is not None:
        stamps = [(name, stamp) for name in files for stamp in first_stamp(found, name, follow)]
        if len(stamps) > 1:
            check_zones(found, stamps)
    if found.json is not None and files and len(files) == len(names) and not follow:
        look_for_paths(found, files)


def lines_of(name: str) -> Iterator[Line]:
    """The lines of a log."""
    source = Source(name)
    try:
        while not source.ended:
            yield from source.read()
    finally:
        if name != "-":
            os.close(source.descriptor)


def first_stamp(found: Map, name: str, follow: bool) -> List[Stamp]:
    """The first time in the log; none where it has no line yet, or where it is followed and may still get one."""
    form = form_for(found, name)
    number = 0
    for number, line in enumerate(lines_of(name), 1):
        text = form.text(line.text, found.json)
        if text is not None:
            try:
                return [form.format.read(text)]
            except ValueError as error:
                raise unreadable(found, form, line, text, error) from None
        if number == MOST_LINES:
            break
    if number and not follow:
        key = "pattern" if form.pattern is not None else "field"
        raise found.fault((*form.path, key), "none of the first %d lines of %s has a time" % (number, name))
    return []


def look_for_paths(found: Map, names: Sequence[str]) -> None:
    """Finds a path that no line has."""
    assert found.json is not None
    missing: Set[str] = set(found.json.fields)
    some = False
    for name in names:
        for line in lines_of(name):
            for record in found.json.records(line.text):
                some = True
                missing -= {field for field in missing if record[field] is not None}
            if not missing:
                return
    for field in found.json.fields:
        if some and field in missing:
            raise found.fault(("json", "fields", field), "no line has the path %s" % ".".join(found.json.fields[field]))
