"""A picture of a journal: what `cspwatch show --format json` prints, as one HTML page that needs nothing else.

    cspwatch show --format json JOURNAL | python -m cspwatch_client.picture > page.html
"""
from __future__ import annotations

import argparse
import json
import math
import os
import pkgutil
import sys
from collections import Counter
from html import escape
from typing import Dict, Iterable, List, Optional, Tuple

from . import recorded
from .logs.packed import LogFault
from .replies import Status
from .shown import BadLine, Count, Coverage, Entry, Names, Shown, read

TITLE = "A journal of cspwatch"

GROUP = 200
"""How many rows a group has. A browser lays out only the groups that are seen."""

STATIC = 10000
"""The most entries whose rows are in the page as they are. Of more, the page's script draws the groups that are seen."""

FEW = 8
"""The most events of a reason. Of more, those that are nearest to the report are shown, and how many more there are."""

LONG = 160
"""The most characters of a row's text. The whole of a longer one is a note at the end of the page."""

WIDE, LANES = 28, 640
"""The most pixels of a lifeline, and of all together."""

CROWDED = 8
"""Below so many pixels for each, the lifelines are drawn as one field."""

BUCKETS = 150
"""The most parts of the strip that shows where in the history entries were rejected. At 400 pixels its marks still stand apart."""

PAGE = """<!DOCTYPE html>
<html lang="en">
<head>
<meta charset="utf-8">
<meta name="viewport" content="width=device-width, initial-scale=1">
<meta http-equiv="Content-Security-Policy" content="default-src 'none'; style-src 'unsafe-inline'; script-src 'unsafe-inline'">
<title>%(title)s</title>
<style>
%(style)s</style>
</head>
<body>
<header>
<h1>%(title)s</h1>
%(summary)s
%(legend)s
%(ways)s
</header>
<main>
%(history)s
%(coverage)s
%(notes)s
</main>
<footer>Made from what <code>cspwatch show</code> printed, or from a record of <code>cspwatch-logs</code>.</footer>
<script>
%(script)s</script>
</body>
</html>
"""

LEGEND = """<ul class="legend" aria-label="Legend">
<li><i class="event"></i> event, accepted</li>
<li class="no"><i class="event"></i> event, rejected</li>
<li><i class="refusal"></i> refusal, accepted</li>
<li class="no"><i class="refusal"></i> refusal, rejected</li>
<li><span class="broken"></span> entries between are not shown</li>
</ul>
<details>
<summary>How to read this page</summary>
<p>Each line from top to bottom is the lifeline of a seat. The entries are in the order of their places, the first at the top.</p>
<p>A circle is the report that an event happened. A square is the report that the system refuses every event of a set.</p>
<p><b>expected</b>: the events that could have come. <b>expected nothing</b>: no event could have come.</p>
<p><b>must offer one of</b>: the process may come to rest offering just one of these sets. It refuses a set of events
exactly where that shares no event with one of them, whichever that is.</p>
<p><b>never comes to rest</b>: the process goes on by itself, so it refuses no set, not even the empty one.</p>
<p><code>_tick</code> is termination.</p>
</details>"""

TOOLS = """<div class="tools" id="tools" hidden>
<button type="button" id="previous">Previous rejected <kbd>p</kbd></button>
<button type="button" id="next">Next rejected <kbd>n</kbd></button>
%s<form id="to"><label>Go to place <input type="number" id="place" min="1" required></label> <button type="submit">Go</button></form>
<output id="said"></output>
</div>"""

ONLY = """<label><input type="checkbox" id="only"> Rejected only <kbd>r</kbd></label>
"""


ROW = (
    '<li id="p%d" class="%s"><span>%d</span><i class="%s" style="--c:%d"></i><span>%d</span><span>%d</span>%s<span>%s</span></li>'
)
"""The row of an entry: place, kinds, place, mark, column, seat, number, report, verdict. The page's script fills it in too."""

Row = Tuple[int, str, int, str, int, int, int, str, str]


class Notes:
    """The texts that are too long for their rows. Each is kept once."""

    def __init__(self) -> None:
        self.numbers: Dict[str, int] = {}

    def short(self, text: str) -> str:
        """The text, or its beginning and a link to the note that has all of it."""
        if len(text) <= LONG:
            return "<code>%s</code>" % escape(text)
        end = text.rfind(" ", 0, LONG)
        return '<code>%s …</code> %s' % (escape(text[: end if end > 0 else LONG]), self.link(text))

    def first(self, names: Names, text: str) -> str:
        """As many of the names as a row has room for, how many more there are, and a link to the note that has the whole text."""
        shown = [name for at, name in enumerate(names[:FEW]) if at == 0 or len(" ".join(names[: at + 1])) <= LONG]
        if len(shown) == len(names) and len(text) <= LONG:
            return "<code>%s</code>" % escape(text)
        more = len(names) - len(shown)
        return "<code>%s</code>%s %s" % (escape(" ".join(shown)[:LONG]), " and %d more," % more if more else " …", self.link(text))

    def link(self, text: str) -> str:
        """A link to the note that has this text."""
        number = self.numbers.setdefault(text, len(self.numbers) + 1)
        return '<a href="#note%d">all in note %d</a>' % (number, number)

    def page(self) -> str:
        """The notes, as a part of the page."""
        if not self.numbers:
            return ""
        rows = ['<li id="note%d"><code>%s</code></li>' % (number, escape(text)) for text, number in self.numbers.items()]
        return '<section class="notes" id="notes">\n<h2>Notes</h2>\n<ol>\n%s\n</ol>\n</section>' % "\n".join(rows)


def render(lines: Iterable[str], title: str = TITLE) -> str:
    """The page of what `cspwatch show --format json` printed. A line that isn't of that form raises `BadLine`."""
    return page_of_entries(read(lines), title)


def render_record(record: Iterable[str], log: str, title: str = TITLE) -> str:
    """The page of a record of `cspwatch-logs` and of the log in this file. A line that is none of a record raises `BadLine`."""
    return page_of_entries(recorded.read(record, log), title)


def page_of_entries(shown: Shown, title: str) -> str:
    """The page."""
    notes = Notes()
    return PAGE % {
        "title": escape(title),
        "style": part("picture.css"),
        "script": part("picture.js"),
        "summary": summary(shown),
        "legend": LEGEND,
        "history": history(shown, notes),
        "coverage": coverage(shown.coverage, notes),
        "notes": notes.page(),
        "ways": ways(shown, notes),
    }


def part(name: str) -> str:
    """A file that lies beside this one."""
    found = pkgutil.get_data(__package__, name)
    assert found is not None
    return found.decode("utf-8")


def summary(shown: Shown) -> str:
    """The counts of the journal, and how much of it is on the page."""
    counts = shown.summary
    figures = [
        ("Judged", number(counts.judged), ""),
        ("Accepted events", number(counts.events), ""),
        ("Accepted refusals", number(counts.refusals), ""),
        ("Rejected", number(counts.rejected), ' class="bad"' if counts.rejected else ""),
        ("Session", "closed" if counts.closed else "open", ""),
    ]
    cells = ["<div%s><dt>%s</dt><dd>%s</dd></div>" % (kind, name, figure) for name, figure, kind in figures]
    return '<dl class="figures">%s</dl>%s' % ("".join(cells), left_out(shown.entries, counts))


def left_out(entries: Tuple[Entry, ...], counts: Status) -> str:
    """A sentence on the entries that the page doesn't have."""
    if len(entries) == counts.judged:
        return ""
    if len(entries) == counts.rejected and not any(entry.accepted for entry in entries):
        return "\n<p>This page has the rejected entries only: %s of %s.</p>" % (number(len(entries)), number(counts.judged))
    return "\n<p>This page has %s of %s entries.</p>" % (number(len(entries)), number(counts.judged))


def number(count: int) -> str:
    return format(count, ",")


def ways(shown: Shown, notes: Notes) -> str:
    """Links to the parts of a page that has more than the entries."""
    parts = [("history", "Entries", True), ("coverage", "Coverage", shown.coverage is not None), ("notes", "Notes", bool(notes.numbers))]
    links = ['<a href="#%s">%s</a>' % (place, name) for place, name, there in parts if there]
    return "<nav>%s</nav>" % "".join(links) if len(links) > 1 else ""


def history(shown: Shown, notes: Notes) -> str:
    """The lifelines of the seats with their entries."""
    entries = shown.entries
    if not entries:
        return '<h2 id="history">Entries</h2>\n<p>There are none.</p>'
    seats = sorted({entry.seat for entry in entries})
    column = {seat: at for at, seat in enumerate(seats)}
    filtered = TOOLS % (ONLY if any(entry.accepted for entry in entries) else "")
    return '<h2>Entries</h2>\n<div class="history%s" id="history" style="%s">\n<div class="top" id="top">\n%s\n%s%s\n</div>\n%s\n</div>' % (
        " crowded" if width_of(len(seats)) < CROWDED else "",
        "--p:%dpx;--n:%d;--wide:%gpx" % (max(40, 9 * len(str(entries[-1].place))), len(seats), width_of(len(seats))),
        filtered,
        whole(shown),
        heads(seats),
        groups(entries, column, notes),
    )


def width_of(lanes: int) -> float:
    """How many pixels wide each of so many lifelines is: a whole number where it is drawn by itself."""
    width = LANES / lanes
    return min(WIDE, int(width)) if width >= CROWDED else width


def heads(seats: List[int]) -> str:
    """The row above the entries, with the numbers of the seats. Where they are too close, only some of them are shown."""
    width = width_of(len(seats))
    digits = len(str(seats[-1]))
    upright = width < 7 * digits + 2
    every = max(1, math.ceil(10 / width)) if upright else 1
    in_print = max(every, (len(seats) + 15) // 16)
    labels = []
    for at, seat in enumerate(seats):
        kind = ' class="few"' if at % every else ' class="print-few"' if at % in_print else ""
        labels.append('<span style="--c:%d"%s>%d</span>' % (at, kind, seat))
    return (
        '<div class="row" aria-hidden="true"><span>Place</span><div class="seats%s" style="--tall:%dpx">%s</div>'
        "<span>Seat</span><span>Its report</span><span>What was reported</span><span>Verdict</span></div>"
    ) % (" upright" if upright else "", 8 * digits + 2, "".join(labels))


def whole(shown: Shown) -> str:
    """A strip from the first place to the last, with a mark wherever entries were rejected: the more there were, the higher."""
    last = shown.summary.judged
    rejected = [entry.place for entry in shown.entries if not entry.accepted]
    if not rejected or len(shown.entries) <= 30:
        return ""
    buckets = min(last, BUCKETS)
    marked = Counter((place - 1) * buckets // last for place in rejected)
    most = max(marked.values())
    path = "".join("M%d 9h.6v-%dh-.6z" % (bucket, 3 + 6 * count // most) for bucket, count in sorted(marked.items()))
    return (
        '<div class="whole" id="whole" data-last="%d" aria-hidden="true" title="Where entries were rejected, from the first place to the last">'
        '<svg viewBox="0 0 %d 9" preserveAspectRatio="none"><path d="%s"/></svg><div hidden></div></div>\n'
    ) % (last, buckets, path)


def groups(entries: Tuple[Entry, ...], column: Dict[int, int], notes: Notes) -> str:
    """The rows of the entries, in groups. Where there are many, the rows are handed to the page's script."""
    written = []
    handed = Handed() if len(entries) > STATIC else None
    before: Optional[Entry] = None
    for begin in range(0, len(entries), GROUP):
        group = entries[begin : begin + GROUP]
        rows = []
        for entry in group:
            rows.append(row(entry, before, column[entry.seat], notes))
            before = entry
        if handed is not None:
            handed.add(rows)
        written.append(group_of(group, "" if handed is not None else "\n%s\n" % "\n".join(ROW % one for one in rows)))
    return '<div class="entries" id="entries">\n<div class="lanes" aria-hidden="true">%s</div>\n%s\n</div>%s' % (
        "".join('<i style="--c:%d"></i>' % at for at in column.values() if width_of(len(column)) >= CROWDED),
        "\n".join(written),
        handed.page() if handed is not None else "",
    )


def group_of(group: Tuple[Entry, ...], rows: str) -> str:
    """A group of entries, with what the page's script has to know of it."""
    rejected = [entry.place for entry in group if not entry.accepted]
    return '<ol aria-label="Places %d to %d" data-first="%d" data-no="%s" style="--all:%d;--no:%d">%s</ol>' % (
        group[0].place,
        group[-1].place,
        group[0].place,
        " ".join(map(str, rejected)),
        len(group),
        len(rejected),
        rows,
    )


class Handed:
    """Rows that are handed to the page's script: of each the numbers of its texts, and each text once."""

    def __init__(self) -> None:
        self.texts: Dict[str, int] = {}
        self.groups: List[List[int]] = []

    def add(self, rows: List[Row]) -> None:
        """The rows of the next group."""
        numbers: List[int] = []
        for place, kinds, _, mark, column, seat, number, *words in rows:
            numbers += (place, column, seat, number)
            numbers += (self.texts.setdefault(text, len(self.texts)) for text in (kinds, mark, *words))
        self.groups.append(numbers)

    def page(self) -> str:
        """The rows, as a part of the page."""
        found = {"row": ROW, "texts": list(self.texts), "groups": self.groups}
        # Names are escaped, so the only text that could end the element is that of a closing tag.
        text = json.dumps(found, ensure_ascii=False, separators=(",", ":")).replace("</", "<\\/")
        return (
            "\n<noscript><p>Without JavaScript this page doesn't show the entries of so long a journal.</p></noscript>"
            '\n<script type="application/json" id="rows">%s</script>' % text
        )


def row(entry: Entry, before: Optional[Entry], column: int, notes: Notes) -> Row:
    """The row of an entry, as what `ROW` takes. `before` is the entry above it on the page."""
    kinds = ["row"] + ([] if entry.accepted else ["no"])
    if before is not None and before.place < entry.place - 1:
        kinds.append("gap")
    elif before is not None and not entry.accepted and before.accepted:
        # Among the rejected entries alone there is a gap above this one.
        kinds.append("alone")
    return (
        entry.place,
        " ".join(kinds),
        entry.place,
        "refusal" if entry.refusal else "event",
        column,
        entry.seat,
        entry.number,
        report(entry, notes),
        "accepted" if entry.accepted else "<strong>rejected</strong>" + ("" if entry.line else ": " + reason(entry, notes)),
    )


def report(entry: Entry, notes: Notes) -> str:
    """What was reported, as a cell."""
    if entry.refusal:
        return '<span><span class="kind">refusal</span> %s%s</span>' % (notes.short(braced(entry.events)), line(entry, notes))
    return '<span><span class="kind">event</span> %s%s</span>' % (notes.short(entry.events[0]), line(entry, notes))


def line(entry: Entry, notes: Notes) -> str:
    """The line of the log that reported it, with its time in front."""
    if not entry.line:
        return ""
    time = "<time>%s</time> " % escape(entry.time) if entry.time is not None else ""
    return '<small class="line">%s%s %s</small>' % (time, escape(shown_text(entry.line)), notes.short(shown_text(entry.text)))


def shown_text(text: str) -> str:
    """The text without control characters, and without those that turn the direction of writing."""
    return "".join(letter if letter.isprintable() else ascii(letter)[1:-1] for letter in text)


def reason(entry: Entry, notes: Notes) -> str:
    """Why the entry was rejected."""
    if not entry.refusal:
        if not entry.expected:
            return "expected nothing"
        return "expected " + notes.first(nearest(entry.expected, entry.events[0]), " ".join(entry.expected))
    if not entry.acceptances:
        return "never comes to rest"
    sets = tuple(braced(offered_first(one, entry.events)) for one in entry.acceptances)
    return "must offer one of " + notes.first(sets, " ".join(braced(one) for one in entry.acceptances))


def nearest(names: Names, event: str) -> Names:
    """The events in their order where they are few; else those of the event's channel first, then those that share a value with it."""
    if len(names) <= FEW and len(" ".join(names)) <= LONG:
        return names
    channel, *values = event.split(".")

    def distance(name: str) -> int:
        own, *others = name.split(".")
        return 0 if own == channel else 1 if set(values) & set(others) else 2

    return tuple(sorted(names, key=distance))


def offered_first(names: Names, refused: Names) -> Names:
    """The events of a set in their order where they are few; else first those that were reported to be refused."""
    if len(names) <= FEW:
        return names
    return tuple(sorted(names, key=lambda name: name not in refused))


def braced(names: Names) -> str:
    return "{%s}" % " ".join(names)


def coverage(covered: Optional[Coverage], notes: Notes) -> str:
    """How often each event came, and how often it could have come."""
    if covered is None:
        return ""
    most = max([1] + [max(count.accepted, count.rejected, count.possible) for count in covered.counts])
    never, not_possible = set(covered.never_came), set(covered.could_never_come)
    rows = []
    for count in covered.counts:
        remark = "could never come" if count.event in not_possible else "never came" if count.event in never else ""
        rows.append(counted(count, most, remark, notes))
    return """<section class="coverage" id="coverage">
<h2>Coverage</h2>
<p>Events that could have come and never did: %s. Events that could have come before no entry: %s.</p>
<ul class="legend">
<li><span class="bar accepted"></span> how often it was accepted</li>
<li><span class="bar rejected"></span> how often it was rejected</li>
<li><span class="bar possible"></span> before how many entries it could have come</li>
</ul>
<table>
<thead><tr><th scope="col">Event</th><th scope="col" class="number">Accepted</th><th scope="col" class="number">Rejected</th>\
<th scope="col" class="number">Possible</th><th scope="col" class="bars">As bars</th><th scope="col">Remark</th></tr></thead>
<tbody>
%s
</tbody>
</table>
</section>""" % (
        listed(covered.never_came),
        listed(covered.could_never_come),
        "\n".join(rows),
    )


def listed(names: Names) -> str:
    return " ".join("<code>%s</code>" % escape(name) for name in names) or "none"


def counted(count: Count, most: int, remark: str, notes: Notes) -> str:
    """The row of an event, with bars of which the longest stands for `most`."""
    parts = [("accepted", count.accepted), ("rejected", count.rejected), ("possible", count.possible)]
    return '<tr><td>%s</td>%s<td class="bars">%s</td><td>%s</td></tr>' % (
        notes.short(count.event),
        "".join('<td class="number">%s</td>' % number(figure) for _, figure in parts),
        "".join('<div class="bar %s" style="width:%.4g%%"></div>' % (kind, 100 * figure / most) for kind, figure in parts if figure),
        remark,
    )


def main(words: Optional[List[str]] = None) -> int:
    """Reads a file, or standard input, and writes the page on standard output."""
    parser = argparse.ArgumentParser(prog="python -m cspwatch_client.picture", description=(__doc__ or "").split("\n")[0])
    parser.add_argument("--title", default=TITLE, help="the title of the page")
    parser.add_argument("file", metavar="FILE", nargs="?", help="what `cspwatch show --format json` printed; standard input where there is none")
    parser.add_argument("--record", metavar="FILE", help="what `cspwatch-logs --record` wrote, in place of that")
    parser.add_argument("--log", metavar="LOG", help="the log that the record is of")
    options = parser.parse_args(words)
    if (options.record is None) != (options.log is None) or options.record is not None and options.file is not None:
        parser.error("--record goes with --log, and without FILE")
    name = options.record or options.file or "standard input"
    try:
        page = page_of(options.file, options.title) if options.record is None else page_of_record(options.record, options.log, options.title)
        name = "standard output"
        with open(sys.stdout.fileno(), "wb", closefd=False) as out:
            out.write(page.encode("utf-8", "replace"))
    except LogFault as error:
        print(shown_text(str(error)), file=sys.stderr)
        return 5
    except OSError as error:
        print("%s: %s" % (shown_text(os.fsdecode(error.filename or name)), error.strerror), file=sys.stderr)
        return 5
    except BadLine as error:
        print("%s: %s" % (name, error), file=sys.stderr)
        return 1
    return 0


def page_of(file: Optional[str], title: str) -> str:
    """The page of what a file has, or standard input where there is none."""
    if file is None:
        return render(text_of(sys.stdin.buffer), title)
    with open(file, "rb") as lines:
        return render(text_of(lines), title)


def page_of_record(record: str, log: str, title: str) -> str:
    """The page of a record and its log."""
    with open(record, "rb") as lines:
        return render_record(text_of(lines), log, title)


def text_of(lines: Iterable[bytes]) -> Iterable[str]:
    """The lines as text. A byte that isn't UTF-8 becomes a character that no event's name has."""
    return (line.decode("utf-8", "replace") for line in lines)


if __name__ == "__main__":
    sys.exit(main())
