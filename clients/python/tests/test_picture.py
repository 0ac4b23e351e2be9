"""The picture of a journal, of lines that are written down. Run by `python3 -m unittest discover -s clients/python/tests`."""
import html.parser
import json
import os
import re
import subprocess
import sys
import tempfile
import unittest

HERE = os.path.dirname(os.path.abspath(__file__))
sys.path[:0] = [os.path.dirname(HERE)]

from cspwatch_client import BadLine, Status  # noqa: E402
from cspwatch_client.picture import ROW, STATIC, nearest, render  # noqa: E402
from cspwatch_client.shown import Count, Coverage, Entry, read  # noqa: E402

# They show each form, and are not of one process.
ENTRIES = [
    '{"place":1,"seat":1,"number":1,"report":"event","events":["coin"],"verdict":"OK"}',
    '{"place":2,"seat":1,"number":2,"report":"event","events":["tea"],"verdict":"NO","expected":["coin"]}',
    '{"place":3,"seat":2,"number":1,"report":"refusal","events":["coin","tea"],"verdict":"NO","acceptances":[["coin"],["milk","tea"]]}',
    '{"place":4,"seat":2,"number":2,"report":"event","events":["tea"],"verdict":"NO","expected":[]}',
    '{"place":5,"seat":2,"number":3,"report":"refusal","events":["coin"],"verdict":"NO","acceptances":[]}',
    '{"place":6,"seat":2,"number":4,"report":"refusal","events":[],"verdict":"OK"}',
]
COVERAGE = [
    '{"event":"coin","accepted":3,"rejected":1,"possible":5}',
    '{"event":"_tick","accepted":0,"rejected":0,"possible":0}',
    '{"never_came":["a","b"],"could_never_come":["c","d"]}',
]
SUMMARY = '{"judged":6,"events":1,"refusals":1,"rejected":4,"closed":false}'


def event(place, name="a", seat=1, verdict="OK", **more):
    """The line of an event."""
    fields = {"place": place, "seat": seat, "number": place, "report": "event", "events": [name], "verdict": verdict}
    return json.dumps({**fields, **more})


def summary(judged, rejected=0, closed=False):
    return json.dumps({"judged": judged, "events": judged - rejected, "refusals": 0, "rejected": rejected, "closed": closed})


class Page(html.parser.HTMLParser):
    """A page as it is read: its rows, its words, its elements and their ids."""

    VOID = ("meta", "input")

    def __init__(self, text):
        super().__init__()
        self.open, self.rows, self.cells, self.tags, self.ids, self.attributes = [], [], [], [], [], []
        self.words = self.title = ""
        self.in_row = False
        self.feed(text)
        self.close()
        assert not self.open, self.open

    def handle_starttag(self, tag, attributes):
        found = dict(attributes)
        self.tags.append(tag)
        self.attributes += attributes
        self.ids += [found["id"]] if "id" in found else []
        if self.open and self.open[-1] == "li" and self.in_row:
            self.rows[-1][2].append("")
        if tag == "li":
            self.in_row = found.get("id", "").startswith("p")
            if self.in_row:
                self.rows.append((found["id"], found["class"].split(), []))
        if tag == "tr":
            self.cells.append([])
        if tag in ("td", "th"):
            self.cells[-1].append("")
        if tag not in self.VOID:
            self.open.append(tag)

    def handle_endtag(self, tag):
        assert self.open.pop() == tag, tag

    def handle_data(self, data):
        if self.open and self.open[-1] == "title":
            self.title += data
        if "script" in self.open or "style" in self.open:
            return
        self.words += data
        if "li" in self.open and self.in_row:
            self.rows[-1][2][-1] += data
        if "td" in self.open or "th" in self.open:
            self.cells[-1][-1] += data


def texts(page):
    """The words of each row: what was reported, and the verdict."""
    return [tuple(cells[4:]) for _, _, cells in page.rows]


class Reads(unittest.TestCase):
    def test_all_kinds_of_lines(self):
        shown = read(ENTRIES + COVERAGE + [SUMMARY])
        self.assertEqual(len(shown.entries), 6)
        self.assertEqual(shown.entries[0], Entry(1, 1, 1, False, ("coin",), True))
        self.assertEqual(shown.entries[1], Entry(2, 1, 2, False, ("tea",), False, expected=("coin",)))
        self.assertEqual(
            shown.entries[2], Entry(3, 2, 1, True, ("coin", "tea"), False, acceptances=(("coin",), ("milk", "tea")))
        )
        self.assertEqual(shown.entries[5], Entry(6, 2, 4, True, (), True))
        self.assertEqual(
            shown.coverage, Coverage((Count("coin", 3, 1, 5), Count("_tick", 0, 0, 0)), ("a", "b"), ("c", "d"))
        )
        self.assertEqual(shown.summary, Status(6, 1, 1, 4, closed=False))

    def test_without_coverage_and_without_entries(self):
        self.assertIsNone(read(ENTRIES + [SUMMARY]).coverage)
        self.assertEqual(read([summary(0)]).entries, ())

    def test_places_with_gaps_and_line_ends(self):
        shown = read(line + "\n" for line in [ENTRIES[1], ENTRIES[4], SUMMARY])
        self.assertEqual([entry.place for entry in shown.entries], [2, 5])

    def wrong(self, lines, line, reason):
        with self.subTest(lines=lines), self.assertRaises(BadLine) as caught:
            read(lines)
        if caught.exception is not None:
            self.assertEqual((caught.exception.line, caught.exception.reason), (line, reason))
            self.assertEqual(str(caught.exception), "line %d: %s" % (line, reason))

    def test_lines_that_are_no_objects(self):
        for text in ("", "\n", "S 6 1 1 4 open", "{", '{"place":1}}', "[" * 100000, "{'place':1}", "1" * 5000, '{"place":' + "1" * 5000 + "}"):
            self.wrong([ENTRIES[0], text], 2, "this isn't JSON")
        for text in ("[]", "1", "null", '"place"'):
            self.wrong([ENTRIES[0], text], 2, "this isn't a JSON object")
        self.wrong(['{"place":1,"place":1}'], 1, "a field comes twice")
        for text in ("{}", '{"a":1}', '{"events":1}'):
            self.wrong([text], 1, "this is no entry, no count of an event and no summary")

    def test_fields(self):
        rows = [
            ({"place": 0}, "`place` isn't a whole number from 1 on"),
            ({"place": True}, "`place` isn't a whole number from 1 on"),
            ({"seat": "1"}, "`seat` isn't a whole number from 1 on"),
            ({"number": 1.0}, "`number` isn't a whole number from 1 on"),
            ({"report": "E"}, '`report` isn\'t "event" or "refusal"'),
            ({"report": ["event"]}, '`report` isn\'t "event" or "refusal"'),
            ({"verdict": "ok"}, '`verdict` isn\'t "OK" or "NO"'),
            ({"verdict": None}, '`verdict` isn\'t "OK" or "NO"'),
            ({"events": []}, "`events` of an event has 0 names, and not one"),
            ({"events": ["a", "b"]}, "`events` of an event has 2 names, and not one"),
            ({"events": "a"}, "`events` isn't a list of events' names"),
            ({"events": ["a b"]}, "`events` isn't a list of events' names"),
            ({"events": [""]}, "`events` isn't a list of events' names"),
            ({"events": ["\u00e4"]}, "`events` isn't a list of events' names"),
            ({"events": [1]}, "`events` isn't a list of events' names"),
            ({"expected": []}, "the field 'expected' doesn't belong here"),
            ({"\x1b": 1}, "the field '\\x1b' doesn't belong here"),
            ({"verdict": "NO"}, "the field `expected` is missing"),
            ({"verdict": "NO", "expected": {}}, "`expected` isn't a list of events' names"),
            ({"verdict": "NO", "report": "refusal"}, "the field `acceptances` is missing"),
            ({"verdict": "NO", "report": "refusal", "expected": []}, "the field `acceptances` is missing"),
            ({"verdict": "NO", "report": "refusal", "acceptances": ["a"]}, "`acceptances` isn't a list of lists of events' names"),
            ({"verdict": "NO", "report": "refusal", "acceptances": [["a", 1]]}, "`acceptances` isn't a list of lists of events' names"),
        ]
        for change, reason in rows:
            self.wrong([event(1, **change)] if "place" not in change else [json.dumps({**json.loads(event(1)), **change})], 1, reason)
        for field in ("seat", "number", "report", "events", "verdict"):
            fields = json.loads(event(1))
            del fields[field]
            self.wrong([json.dumps(fields)], 1, "the field `%s` is missing" % field)

    def test_fields_of_coverage_and_summary(self):
        rows = [
            ('{"event":"a b","accepted":0,"rejected":0,"possible":0}', "`event` isn't an event's name"),
            ('{"event":"a","accepted":-1,"rejected":0,"possible":0}', "`accepted` isn't a whole number from 0 on"),
            ('{"event":"a","accepted":0,"rejected":0}', "the field `possible` is missing"),
            ('{"never_came":[]}', "the field `could_never_come` is missing"),
            ('{"never_came":[],"could_never_come":[0]}', "`could_never_come` isn't a list of events' names"),
            ('{"judged":0,"events":0,"refusals":0,"rejected":0}', "the field `closed` is missing"),
            ('{"judged":0,"events":0,"refusals":0,"rejected":0,"closed":0}', "`closed` isn't true or false"),
            ('{"judged":0,"events":0,"refusals":0,"rejected":false,"closed":false}', "`rejected` isn't a whole number from 0 on"),
        ]
        for text, reason in rows:
            self.wrong([text], 1, reason)

    def test_order(self):
        self.wrong([ENTRIES[1], ENTRIES[0]], 2, "place 1 comes after place 2")
        self.wrong([ENTRIES[0], ENTRIES[0]], 2, "place 1 comes after place 1")
        self.wrong([COVERAGE[0], ENTRIES[0]], 2, "an entry comes after the coverage")
        self.wrong([COVERAGE[2], ENTRIES[0]], 2, "an entry comes after the coverage")
        self.wrong([COVERAGE[2], COVERAGE[0]], 2, "the count of an event comes after the end of the coverage")
        self.wrong([COVERAGE[2], COVERAGE[2]], 2, "the end of the coverage comes twice")
        self.wrong([COVERAGE[0], SUMMARY], 2, "the line with `never_came` is missing before the summary")
        self.wrong([summary(1), ENTRIES[0]], 2, "nothing comes after the summary")
        self.wrong([event(7), SUMMARY], 2, "`judged` is 6, but there is an entry at place 7")
        self.wrong(ENTRIES, 7, "the summary is missing")
        self.wrong([], 1, "the summary is missing")


class Pictures(unittest.TestCase):
    def test_each_entry_has_a_row_in_words(self):
        page = Page(render(ENTRIES + [SUMMARY]))
        self.assertEqual([row[0] for row in page.rows], ["p1", "p2", "p3", "p4", "p5", "p6"])
        self.assertEqual(["no" in row[1] for row in page.rows], [False, True, True, True, True, False])
        self.assertEqual(
            texts(page),
            [
                ("event coin", "accepted"),
                ("event tea", "rejected: expected coin"),
                ("refusal {coin tea}", "rejected: must offer one of {coin} {milk tea}"),
                ("event tea", "rejected: expected nothing"),
                ("refusal {coin}", "rejected: never comes to rest"),
                ("refusal {}", "accepted"),
            ],
        )
        self.assertEqual([row[2][0] for row in page.rows], ["1", "2", "3", "4", "5", "6"])
        self.assertEqual([row[2][2:4] for row in page.rows][1:3], [["1", "2"], ["2", "1"]])

    def test_marks_and_lifelines(self):
        text = render([event(1, seat=40), event(2, seat=7), ENTRIES[2], SUMMARY])
        self.assertIn('<i class="event" style="--c:2"></i><span>40</span>', text)
        self.assertIn('<i class="event" style="--c:1"></i><span>7</span>', text)
        self.assertIn('<i class="refusal" style="--c:0"></i><span>2</span>', text)
        self.assertIn("--n:3;--wide:28px", text)
        self.assertIn('<span style="--c:0">2</span><span style="--c:1">7</span><span style="--c:2">40</span>', text)
        self.assertEqual(text.count('<i style="--c:'), 3)

    def test_many_seats(self):
        for seats, width in ((22, "28px"), (23, "27px"), (64, "10px"), (80, "8px"), (1000, "0.64px")):
            text = render([event(place, seat=place) for place in range(1, seats + 1)] + [summary(seats)])
            self.assertIn("--n:%d;--wide:%s" % (seats, width), text)
            self.assertEqual("crowded" in text.split("<body>")[1], seats > 80)

    def test_gaps(self):
        lines = [event(1), event(2, verdict="NO", expected=[]), event(3, verdict="NO", expected=[]), event(6), summary(6, 2)]
        page = Page(render(lines))
        self.assertEqual([row[1] for row in page.rows], [["row"], ["row", "no", "alone"], ["row", "no"], ["row", "gap"]])

    def test_summary(self):
        page = Page(render(ENTRIES + [SUMMARY]))
        self.assertIn("Judged6Accepted events1Accepted refusals1Rejected4Sessionopen", page.words)
        self.assertNotIn("This page has", page.words)
        self.assertIn("Judged1,234,567", Page(render([summary(1234567)])).words)
        self.assertIn("Sessionclosed", Page(render([summary(0, closed=True)])).words)

    def test_what_is_left_out(self):
        rejected = [line for line in ENTRIES if '"NO"' in line]
        self.assertIn("This page has the rejected entries only: 4 of 6.", Page(render(rejected + [SUMMARY])).words)
        self.assertIn("This page has 2 of 6 entries.", Page(render(ENTRIES[:2] + [SUMMARY])).words)

    def test_no_entries(self):
        page = Page(render([summary(0)]))
        self.assertIn("There are none.", page.words)
        self.assertEqual(page.rows, [])

    def test_coverage(self):
        page = Page(render(ENTRIES + COVERAGE + [SUMMARY]))
        self.assertIn("Events that could have come and never did: a b. Events that could have come before no entry: c d.", page.words)
        self.assertEqual(
            page.cells,
            [
                ["Event", "Accepted", "Rejected", "Possible", "As bars", "Remark"],
                ["coin", "3", "1", "5", "", ""],
                ["_tick", "0", "0", "0", "", ""],
            ],
        )
        self.assertIn("coverage", page.ids)
        self.assertNotIn("coverage", Page(render(ENTRIES + [SUMMARY])).ids)
        lines = [COVERAGE[0], COVERAGE[1], '{"never_came":["coin"],"could_never_come":["_tick"]}', summary(0)]
        self.assertEqual([cells[5] for cells in Page(render(lines)).cells], ["Remark", "never came", "could never come"])
        lines = [COVERAGE[1], '{"never_came":[],"could_never_come":[]}', summary(0)]
        self.assertIn("Events that could have come and never did: none. Events that could have come before no entry: none.", Page(render(lines)).words)

    def test_bars(self):
        text = render(COVERAGE + [summary(0)])
        for kind, width in (("accepted", 60), ("rejected", 20), ("possible", 100)):
            self.assertIn('<div class="bar %s" style="width:%d%%"></div>' % (kind, width), text)
        self.assertEqual(text.count('<div class="bar '), 3)

    def test_a_long_text_is_a_note(self):
        names = ["channel.%d" % number for number in range(257)]
        lines = [event(place, verdict="NO", expected=names) for place in (1, 2)] + [event(3, "x" * 4000), summary(3, 2)]
        text = render(lines)
        page = Page(text)
        self.assertEqual(text.count(" ".join(names)), 1)
        self.assertEqual(text.count("x" * 4000), 1)
        self.assertEqual(page.ids[-2:], ["note1", "note2"])
        what, verdict = texts(page)[0]
        self.assertEqual(verdict, "rejected: expected %s and 249 more, all in note 1" % " ".join(names[:8]))
        self.assertEqual(texts(page)[2][0], "event %s … all in note 2" % ("x" * 160))
        self.assertNotIn("notes", Page(render(ENTRIES + [SUMMARY])).ids)

    def test_the_nearest_events_are_shown_first(self):
        names = ["x.%d" % number for number in range(6)] + ["put.7", "get.3.1", "get.4.1", "y.3"]
        page = Page(render([event(1, "get.3.0", verdict="NO", expected=names), summary(1, 1)]))
        shown = "get.3.1 get.4.1 x.0 x.3 y.3 x.1 x.2 x.4"
        self.assertEqual(texts(page)[0][1], "rejected: expected %s and 2 more, all in note 1" % shown)
        self.assertIn(" ".join(names), page.words)
        self.assertEqual(nearest(tuple(names[:8]), "get.3.0"), tuple(names[:8]))

    def test_few_events_with_long_names(self):
        names = ["%s.%d" % (letter * 70, number) for number, letter in enumerate("abcd")]
        page = Page(render([event(1, "c" * 70 + ".9", verdict="NO", expected=names), summary(1, 1)]))
        self.assertEqual(texts(page)[0][1], "rejected: expected %s %s and 2 more, all in note 1" % (names[2], names[0]))
        page = Page(render([event(1, verdict="NO", expected=["x" * 300]), summary(1, 1)]))
        self.assertEqual(texts(page)[0][1], "rejected: expected %s … all in note 1" % ("x" * 160))

    def test_acceptances_are_cut_between_sets(self):
        sets = [["a.%d" % number, "b.%d" % number] for number in range(20)]
        page = Page(render([event(1, verdict="NO", report="refusal", events=["a.1"], acceptances=sets), summary(1, 1)]))
        shown = " ".join("{a.%d b.%d}" % (number, number) for number in range(8))
        self.assertEqual(texts(page)[0][1], "rejected: must offer one of %s and 12 more, all in note 1" % shown)

    def test_names_and_titles_are_escaped(self):
        name = "</code><script>alert('\"&amp;\")</script>"
        lines = [
            event(1, name),
            event(2, name, verdict="NO", expected=[name]),
            event(3, verdict="NO", report="refusal", events=[name, "<!--"], acceptances=[[name]]),
            json.dumps({"event": name, "accepted": 1, "rejected": 1, "possible": 1}),
            json.dumps({"never_came": [name], "could_never_come": [name]}),
            summary(3, 2),
        ]
        text = render(lines, name)
        page = Page(text)
        self.assertEqual(page.tags.count("script"), 1)
        self.assertEqual(page.title, name)
        self.assertEqual(
            texts(page),
            [
                ("event " + name, "accepted"),
                ("event " + name, "rejected: expected " + name),
                ("refusal {%s <!--}" % name, "rejected: must offer one of {%s}" % name),
            ],
        )
        self.assertEqual(page.cells[1][0], name)

    def test_a_long_name_is_escaped_too(self):
        name = "&<" * 500
        page = Page(render([event(1, name), summary(1)]))
        self.assertEqual(texts(page), [("event %s … all in note 1" % name[:160], "accepted")])
        self.assertIn(name, page.words)

    def test_a_page_needs_nothing_else(self):
        text = render(ENTRIES + COVERAGE + [SUMMARY])
        page = Page(text)
        for wanted in ("://", "@import", "url("):
            self.assertNotIn(wanted, text)
        self.assertEqual([value for name, value in page.attributes if name == "src" or name == "href" and value[:1] != "#"], [])
        self.assertNotIn("link", page.tags)
        self.assertIn("default-src 'none'", text)
        self.assertEqual(len(page.ids), len(set(page.ids)))

    def test_ten_thousand_entries(self):
        lines = []
        for place in range(1, 10001):
            bad = place % 100 == 0
            lines.append(event(place, seat=place % 64 + 1, **({"verdict": "NO", "expected": ["b"]} if bad else {})))
        text = render(lines + [summary(10000, 100)])
        page = Page(text)
        self.assertEqual(len(page.rows), 10000)
        self.assertEqual(text.count("<ol aria-label="), 50)
        self.assertIn('<ol aria-label="Places 201 to 400" data-first="201" data-no="300 400" style="--all:200;--no:2">', text)
        self.assertIn('data-last="10000"', text)
        self.assertLess(len(text), 2500000)

    def test_of_many_entries_the_script_draws_those_that_are_seen(self):
        count = STATIC + 400
        lines = [event(place, "</script>" if place == count else "a") for place in range(1, count)]
        text = render(lines + [event(count, "</script><!--", verdict="NO", expected=["b"]), summary(count, 1)])
        page = Page(text)
        self.assertEqual(page.rows, [])
        self.assertIn('<ol aria-label="Places 10201 to 10400" data-first="10201" data-no="10400" style="--all:200;--no:1"></ol>', text)
        handed = json.loads(re.search(r'<script type="application/json" id="rows">(.*?)</script>', text, re.DOTALL)[1])
        self.assertEqual((handed["row"], len(handed["groups"]), len(handed["groups"][51])), (ROW, 52, 200 * 8))
        place, column, seat, number, *words = handed["groups"][51][-8:]
        kinds, mark, report, verdict = (handed["texts"][word] for word in words)
        row = Page(handed["row"] % (place, kinds, place, mark, column, seat, number, report, verdict)).rows[0]
        self.assertEqual((row[0], row[1]), ("p10400", ["row", "no", "alone"]))
        self.assertEqual(row[2][4:], ["event </script><!--", "rejected: expected b"])
        self.assertIn("Without JavaScript this page doesn't show the entries of so long a journal.", page.words)


class Runs(unittest.TestCase):
    def run_picture(self, *words, text=None):
        done = subprocess.run(
            [sys.executable, "-m", "cspwatch_client.picture", *words],
            input=text,
            stdout=subprocess.PIPE,
            stderr=subprocess.PIPE,
            env={**os.environ, "PYTHONPATH": os.path.dirname(HERE), "PYTHONIOENCODING": "ascii"},
            timeout=300,
        )
        return done.returncode, done.stdout.decode("utf-8"), done.stderr.decode("utf-8")

    def file(self, data):
        folder = tempfile.TemporaryDirectory(prefix="picture-")
        self.addCleanup(folder.cleanup)
        path = os.path.join(folder.name, "shown.json")
        with open(path, "wb") as file:
            file.write(data)
        return path

    def test_a_file_and_standard_input(self):
        data = "".join(line + "\n" for line in ENTRIES + COVERAGE + [SUMMARY]).encode()
        status, page, errors = self.run_picture("--title", "Tea & milk \u2615", self.file(data))
        self.assertEqual((status, errors), (0, ""))
        self.assertEqual(page, render(ENTRIES + COVERAGE + [SUMMARY], "Tea & milk \u2615"))
        self.assertEqual(Page(page).title, "Tea & milk \u2615")
        self.assertEqual(self.run_picture(text=data), (0, render(ENTRIES + COVERAGE + [SUMMARY]), ""))

    def test_what_is_not_of_the_form(self):
        path = self.file(b"S 6 1 1 4 open\n")
        self.assertEqual(self.run_picture(path), (1, "", "%s: line 1: this isn't JSON\n" % path))
        data = ENTRIES[0].encode() + b"\n" + ENTRIES[1].replace("tea", "t\u00e4").encode("latin-1") + b"\n"
        wrong = "standard input: line 2: `events` isn't a list of events' names\n"
        self.assertEqual(self.run_picture(text=data), (1, "", wrong))
        self.assertEqual(self.run_picture(text=b""), (1, "", "standard input: line 1: the summary is missing\n"))

    @unittest.skipUnless(os.path.exists("/dev/full"), "the system has no /dev/full")
    def test_standard_output_fails(self):
        with open("/dev/full", "wb") as full:
            done = subprocess.run(
                [sys.executable, "-m", "cspwatch_client.picture"],
                input=SUMMARY.encode(),
                stdout=full,
                stderr=subprocess.PIPE,
                env={**os.environ, "PYTHONPATH": os.path.dirname(HERE)},
                timeout=300,
            )
        self.assertEqual((done.returncode, done.stderr), (5, b"standard output: No space left on device\n"))

    def test_files_and_words(self):
        missing = os.path.join(HERE, "missing.json")
        self.assertEqual(self.run_picture(missing), (5, "", missing + ": No such file or directory\n"))
        self.assertEqual(self.run_picture(HERE), (5, "", HERE + ": Is a directory\n"))
        self.assertEqual(self.run_picture("a", "b")[0], 2)
        self.assertIn("FILE", self.run_picture("--help")[1])


if __name__ == "__main__":
    unittest.main()
