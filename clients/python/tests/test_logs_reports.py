"""What rules report: several reports of one line, first lines of joins, places that are freed and taken anew, lines of JSON, rules for
some logs. Run by `python3 -m unittest discover -s clients/python/tests`."""
import json
import os
import sys
import unittest

sys.path[:0] = [os.path.dirname(os.path.abspath(__file__))]

from logs_folder import NEEDS, SPECIFICATION, InFolder  # noqa: E402
from test_logs_maps import Mapped  # noqa: E402

if sys.version_info >= (3, 11):
    from cspwatch_client.logs.jsonlines import JsonForm
    from cspwatch_client.logs.maps import MapFault, read_map
    from cspwatch_client.logs.needles import needed, needles
    from cspwatch_client.logs.places import Places
    import re

RULE = "[[rule]]\nmatch = 'a'\nevent = 'a'\n"
JSON = "[json.fields]\nunit = '_SYSTEMD_UNIT'\ntext = 'MESSAGE'\n"

FAULTS = [
    ("[[rule]]\nmatch = 'a'\nevent = 'a'\nevents = ['b']\n", 4, "rule.events", "write either `event` or `events`"),
    ("[[rule]]\nmatch = 'a'\nfree_by = 'pid'\n", 3, "rule.free_by", "there is no table [places.pid]"),
    ("[places.pid]\nsize = 1\n[[rule]]\nmatch = 'a'\nfree_by = 'pid'\n", 5, "rule.free_by", "`match` has no group 'pid'"),
    ("[places.pid]\nsize = 1\ntake = 'come'\n[[rule]]\nmatch = 'a'\nevent = 'come'\n", 3, "places.pid.take", "'come' doesn't name {pid}"),
    ("[places.pid]\nsize = 1\ntake = 'come.{pid}'\n" + RULE, 3, "places.pid.take", "no rule reports 'come.{pid}'"),
    ("[[join]]\nbegin = '(?P<a>x)'\nbegin_event = 'b.{c}'\nend = '(?P<a>y)'\nline = ''\n" + RULE, 3, "join.begin_event",
     "`begin` has no group 'c', which 'b.{c}' asks for"),
    ("[[rule]]\nname = 'one'\nmatch = 'a'\nevent = 'a'\n[[rule]]\nname = 'one'\nmatch = 'b'\nevent = 'b'\n", 6, "rule.name",
     "another rule has the name 'one'"),
    (JSON + RULE, 5, "rule.match", "this map reads JSON: write a table with a regular expression for each field"),
    ("[[rule]]\nmatch = {text = 'a'}\nevent = 'a'\n", 2, "rule.match", "there is no table [json]; write a regular expression"),
    (JSON + "[[rule]]\nmatch = {txt = 'a'}\nevent = 'a'\n", 5, "rule.match.txt", "there is no such key; there are unit, text"),
    (JSON + "[[rule]]\nmatch = {text = '(?P<unit>a)'}\nevent = 'a'\n", 5, "rule.match.text", "there is a field or a group 'unit' already"),
    (JSON + "[[join]]\nbegin = 'a'\nend = 'a'\nline = 'a'\n[[rule]]\nmatch = {text = 'a'}\nevent = 'a'\n", 4, "join", "lines of JSON aren't joined"),
    ("[json.fields]\nunit = 'a..b'\n" + RULE, 2, "json.fields.unit", "a path is wanted, such as \"a.b\" or [\"a\", \"b.c\"], not 'a..b'"),
    ("[json]\n" + RULE, 1, "json.fields", "this key is missing"),
]


@NEEDS
class Faults(InFolder):
    def test_each_says_file_line_and_key(self):
        for text, line, key, reason in FAULTS:
            self.file("m.toml", text)
            with self.subTest(text=text), self.assertRaises(MapFault) as caught:
                read_map(self.path("m.toml"))
            if caught.exception is not None:
                self.assertEqual((caught.exception.line, caught.exception.key, caught.exception.reason), (line, key, reason))

    def test_the_status_is_that_of_a_refused_script(self):
        self.file("m.toml", SPECIFICATION + FAULTS[0][0])
        self.assertEqual(self.logs("m.toml", given=b"a\n"), (3, [], ["m.toml:7: rule.events: write either `event` or `events`"]))


@NEEDS
class Reports(Mapped):
    def test_several_of_one_line(self):
        rules = self.rules("[[rule]]\nmatch = '^moved (?P<a>.) (?P<b>.)$'\nevents = ['left.{a}', 'came.{b}']\nrefusal = ['came.{a}', 'left.{b}']\n")
        self.assertEqual(self.reports(rules, ["moved 1 2"]), ["E left.1", "E came.2", "R came.1 left.2"])

    def test_a_place_is_free_for_the_next_event_of_the_line(self):
        text = "[places.c]\nsize = 1\nfree = 'gone.{c}'\n[[rule]]\nmatch = '^in (?P<c>.)$'\nevent = 'in.{c}'\n"
        text += "[[rule]]\nmatch = '^(?P<c>.) again$'\nevents = ['gone.{c}', 'in.{c}']\n"
        self.assertEqual(self.reports(self.rules(text), ["in a", "a again", "in b"]), ["E in.0", "E gone.0", "E in.0", "no place left for c 'b' (1)"])

    def test_a_rule_frees_what_its_event_does_not_name(self):
        text = "[places.pid]\nsize = 1\n[[rule]]\nmatch = '^(?P<pid>.) begin$'\nevent = 'begin.{pid}'\n"
        text += "[[rule]]\nmatch = '^(?P<pid>.) end$'\nevent = 'end'\nfree_by = 'pid'\n[[rule]]\nmatch = '^(?P<pid>.) died$'\nfree_by = ['pid']\n"
        lines = ["1 begin", "2 begin", "1 end", "2 begin", "2 died", "3 begin"]
        wanted = ["E begin.0", "no place left for pid '2' (1)", "E end", "E begin.0", "E begin.0"]
        self.assertEqual(self.reports(self.rules(text), lines), wanted)

    def test_a_place_that_is_taken_anew(self):
        text = "[places.p]\nsize = 2\ntake = 'come.{p}'\nfree = 'go.{p}'\n[[rule]]\nmatch = '^(?P<what>\\w+) (?P<p>.)$'\nevent = '{what}.{p}'\n"
        rules = self.rules(text)
        places = Places(rules.map.places)
        found = []
        for line in ("come a", "work a", "come b", "come a", "go b", "come b"):
            rule, match = rules.match(line)
            report = rules.report(rule.reports[0], match.groupdict(), places)
            places.after(report.event, match.groupdict())
            found.append((report.line, len(places.notes)))
        wanted = [("E come.0", 0), ("E work.0", 0), ("E come.1", 0), ("E come.0", 1), ("E go.1", 1), ("E come.1", 1)]
        self.assertEqual((found, places.notes), (wanted, ["p 'a' takes a place, and no event gave back number 0 of the one before it"]))

    def test_rules_for_some_logs(self):
        text = "[[rule]]\nfile = 'n1*'\nmatch = 'up'\nevent = 'up.1'\n[[rule]]\nfile = 'logs/n2.log'\nmatch = 'up'\nevent = 'up.2'\n"
        rules = self.rules(text + "[[rule]]\nmatch = 'up'\nevent = 'up.x'\n")
        found = [rules.match("up", file)[0].number for file in ("n1.log", "logs/n1.log", "logs/n2.log", "n2.log")]
        self.assertEqual(found, [0, 0, 1, 2])


@NEEDS
class OfACommand(InFolder):
    def test_the_first_line_of_a_join_reports_too(self):
        text = SPECIFICATION + "[[join]]\nbegin = '^(?P<pid>.) wants (?P<n>.)$'\nbegin_event = 'open.{n}'\nend = '^(?P<pid>.) is done$'\nline = 'done {n}'\n"
        self.file("m.toml", text + "[[rule]]\nmatch = '^done (?P<n>.)$'\nevent = 'close.{n}'\n")
        self.file("p.csp", "channel open : {0, 1}\nchannel close : {0, 1}\nno|E open.0|a\nno|E open.1|b\nno|E close.0|c\nno|E close.1|d\n")
        found = self.logs("--quiet", "m.toml", given=b"7 wants 0\n8 wants 1\n8 is done\n7 is done\n")
        wanted = ["-:1: E open.0: NO 1, a", "-:2: E open.1: NO 2, b", "-:3: E close.1: NO 3, d", "-:4: E close.0: NO 4, c"]
        self.assertEqual(found, (1, wanted, []))

    def test_places_taken_anew_are_said_and_counted(self):
        text = SPECIFICATION + "[places.n]\nsize = 2\ntake = 'open.{n}'\nfree = 'close.{n}'\n"
        self.file("m.toml", text + "[[rule]]\nmatch = '^(?P<n>.) comes$'\nevent = 'open.{n}'\n[[rule]]\nmatch = '^(?P<n>.) goes$'\nevent = 'close.{n}'\n")
        status, out, errors = self.logs("m.toml", given=b"a comes\na comes\na goes\n")
        self.assertEqual(errors, ["-:2: n 'a' takes a place, and no event gave back number 0 of the one before it"])
        self.assertEqual((status, out), (0, ["3 lines, 3 reports: 3 accepted, 0 rejected, 0 not judged; 0 ignored, 0 without a rule, 1 places taken anew"]))

    def test_lines_of_json(self):
        self.file("m.toml", SPECIFICATION + JSON + "[[rule]]\nmatch = {unit = '^lock', text = '^granted (?P<n>.)$'}\nevent = 'open.{n}'\n"
                  "[[ignore]]\nmatch = {unit = '^cron'}\n")
        lines = [{"_SYSTEMD_UNIT": "lock.service", "MESSAGE": "granted 1"}, {"_SYSTEMD_UNIT": "cron.service", "MESSAGE": "granted 1"},
                 {"MESSAGE": "granted 1"}, {"_SYSTEMD_UNIT": "lock.service", "MESSAGE": list(b"granted 0")}]
        given = "".join(json.dumps(line) + "\n" for line in lines) + "not JSON\n[1]\n" + "[" * 100000 + "\n"
        found = self.logs("m.toml", given=given.encode())
        self.assertEqual(found, (0, ["7 lines, 2 reports: 2 accepted, 0 rejected, 0 not judged; 1 ignored, 4 without a rule (first: -:3)"], []))


@NEEDS
class AfterANo(InFolder):
    RULES = "".join("[[rule]]\nname = '%s'\nmatch = '^(?P<id>.) %s$'\nevent = '%s'\n" % (name, name, event)
                    for name, event in (("in", "open.0"), ("out", "close.0"), ("bad", "bad")))

    def judged(self, more, given, *words):
        self.file("m.toml", SPECIFICATION + "[sessions]\n" + more + self.RULES)
        return self.logs(*words, "m.toml", given=given)

    def test_a_session_stops(self):
        """What the first session does after its NO isn't judged, and the second one is."""
        given = b"a in\na bad\na bad\na in\nb in\nb bad\na out\n"
        found = self.judged("key = '{id}'\nafter_no = 'stop'\n", given, "--quiet", "--junit", "j.xml")
        reason = "NO 2 (first), expected open.0 or open.1"
        self.assertEqual(found, (1, ["-:2: a: E bad: %s" % reason, "-:6: b: E bad: %s" % reason], []))
        self.assertIn("<system-out>3 reports after the first NO were not judged</system-out>", self.text("j.xml"))
        self.assertIn('tests="2" failures="2" errors="0"', self.text("j.xml"))

    def test_the_whole_log_stops(self):
        out = ["-:2: E bad: NO 2, expected open.0 or open.1", "    a bad",
               "4 lines, 4 reports: 1 accepted, 1 rejected, 0 not judged; 0 ignored, 0 without a rule, 2 after a NO"]
        self.assertEqual(self.judged("after_no = 'stop'\n", b"a in\na bad\na bad\na in\n"), (1, out, []))

    def test_a_log_that_is_joined_in_the_middle(self):
        given = b"a bad\na out\na in\nb bad\na bad\nb in\n"
        out = ["-:4: E bad: NO 2, expected open.0 or open.1", "    b bad", "-:5: E bad: NO 3, expected open.0 or open.1", "    a bad",
               "6 lines, 4 reports: 2 accepted, 2 rejected, 0 not judged; 0 ignored, 0 without a rule, 2 before the first that is judged"]
        self.assertEqual(self.judged("skip_until = 'in'\n", given), (1, out, []))
        status, out, _ = self.judged("key = '{id}'\nskip_until = 'in'\n", given, "--quiet")
        self.assertEqual((status, out), (1, ["-:5: a: E bad: NO 2 (first), expected open.0 or open.1"]))


@NEEDS
class Json(unittest.TestCase):
    def test_fields_by_path(self):
        form = JsonForm((), {"name": ("name",), "holder": ("attributes", "lock.holder"), "count": ("counts", "1"), "all": ("counts",)})
        line = '{"name": null, "attributes": {"lock.holder": "alice"}, "counts": [3, 4.5]}'
        self.assertEqual(form.records(line), [{"name": None, "holder": "alice", "count": "4.5", "all": "[3,4.5]"}])

    def test_spans(self):
        """As an exporter of OpenTelemetry writes them: several spans of one line, attributes as a list."""
        form = JsonForm(("resourceSpans", "scopeSpans", "spans"), {
            "service": ("resource", "attributes", "service.name"), "name": ("name",), "worker": ("attributes", "worker"), "ok": ("attributes", "ok")})
        attributes = [{"key": "worker", "value": {"intValue": "7"}}, {"key": "ok", "value": {"boolValue": True}}]
        spans = [{"name": "acquire", "attributes": attributes}, {"name": "release", "attributes": []}]
        resource = {"attributes": [{"key": "service.name", "value": {"stringValue": "locks"}}]}
        line = json.dumps({"resourceSpans": [{"resource": resource, "scopeSpans": [{"spans": spans[:1]}, {"spans": spans[1:]}]}]})
        self.assertEqual(form.records(line), [{"service": "locks", "name": "acquire", "worker": "7", "ok": "true"},
                                              {"service": "locks", "name": "release", "worker": None, "ok": None}])
        self.assertEqual(form.records("{}"), [])


@NEEDS
class Needles(unittest.TestCase):
    def test_what_a_match_needs(self):
        rows = [(r"^a+ bc \d+ def$", ["a", " bc ", " def"]), (r"(?:ab)+(?P<x>cd)?(ef|gh)", ["ab"]), (r"(?i)abc", []), (r"x(?i:abc)y", ["x", "y"]),
                (r"a|b", []), (r"[ab]c", ["c"]), (r"(?=ab)c(?!de)", ["c"]), (r"(?>ab)", ["ab"]), (r"a{0,3}b{2}", ["b"])]
        for source, wanted in rows:
            with self.subTest(source):
                self.assertEqual(needed(re.compile(source)), wanted)

    def test_the_text_that_tells_patterns_apart(self):
        patterns = [re.compile(r"a longer text %d " % number) for number in (1, 2)] + [re.compile("[x]"), re.compile("a longer text")]
        self.assertEqual(needles(patterns), ["a longer text 1 ", "a longer text 2 ", "x", "a longer text"])


if __name__ == "__main__":
    unittest.main()
