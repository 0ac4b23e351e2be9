"""Maps, templates, numbers of names, joins. Run by `python3 -m unittest discover -s clients/python/tests`."""
import os
import sys
import unittest

sys.path[:0] = [os.path.dirname(os.path.abspath(__file__))]

from logs_folder import NEEDS, RULES, SPECIFICATION, InFolder  # noqa: E402

if sys.version_info >= (3, 11):
    from cspwatch_client.logs.keys import line_of, lines_of_keys
    from cspwatch_client.logs.mapping import MOST_BEGUN, Joiner, Rules, Unmapped
    from cspwatch_client.logs.maps import MapFault, read_map
    from cspwatch_client.logs.places import NoPlace, Places
    from cspwatch_client.logs.templates import Template

FIRST = "the first of two"
RULE = "[[rule]]\nmatch = 'a'\nevent = 'a'\n"

FAULTS = [
    ("x = 1\n", 1, "x", "there is no such key; there are specification, time, order, json, places, rule, names, ignore, join, sessions"),
    ("[[rule]]\nmatch = 'a'\nevent = \"a\"\nevnt = 1\n", 4, "rule.evnt", "there is no such key; there are name, file, match, event, events, refusal, free_by"),
    ("[[rule]]\nmatch = 'a'\n\nevent = \"a.{x}\"\n", 4, "rule.event", "`match` has no group 'x', which 'a.{x}' asks for"),
    ("[[rule]]\nmatch = '(a'\nevent = \"a\"\n", 2, "rule.match", "(a: missing ), unterminated subpattern at position 0"),
    ("[[rule]]\nmatch = 'a'\n", 1, "rule", "a rule has `event`, `events`, `refusal` or `free_by`"),
    ("[[rule]]\nmatch = 'a'\nevent = 'a'\nevents = ['b']\n", 4, "rule.events", "write either `event` or `events`"),
    ("[[rule]]\nevent = 'a'\n", 1, "rule.match", "this key is missing"),
    ("[[rule]]\nmatch = 3\nevent = 'a'\n", 2, "rule.match", "a text is wanted, not 3"),
    ("[[rule]]\nmatch = 'a'\nevent = '{a'\n", 3, "rule.event", "{a: the brace at 1 belongs to no field; a field is {name}, a brace is doubled"),
    ("[[rule]]\nmatch = 'a'\nrefusal = [1]\n", 3, "rule.refusal", "a text or a list of texts is wanted, not [1]"),
    ("[rule]\nmatch = 'a'\n", 1, "rule", "write [[rule]], since there may be several"),
    ("", 1, "rule", "there is no rule"),
    ("[places.c]\nsize = 0\n" + RULE, 2, "places.c.size", "a number from 1 to 256 is wanted, not 0"),
    ("[places.c]\nsize = true\n" + RULE, 2, "places.c.size", "a number is wanted, not True"),
    ("[places.c]\nsize = 1\nof = '{c}'\n" + RULE, 3, "places.c.of", "these places can't be of themselves"),
    ("[places]\nc = 1\n" + RULE, 2, "places.c", "a table is wanted here"),
    ("[places.c]\nsize = 1\nfree = 'gone'\n[[rule]]\nmatch = 'a'\nevent = 'a'\n", 3, "places.c.free", "no rule reports 'gone'"),
    ("[places.c]\nsize = 1\n[names.c]\na = 1\n[[rule]]\nmatch = 'a'\nevent = 'a'\n", 3, "names.c", "these names have places already"),
    ("[names.c]\n\"10.0.0.5\" = 1.5\n" + RULE, 2, "names.c.10.0.0.5", "a number or a text is wanted, not 1.5"),
    ("[[join]]\nbegin = '(?P<a>x)'\nend = '(?P<b>x)'\nline = ''\n[[rule]]\nmatch = 'a'\nevent = 'a'\n", 3, "join.end",
     "`begin` and `end` have no group in common, by which lines belong together"),
    ("[[join]]\nbegin = '(?P<a>x)'\nend = '(?P<a>x)'\nline = '{z}'\n[[rule]]\nmatch = 'a'\nevent = 'a'\n", 4, "join.line",
     "neither `begin` nor `end` has a group 'z', which '{z}' asks for"),
    ("[sessions]\nkey = '{id}'\n[[rule]]\nmatch = 'a'\nevent = 'a'\n", 4, "rule.match", "there is no group 'id', which sessions.key asks for"),
    ("[sessions]\nkey = 'x'\nbegin = 'b'\n[[rule]]\nmatch = 'a'\nevent = 'a'\n", 3, "sessions.begin", "no rule reports 'b'"),
    ("[places.c]\nsize = 1\n[places.p]\nsize = 1\nof = '{c}'\n[[rule]]\nmatch = '(?P<p>.)'\nevent = 'a.{p}'\n", 8, "rule.event",
     "`match` has no group 'c', which places.p.of asks for"),
    ("[specification]\nscript = 's.csp'\nlarge = true\n" + RULE, 1, "specification.process", "this key is missing"),
    ("[specification]\nscript = 's.csp'\nprocess = 'P'\nlarge = 1\n" + RULE, 4, "specification.large", "true or false is wanted, not 1"),
    ("a = 1\n\nb = = 2\n", 3, "", "this isn't TOML: Invalid value"),
    ("a = [\n", 2, "", "this isn't TOML: Invalid value"),
]


@NEEDS
class Faults(InFolder):
    def test_each_says_file_line_and_key(self):
        for text, line, key, reason in FAULTS:
            self.file("m.toml", text)
            with self.subTest(text=text), self.assertRaises(MapFault) as caught:
                read_map(self.path("m.toml"))
            if caught.exception is not None:
                self.assertEqual((caught.exception.line, caught.exception.key, caught.exception.reason), (line, key, reason))

    def test_the_command_says_it(self):
        self.file("m.toml", SPECIFICATION + "\n[[rule]]\nmatch = 'a'\nevent = \"open.{n}\"\n")
        wanted = "m.toml:7: rule.event: `match` has no group 'n', which 'open.{n}' asks for"
        self.assertEqual(self.logs("m.toml"), (3, [], [wanted]))

    def test_not_text(self):
        self.file("m.toml", b"a = 1\nb = '\xff'\n")
        self.assertEqual(self.logs("m.toml"), (3, [], ["m.toml:2: this isn't UTF-8"]))

    def test_events_that_the_script_does_not_have(self):
        rows = [
            ("event = \"opn.{n}\"", "the script has no event of the form 'opn.{n}'"),
            ("event = \"open.{n}.{n}\"", "the script has no event of the form 'open.{n}.{n}'"),
            ("refusal = [\"bad\", \"worse\"]", "the script has no event of the form 'worse'"),
        ]
        for text, reason in rows:
            self.file("m.toml", SPECIFICATION + "[[rule]]\nmatch = '(?P<n>.)'\n" + text + "\n")
            key = text.split()[0]
            self.assertEqual(self.logs("m.toml", given=b"x\n"), (3, [], ["m.toml:6: rule.%s: %s" % (key, reason)]))

    def test_places_that_the_script_has_too_few_events_for(self):
        self.file("m.toml", SPECIFICATION + "[places.n]\nsize = 3\n" + RULES)
        wanted = "m.toml:9: rule.event: the script has no event of the form 'open.{n}' for place 2 of n"
        self.assertEqual(self.logs("m.toml"), (3, [], [wanted]))
        self.file("m.toml", SPECIFICATION + "[names.n]\n1 = 7\n" + RULES)
        self.assertEqual(self.logs("m.toml"), (3, [], ["m.toml:9: rule.event: the script has no event of the form 'open.{n}'"]))


@NEEDS
class Keys(unittest.TestCase):
    def test_lines(self):
        text = "a = '''\nb = 1\n'''\nc = [ # [\n  1,\n  '[',\n]\n[t.\"x y\"]\nd.e = 2\n[[r]]\nf = 3\n[[r]]\ng = \"[\"\nh = 4\n"
        found = lines_of_keys(text)
        wanted = {("a",): 1, ("c",): 4, ("t", "x y"): 8, ("t", "x y", "d", "e"): 9, ("r", 0): 10, ("r", 0, "f"): 11}
        wanted.update({("r", 1): 12, ("r", 1, "g"): 13, ("r", 1, "h"): 14})
        self.assertEqual(found, wanted)
        self.assertEqual([line_of(found, path) for path in [("r", 1, "z"), ("t", "x y"), ("z",)]], [12, 8, 1])


@NEEDS
class Templates(unittest.TestCase):
    def test_fields_and_braces(self):
        found = Template("a.{b}.{{{c}}}")
        self.assertEqual((found.fields, found.literals), (("b", "c"), ("a.", ".{", "}")))
        self.assertEqual(found.filled(str.upper), "a.B.{C}")
        self.assertEqual(found.filled_from({"b": "1", "c": None}), None)
        for text in ("{", "}", "{a b}", "{}", "a}"):
            with self.assertRaises(ValueError):
                Template(text)

    def test_may_equal(self):
        for one, other, wanted in [("a", "a", True), ("a", "b", False), ("a.{x}", "a.1", True), ("a.{x}", "b.1", False),
                                   ("a.{x}", "a.{y}", True), ("a.{x}", "b.{y}", False), ("{x}.a", "{y}.b", False)]:
            self.assertEqual(Template(one).may_equal(Template(other)), wanted)
            self.assertEqual(Template(other).may_equal(Template(one)), wanted)


class Mapped(InFolder):
    """A test of what a map makes of lines."""

    def rules(self, text):
        self.file("m.toml", text)
        return Rules(read_map(self.path("m.toml")), None)

    def reports(self, rules, lines):
        """What the lines are in one session: reports, or why they are none."""
        places, found = Places(rules.map.places), []
        for line in lines:
            rule, match = rules.match(line)
            for reported in rule.reports:
                try:
                    report = rules.report(reported, match.groupdict(), places)
                except Unmapped as reason:
                    found.append(str(reason))
                    continue
                found.append(report.line)
                if report.event is not None:
                    places.after(report.event, match.groupdict())
            places.free(rule.frees, match.groupdict())
        return found


@NEEDS
class Numbers(Mapped):
    PLACES = """
[places.client]
size = 2
free = ["gone.{client}", "lost.{client}"]
[places.packet]
size = 2
of = "{client}"
free = "ack.{client}.{packet}"
[[rule]]
match = '^(?P<what>come|gone|lost) (?P<client>\\S+)$'
event = "{what}.{client}"
[[rule]]
match = '^(?P<what>send|ack) (?P<client>\\S+) (?P<packet>\\S+)$'
event = "{what}.{client}.{packet}"
[[rule]]
match = '^none (?P<client>\\S+)'
refusal = ["come.{client}", "lost.{client}"]
"""

    def test_the_lowest_free_number(self):
        lines = ["come a", "come b", "come a", "gone a", "come c", "lost b", "none d", "come e", "come f"]
        wanted = ["E come.0", "E come.1", "E come.0", "E gone.0", "E come.0", "E lost.1", "R come.1 lost.1", "E come.1"]
        self.assertEqual(self.reports(self.rules(self.PLACES), lines), wanted + ["no place left for client 'f' (2)"])

    def test_a_refusal_keeps_no_number(self):
        lines = ["none a", "none b", "come b", "none a", "none b", "come a", "none c"]
        wanted = ["R come.0 lost.0", "R come.0 lost.0", "E come.0", "R come.1 lost.1", "R come.0 lost.0", "E come.1"]
        self.assertEqual(self.reports(self.rules(self.PLACES), lines), wanted + ["no place left for client 'c' (2)"])

    def test_places_of_an_owner(self):
        lines = ["send a x", "send b x", "send a y", "send a z", "ack a x", "send a z", "send b y", "send b z"]
        wanted = ["E send.0.0", "E send.1.0", "E send.0.1", "no place left for packet 'z' (2)", "E ack.0.0", "E send.0.0", "E send.1.1"]
        self.assertEqual(self.reports(self.rules(self.PLACES), lines), wanted + ["no place left for packet 'z' (2)"])

    def test_an_owner_that_goes_gives_back_what_is_its(self):
        lines = ["send a x", "send a y", "gone a", "send a z", "send a y"]
        wanted = ["E send.0.0", "E send.0.1", "E gone.0", "E send.0.0", "E send.0.1"]
        self.assertEqual(self.reports(self.rules(self.PLACES), lines), wanted)

    def test_an_event_without_the_name_frees_all(self):
        text = "[places.c]\nsize = 2\nfree = 'reset'\n[[rule]]\nmatch = '^reset$'\nevent = 'reset'\n[[rule]]\nmatch = '(?P<c>.+)'\nevent = 'e.{c}'\n"
        self.assertEqual(self.reports(self.rules(text), ["a", "b", "reset", "b"]), ["E e.0", "E e.1", "E reset", "E e.0"])

    def test_memory_does_not_grow_with_names(self):
        rules = self.rules(self.PLACES)
        places = Places(rules.map.places)
        for number in range(1000):
            for line in ("come c%d" % number, "send c%d p%d" % (number, number), "gone c%d" % number):
                rule, match = rules.match(line)
                places.after(rules.report(rule.reports[0], match.groupdict(), places).event, match.groupdict())
        self.assertEqual(places.numbers, {"client": {}, "packet": {}})

    def test_no_place_is_said(self):
        places = Places(self.rules(self.PLACES).map.places)
        kind = places.kinds["client"]
        for name in "ab":
            places.number(kind, {"client": name}, False)
        with self.assertRaises(NoPlace) as caught:
            places.number(kind, {"client": "c9"}, False)
        self.assertEqual(str(caught.exception), "no place left for client 'c9' (2)")


@NEEDS
class Names(Mapped):
    def test_tables(self):
        text = "[names.who]\n'10.0.0.5' = 0\nbob = 'right'\n[[rule]]\nmatch = '(?P<who>\\S+)'\nevent = 'e.{who}'\n"
        wanted = ["E e.0", "E e.right", "names.who has no 'eve'"]
        self.assertEqual(self.reports(self.rules(text), ["10.0.0.5", "bob", "eve"]), wanted)

    def test_what_can_not_be_sent(self):
        rules = self.rules("[[rule]]\nmatch = '^(?P<a>.*?)(?:;(?P<b>.*))?$'\nrefusal = ['x', '{a}']\n")
        wanted = ["R x y", "'' can't be an event's name", "'y z' can't be an event's name", "'\u00e4' can't be an event's name"]
        self.assertEqual(self.reports(rules, ["y", "", "y z", "\u00e4"]), wanted)
        self.assertIn("can't be an event's name", self.reports(rules, ["y" * 5000])[0])
        self.assertEqual(self.reports(rules, ["y" * 4092]), ["R x " + "y" * 4092])
        self.assertEqual(self.reports(rules, ["y" * 4093]), ["the report has 4097 bytes, and may have 4096"])
        rules = self.rules("[[rule]]\nmatch = '^a(?P<b>b)?$'\nevent = 'x.{b}'\n")
        self.assertEqual(self.reports(rules, ["ab", "a"]), ["E x.b", "the group 'b' took no part in the match"])

    def test_the_empty_refusal(self):
        self.assertEqual(self.reports(self.rules("[[rule]]\nmatch = 'idle'\nrefusal = []\n"), ["idle"]), ["R"])


@NEEDS
class Joins(InFolder):
    MAP = r"""
[[join]]
begin = '^(?P<pid>\d+) (?P<call>\w+)\((?P<head>.*) <unfinished \.\.\.>$'
end = '^(?P<pid>\d+) <\.\.\. (?P<call>\w+) resumed>(?P<tail>.*)$'
line = "{pid} {call}({head}{tail}"
[[rule]]
match = 'a'
event = 'a'
"""

    def joiner(self):
        self.file("m.toml", self.MAP)
        return Joiner(read_map(self.path("m.toml")).joins)

    def test_lines_that_belong_together(self):
        joiner = self.joiner()
        lines = ["7 read(3,  <unfinished ...>", "8 read(4,  <unfinished ...>", "9 close(5) = 0", "7 <... read resumed>\"x\", 1) = 1",
                 "8 <... write resumed>) = 0", "8 <... read resumed>\"y\", 1) = 1"]
        wanted = [FIRST, FIRST, lines[2], "7 read(3, \"x\", 1) = 1", lines[4], "8 read(4, \"y\", 1) = 1"]
        found = [joiner.line(line) for line in lines]
        self.assertEqual([one if isinstance(one, str) else FIRST for one in found], wanted)
        self.assertEqual(joiner.waiting(), 0)

    def test_beginnings_without_an_end(self):
        joiner = self.joiner()
        for pid in range(MOST_BEGUN + 10):
            self.assertNotIsInstance(joiner.line("%d read(3,  <unfinished ...>" % pid), str)
        self.assertEqual(len(joiner.begun[0]), MOST_BEGUN)
        self.assertEqual(joiner.waiting(), MOST_BEGUN + 10)


if __name__ == "__main__":
    unittest.main()
