"""Lines of logs, verdicts as text and as files. Run by `python3 -m unittest discover -s clients/python/tests`."""
import os
import sys
import unittest
import xml.etree.ElementTree

sys.path[:0] = [os.path.dirname(os.path.abspath(__file__))]

from logs_folder import NEEDS, RULES, SPECIFICATION, InFolder  # noqa: E402

if sys.version_info >= (3, 11):
    from cspwatch_client.logs.junit import MOST_FAILURES
    from cspwatch_client.logs.following import Followed
    from cspwatch_client.logs.reading import LONGEST, Source, Splitter
    from cspwatch_client.logs.showing import MOST_MESSAGES, SHOWN, escaped, printable


def texts(lines):
    return [line.text for line in lines]


def rest_of(source):
    """All lines of a source that ends."""
    found = []
    while not source.ended:
        found += source.read()
    return found


@NEEDS
class Splits(unittest.TestCase):
    def test_pieces(self):
        data = b"one\ntwo\r\n\n\xc3\xa4 \xff\nlast"
        for size in (1, 2, 3, 100):
            splitter, found = Splitter("x"), []
            for at in range(0, len(data), size):
                found += splitter.take(data[at : at + size])
            found += splitter.end()
            self.assertEqual(texts(found), ["one", "two", "", "\u00e4 \\xff", "last"])
            self.assertEqual([line.number for line in found], [1, 2, 3, 4, 5])

    def test_a_carriage_return_within_a_line_stays(self):
        self.assertEqual(texts(Splitter("x").take(b"a\rb\r\r\n")), ["a\rb\r"])

    def test_lines_of_a_megabyte_and_more(self):
        splitter = Splitter("x")
        long = b"x" * LONGEST
        found = splitter.take(b"a\n" + long) + splitter.take(b"\nb\n")
        self.assertEqual([len(text) for text in texts(found)], [1, LONGEST, 1])
        self.assertEqual(splitter.cut, 0)
        found = splitter.take(long + b"y") + splitter.take(long) + splitter.take(b"z\nc\n")
        self.assertEqual([(line.number, len(line.text)) for line in found], [(4, LONGEST), (5, 1)])
        self.assertEqual(splitter.cut, 1)
        self.assertLessEqual(len(splitter.rest), LONGEST)


@NEEDS
class Sources(InFolder):
    def test_a_file(self):
        self.file("a.log", b"x\r\ny")
        found = rest_of(Source(self.path("a.log")))
        self.assertEqual([(line.number, line.text) for line in found], [(1, "x"), (2, "y")])

    def append(self, name, data):
        with open(self.path(name), "ab") as file:
            file.write(data)

    def test_a_file_that_grows(self):
        self.file("a.log", b"x\ny")
        source = Followed(self.path("a.log"))
        self.assertEqual(texts(source.read()), ["x"])
        self.assertEqual(source.read(), [])
        self.append("a.log", b"z\n")
        self.assertEqual([(line.number, line.text) for line in source.read()], [(2, "yz")])
        self.assertFalse(source.ended)

    def test_a_file_that_is_rotated(self):
        self.file("a.log", b"x\n")
        source = Followed(self.path("a.log"))
        self.assertEqual(texts(source.read()), ["x"])
        os.rename(self.path("a.log"), self.path("a.log.1"))
        self.assertEqual(source.read(), [])
        self.append("a.log.1", b"late\nlast")
        self.file("a.log", b"new\n")
        found = source.read() + source.read() + source.read()
        self.assertEqual([(line.number, line.text) for line in found], [(2, "late"), (3, "last"), (1, "new")])

    def test_a_file_that_is_cut(self):
        self.file("a.log", b"one\ntwo\n")
        source = Followed(self.path("a.log"))
        self.assertEqual(texts(source.read()), ["one", "two"])
        os.truncate(self.path("a.log"), 0)
        self.append("a.log", b"new\n")
        self.assertEqual([(line.number, line.text) for line in source.read() + source.read()], [(1, "new")])


@NEEDS
class Texts(InFolder):
    MAP = SPECIFICATION + RULES

    def test_controls(self):
        self.assertEqual(printable("a\x1b[31m\tb\u00e4\x85"), "a\\x1b[31m\tb\u00e4\\x85")
        self.file("m.toml", self.MAP.replace("'^bad$'", "'^bad'"))
        self.assertEqual(self.logs("m.toml", given=b"bad \x1b[2J\xff\n")[1][1], "    bad \\x1b[2J\\xff")

    def test_a_long_line_is_shortened(self):
        self.file("m.toml", self.MAP.replace("'^bad$'", "'^bad'"))
        _, out, _ = self.logs("m.toml", given=b"bad" + b"x" * (1 << 20) + b"\n")
        self.assertEqual(out[1], "    bad%s … (1048579 characters)" % ("x" * (SHOWN - 3)))

    def test_annotations(self):
        self.assertEqual(escaped("a%b\r\nc:d,e", in_field=True), "a%25b%0D%0Ac%3Ad%2Ce")
        self.assertEqual(escaped("a:b,c", in_field=False), "a:b,c")
        self.file("m.toml", self.MAP)
        self.file("a,1.log", "open 0\nbad\n")
        _, out, _ = self.logs("--annotations", "--quiet", "m.toml", "a,1.log")
        self.assertEqual(out, ["a,1.log:2: E bad: NO 2, expected open.0 or open.1",
                               "::error file=a%2C1.log,line=2,title=cspwatch::E bad: NO 2, expected open.0 or open.1"])

    def test_messages_are_limited(self):
        self.file("m.toml", self.MAP)
        status, out, errors = self.logs("m.toml", given=b"open 7\n" * 100)
        self.assertEqual((status, len(errors)), (2, MOST_MESSAGES + 2))
        self.assertEqual(errors[-1], "cspwatch-logs: 0 reports were judged, and --min-reports is 1")
        self.assertEqual(errors[0], "-:1: not judged: the script has no event 'open.7'")
        self.assertEqual(out, ["100 lines, 100 reports: 0 accepted, 0 rejected, 100 not judged; 0 ignored, 0 without a rule"])


@NEEDS
class JUnitFiles(InFolder):
    def cases(self, *words, given):
        self.logs("--junit", "v.xml", *words, given=given)
        suites = xml.etree.ElementTree.parse(self.path("v.xml")).getroot()
        return suites[0], list(suites[0])

    def test_one_case_for_the_whole(self):
        self.file("m.toml", SPECIFICATION + RULES)
        suite, cases = self.cases("m.toml", given=b"1\n2\n3\n4\nbad\nx <&>\x01\n7\n8\n9\nopen 7\n")
        self.assertEqual(suite.attrib, {"name": "m", "tests": "1", "failures": "1", "errors": "0"})
        failure, error = cases[0]
        self.assertEqual(failure.attrib["message"], "-:5: E bad: NO 1, expected open.0 or open.1")
        self.assertEqual(failure.text, "\n  2: 2\n  3: 3\n  4: 4\n> 5: bad\n  6: x <&>\\x01\n  7: 7\n  8: 8\n")
        self.assertEqual((error.tag, error.attrib["message"]), ("error", "-:10: not judged: the script has no event 'open.7'"))
        self.assertEqual(error.text, "\n  7: 7\n  8: 8\n  9: 9\n> 10: open 7\n")

    def test_a_case_for_each_session(self):
        self.file("m.toml", SPECIFICATION + "[sessions]\nkey = '{id}'\n" + RULES.replace("match = '^", "match = '^(?P<id>\\w+) "))
        suite, cases = self.cases("m.toml", given=b"a open 0\nb bad\na open 1\nc open 9\n")
        self.assertEqual(suite.attrib, {"name": "m", "tests": "2", "failures": "1", "errors": "0"})
        self.assertEqual([(case.attrib["name"], case.attrib["assertions"], len(case)) for case in cases], [("a", "2", 0), ("b", "1", 1)])

    def test_many_failures(self):
        self.file("m.toml", SPECIFICATION + RULES)
        _, cases = self.cases("m.toml", given=b"bad\n" * (MOST_FAILURES + 5))
        self.assertEqual(len(cases[0]), MOST_FAILURES + 1)
        self.assertEqual(cases[0][-1].text, "5 more were rejected or not judged")

    def test_a_file_that_can_not_be_written(self):
        self.file("m.toml", SPECIFICATION + RULES)
        self.assertEqual(self.logs("--junit", "no/v.xml", "m.toml"), (5, [], ["no/v.xml: No such file or directory"]))


if __name__ == "__main__":
    unittest.main()
