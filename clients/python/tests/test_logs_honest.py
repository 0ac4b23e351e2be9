"""No run of `cspwatch-logs` is green that judged nothing. Run by `python3 -m unittest discover -s clients/python/tests`."""
import bz2
import gzip
import importlib.util
import lzma
import os
import sys
import unittest
import xml.etree.ElementTree

sys.path[:0] = [os.path.dirname(os.path.abspath(__file__))]

from logs_folder import NEEDS, RULES, SPECIFICATION, InFolder  # noqa: E402

if sys.version_info >= (3, 11):
    from cspwatch_client.logs.packed import LogFault
    from cspwatch_client.logs.reading import Source

HAS_ZSTANDARD = importlib.util.find_spec("zstandard") is not None
TEXT = b"".join(b"open %d\nclose 0\n" % (number % 2) for number in range(5000))


def one_in_frames(data):
    """The bytes as Zstandard, in two frames."""
    import zstandard

    packer = zstandard.ZstdCompressor()
    return packer.compress(data[:1000]) + packer.compress(data[1000:])


class InMapFolder(InFolder):
    def setUp(self):
        super().setUp()
        self.file("m.toml", SPECIFICATION + RULES)

    def suite(self):
        return xml.etree.ElementTree.parse(self.path("v.xml")).getroot()[0]


@NEEDS
class TooFewReports(InMapFolder):
    def test_an_empty_log(self):
        self.file("a.log", "")
        status, out, errors = self.logs("--junit", "v.xml", "m.toml", "a.log")
        self.assertEqual((status, errors), (2, ["cspwatch-logs: 0 reports were judged, and --min-reports is 1"]))
        self.assertEqual(out, ["0 lines, 0 reports: 0 accepted, 0 rejected, 0 not judged; 0 ignored, 0 without a rule"])
        suite = self.suite()
        self.assertEqual(suite.attrib, {"name": "m", "tests": "2", "failures": "0", "errors": "1", "skipped": "1"})
        self.assertEqual([[(child.tag, child.attrib["message"]) for child in case] for case in suite],
                         [[("skipped", "no report of it was judged in this run")], [("error", errors[0])]])

    def test_no_rule_takes_a_line(self):
        self.file("a.log", "what\nelse\n")
        status, out, errors = self.logs("m.toml", "a.log")
        self.assertEqual(status, 2)
        self.assertEqual(errors, ["cspwatch-logs: 0 reports were judged, and --min-reports is 1; the first line without a rule is a.log:1"])
        self.assertEqual(out, ["2 lines, 0 reports: 0 accepted, 0 rejected, 0 not judged; 0 ignored, 2 without a rule (first: a.log:1)"])

    def test_as_many_as_are_wanted(self):
        for wanted, status in ((0, 0), (2, 0), (3, 2)):
            self.assertEqual(self.logs("--min-reports", str(wanted), "m.toml", given=b"open 0\nopen 1\n")[0], status)
        self.assertEqual(self.logs("--min-reports", "0", "m.toml", given=b"")[0], 0)
        self.assertEqual(self.logs("--min-reports", "-1", "m.toml")[0], 2)
        # A run that ends at the first rejected report has done what it was to do.
        self.assertEqual(self.logs("--min-reports", "9", "--first", "m.toml", given=b"bad\n"),
                         (1, ["-:1: E bad: NO 1, expected open.0 or open.1", "    bad", "1 lines, 1 reports: 0 accepted, 1 rejected, 0 not judged; 0 ignored, 0 without a rule"], []))

    def test_a_log_of_which_nothing_could_be_judged(self):
        self.logs("--junit", "v.xml", "m.toml", given=b"open 7\n")
        self.assertEqual(self.suite().attrib, {"name": "m", "tests": "2", "failures": "0", "errors": "2"})

    def test_the_program_ends_early(self):
        self.file("p.csp", "channel open : {0, 1}\nchannel close : {0, 1}\nchannel bad\nend|E bad|6 p.csp: the end\n")
        self.assertEqual(self.logs("--junit", "v.xml", "m.toml", given=b"open 0\nbad\n")[0], 6)
        self.assertEqual(self.suite()[1][0].attrib["message"], "p.csp: the end (1 reports were not answered)")

    def test_strict_in_junit(self):
        self.logs("--strict", "--junit", "v.xml", "m.toml", given=b"open 0\nwhat\n")
        self.assertEqual([case.attrib["name"] for case in self.suite()], ["reports", "run"])
        self.assertEqual(self.suite()[1][0].attrib["message"], "1 lines without a rule, the first -:2")


@NEEDS
class Compressed(InMapFolder):
    PACKED = {"a.gz": gzip.compress(TEXT[:5000]) + gzip.compress(TEXT[5000:]), "a.bz2": bz2.compress(TEXT), "a.xz": lzma.compress(TEXT[:9]) + lzma.compress(TEXT[9:])}

    def check_text(self, name, packed):
        self.file(name, packed)
        expected = "10000 lines, 10000 reports: 10000 accepted, 0 rejected, 0 not judged; 0 ignored, 0 without a rule"
        self.assertEqual(self.logs("m.toml", name), (0, [expected], []))

    def test_each_form(self):
        for name, packed in self.PACKED.items():
            self.check_text(name, packed)

    @unittest.skipUnless(HAS_ZSTANDARD, "Python's package zstandard isn't installed")
    def test_zstandard(self):
        self.check_text("a.zst", one_in_frames(TEXT))

    def test_zstandard_without_its_package(self):
        self.file("zstandard.py", "raise ModuleNotFoundError('zstandard')\n")
        self.file("a.zst", b"\x28\xb5\x2f\xfd rest")
        status, _, errors = self.logs("m.toml", "a.zst", PYTHONPATH=self.folder + ":" + self.environment()["PYTHONPATH"])
        self.assertEqual((status, errors[0]), (5, "a.zst: to read Zstandard, Python needs the package zstandard (Debian: python3-zstandard)"))

    def test_standard_input_and_a_followed_log(self):
        packed = gzip.compress(b"open 0\nbad\n")
        self.assertEqual(self.logs("--quiet", "m.toml", given=packed)[1], ["-:2: E bad: NO 2, expected open.0 or open.1"])
        # A compressed file grows no more, so it is read to its end.
        self.file("a.gz", packed)
        self.assertEqual(self.logs("--quiet", "--follow", "m.toml", "a.gz")[1], ["a.gz:2: E bad: NO 2, expected open.0 or open.1"])

    def test_a_part_is_missing_or_damaged(self):
        for name, packed in self.PACKED.items():
            self.file(name, packed[:-5])
            status, _, errors = self.logs("m.toml", name)
            self.assertEqual((status, errors[0].split(" before ")[0]), (5, name + ": the file ends"))
            self.file(name, packed[:40] + b"damage" + packed[46:])
            status, _, errors = self.logs("m.toml", name)
            self.assertEqual((status, errors[0].split(": ")[1][:16]), (5, "this isn't whole"))

    def test_a_small_file_of_a_large_text_takes_little_memory(self):
        for name, packed in (("a.gz", gzip.compress(bytes(1 << 24))), ("a.bz2", bz2.compress(bytes(1 << 24))), ("a.xz", lzma.compress(bytes(1 << 24)))):
            self.file(name, packed)
            source = Source(self.path(name))
            pieces = [source.unpacker and len(source.splitter.rest) for _ in iter(lambda: source.read() or not source.ended or None, None)]
            self.assertGreater(len(pieces), (1 << 24) // (1 << 18))
            os.close(source.descriptor)

    def test_what_follows_a_part(self):
        self.file("a.gz", gzip.compress(b"open 0\n") + b"\0\0\0" + gzip.compress(b"open 1\n") + b"\0")
        self.assertEqual(self.logs("m.toml", "a.gz")[0], 0)
        self.file("a.gz", gzip.compress(b"open 0\n") + b"rest")
        source = Source(self.path("a.gz"))
        with self.assertRaises(LogFault):
            while not source.ended:
                source.read()


@NEEDS
class NoText(InMapFolder):
    def test_bytes_that_are_no_text_are_said_once(self):
        self.file("a.log", b"open 0\n\xff\nopen\0 0\nopen 1\n")
        status, out, errors = self.logs("m.toml", "a.log")
        self.assertEqual(errors, ["a.log:2: bytes that are no text (UTF-8 without NUL); they are read as \\xff"])
        self.assertEqual((status, out), (0, ["4 lines, 2 reports: 2 accepted, 0 rejected, 0 not judged; 0 ignored, 2 without a rule (first: a.log:2), 2 with bytes that are no text"]))


@NEEDS
class AfterAnEventThatWasNotJudged(InMapFolder):
    SCRIPT = "channel open : {0, 1}\nchannel close : {0, 1}\nchannel bad\nno|E bad|expected open.0\nfault|E open.1|21 states\nfault|R open.0|20 depth\n"

    def test_later_verdicts_are_marked(self):
        self.file("p.csp", self.SCRIPT)
        status, out, errors = self.logs("--quiet", "--junit", "v.xml", "m.toml", given=b"open 0\nopen 1\nbad\n")
        self.assertEqual(status, 2)
        self.assertEqual(errors, ["-:2: not judged: E open.1: ERR 21 states"])
        marked = "-:3: E bad: NO 2, expected open.0 (after -:2, whose event was not judged)"
        self.assertEqual(out, [marked])
        self.assertEqual([child.attrib["message"] for child in self.suite()[0]], [errors[0], marked])

    def test_a_verdict_before_it_counts(self):
        self.file("p.csp", self.SCRIPT)
        status, out, _ = self.logs("m.toml", given=b"bad\nopen 1\nbad\n")
        self.assertEqual(status, 1)
        self.assertEqual(out[-1], "3 lines, 3 reports: 0 accepted, 2 rejected, 1 not judged; 1 rejected after an event that was not judged, 0 ignored, 0 without a rule")

    def test_a_refusal_leaves_the_trace_as_it_is(self):
        self.file("p.csp", self.SCRIPT)
        status, out, _ = self.logs("--quiet", "m.toml", given=b"no 0\nbad\n")
        self.assertEqual((status, out), (1, ["-:2: E bad: NO 1, expected open.0"]))
        self.assertEqual(self.logs("m.toml", given=b"open 0\nno 0\n")[0], 6)

    def test_an_event_that_no_name_could_be_found_for(self):
        status, out, _ = self.logs("--quiet", "m.toml", given=b"open 7\nbad\n")
        self.assertEqual((status, out), (2, ["-:2: E bad: NO 1, expected open.0 or open.1 (after -:1, whose event was not judged)"]))


@NEEDS
class NamesAreShown(InMapFolder):
    """Names are shown, and obeyed by nothing."""

    NAME = "a\x1b[31m\n\"'<&\u202eb.log"
    SHOWN = "a\\x1b[31m\\x0a\"'<&\\u202eb.log"

    def test_in_messages_junit_and_annotations(self):
        self.file(self.NAME, "open 7\nbad\nwhat\n")
        status, out, errors = self.logs("--junit", "v.xml", "--annotations", "--strict", "m.toml", self.NAME)
        self.assertIn(self.SHOWN + ":1: not judged: the script has no event 'open.7'", errors)
        self.assertTrue(any(line.startswith(self.SHOWN + ":2: E bad: NO 1") for line in out), out)
        self.assertEqual([child.attrib["message"].split(": ")[0] for child in self.suite()[0]], [self.SHOWN + ":1", self.SHOWN + ":2"])
        for text in out + errors + [self.text("v.xml")]:
            self.assertNotIn("\x1b", text)
            self.assertNotIn("\u202e", text)

    def test_names_that_are_not_there(self):
        for words in ((self.NAME,), ("m.toml", self.NAME), ("--program", self.NAME, "m.toml"), ("--junit", "no/" + self.NAME, "m.toml"), ("m.toml", "--" + self.NAME)):
            _, out, errors = self.logs(*words)
            self.assertTrue(any(self.SHOWN in line for line in errors), (words, errors))
            self.assertNotIn("\x1b", "".join(out + errors))

    def test_a_name_that_is_not_utf8(self):
        name = os.fsdecode(b"\xff.log")
        self.file(name, "bad\n")
        self.assertEqual(self.logs("--junit", "v.xml", "--quiet", "m.toml", name)[1][0].split(": ")[0], "\\udcff.log:1")
        self.assertEqual(self.suite()[0][0].attrib["message"].split(": ")[0], "\\udcff.log:1")

    def test_sessions(self):
        self.file("m.toml", SPECIFICATION + "[sessions]\nkey = '{id}'\n" + RULES.replace("match = '^", "match = '^(?P<id>\\S+) "))
        _, out, _ = self.logs("--junit", "v.xml", "m.toml", given=b"a\x1b[2J bad\n")
        self.assertTrue(out[0].startswith("-:1: a\\x1b[2J: E bad: NO 1"), out)
        self.assertEqual(self.suite()[0].attrib["name"], "a\\x1b[2J")


if __name__ == "__main__":
    unittest.main()
