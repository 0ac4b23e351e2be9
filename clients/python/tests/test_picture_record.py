"""The picture of a record of `cspwatch-logs`. Run by `python3 -m unittest discover -s clients/python/tests`."""
import gzip
import json
import os
import re
import subprocess
import sys
import tempfile
import unittest

HERE = os.path.dirname(os.path.abspath(__file__))
sys.path[:0] = [os.path.dirname(HERE), os.path.dirname(os.path.dirname(HERE))]

from cspwatch_client.picture import render_record  # noqa: E402
from cspwatch_client.recorded import time_of  # noqa: E402
from cspwatch_client.shown import BadLine  # noqa: E402
from stand_in import SECONDS  # noqa: E402

LOG = "2026-12-01T10:00:00.5Z begin\n# nothing\n10:00:01 \x1b[31m<b>\u202ex</b>\nno time\n"
ROWS = [
    {"line": 1, "session": "", "report": "E a", "verdict": "OK", "place": 1},
    {"line": 3, "session": "", "report": "R a b", "verdict": "NO", "place": 2},
    {"line": 4, "session": "", "report": "E c", "fault": "21 states"},
]


def lines_of(rows):
    return [json.dumps(row) + "\n" for row in rows]


class Records(unittest.TestCase):
    def setUp(self):
        folder = tempfile.TemporaryDirectory(prefix="record-")
        self.addCleanup(folder.cleanup)
        self.folder = folder.name
        self.log = self.file("a.log", LOG.encode("utf-8"))

    def file(self, name, content):
        path = os.path.join(self.folder, name)
        with open(path, "wb") as file:
            file.write(content)
        return path

    def test_each_entry_has_its_line_and_time(self):
        page = render_record(lines_of(ROWS), self.log)
        found = re.findall(r'<small class="line">(.*?)</small>', page)
        self.assertEqual(found, [
            "<time>2026-12-01T10:00:00.5Z</time> %s:1 <code>2026-12-01T10:00:00.5Z begin</code>" % self.log,
            "<time>10:00:01</time> %s:3 <code>10:00:01 \\x1b[31m&lt;b&gt;\\u202ex&lt;/b&gt;</code>" % self.log,
        ])
        self.assertIn("<strong>rejected</strong></span>", page)
        self.assertNotIn("expected nothing</span>", page)

    def test_sessions_are_seats_and_a_log_may_be_compressed(self):
        packed = self.file("a.log.gz", gzip.compress(LOG.encode("utf-8")))
        page = render_record(lines_of([dict(row, session="s<%d>" % at) for at, row in enumerate(ROWS)]), packed)
        self.assertEqual(re.findall(r"s&lt;(\d)&gt;: [^ ]*:(\d) <code>(\d\d)", page), [("0", "1", "20"), ("1", "3", "10")])
        self.assertIn("--n:2;", page)

    def test_times(self):
        for text, time in (("Dec  1 09:08:07 host", "Dec  1 09:08:07"), ("1795802105: up", "1795802105"), ("a 1795802105", None), ("x 01:02:03,004 y", "01:02:03,004"), ("", None)):
            self.assertEqual(time_of(text), time)

    def test_what_is_no_record(self):
        for row in ("{}\n", "x\n", "[1]\n", '{"line": "1", "report": "E a"}\n'):
            with self.assertRaises(BadLine) as caught:
                render_record(lines_of(ROWS) + [row], self.log)
            self.assertEqual(caught.exception.line, 4)
        self.assertIn('id="p2"', render_record(lines_of(ROWS) + ['{"line": 4'], self.log))

    def test_the_command(self):
        record = self.file("r", "".join(lines_of(ROWS)).encode("ascii"))
        for words, status in ((["--record", record, "--log", self.log], 0), (["--record", record], 2), (["--record", record, "--log", "no\x1b.log"], 5)):
            command = [sys.executable, "-m", "cspwatch_client.picture", *words]
            done = subprocess.run(command, cwd=os.path.dirname(HERE), stdout=subprocess.PIPE, stderr=subprocess.PIPE, timeout=SECONDS)
            self.assertEqual(done.returncode, status, done.stderr)
            self.assertNotIn(b"\x1b", done.stderr)


if __name__ == "__main__":
    unittest.main()
