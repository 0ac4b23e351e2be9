"""The command `cspwatch-metrics`: what it counts, through all that can become of a journal. CSPWATCH names the program."""
import contextlib
import json
import os
import re
import shutil
import signal
import socket
import subprocess
import sys
import tempfile
import time
import unittest

sys.path[:0] = [os.path.dirname(os.path.abspath(__file__))]

from watching_folder import BOTH, IS_SERVICE, PYTHON, SECONDS, Watching, children, cycles, fetched, journal, needs, soon, write_parts  # noqa: E402

METRICS = needs("prometheus_client")
SERVICE = unittest.skipUnless(IS_SERVICE, "the program has no service")
FOLLOWED = [
    ("cspwatch_reports_total", {"kind": "event", "seat": "1", "verdict": "accepted"}, 2),
    ("cspwatch_reports_total", {"kind": "event", "seat": "1", "verdict": "rejected"}, 1),
    ("cspwatch_reports_total", {"kind": "refusal", "seat": "2", "verdict": "accepted"}, 1),
    ("cspwatch_reports_total", {"kind": "refusal", "seat": "2", "verdict": "rejected"}, 0),
    ("cspwatch_rejected_reports_total", {}, 1),
    ("cspwatch_events", {}, 3),
    ("cspwatch_events_never_seen", {}, 1),
    ("cspwatch_behind_entries", {}, 0),
    ("cspwatch_parts_total", {}, 1),
    ("cspwatch_open", {}, 0),
    ("cspwatch_following", {}, 1),
    ("cspwatch_refused", {}, 0),
]
"""Of a journal with the records `BOTH`."""


class WithMetrics(Watching):
    command = "metrics"

    def samples(self, port):
        """All samples: by name and labels, the value."""
        from prometheus_client.parser import text_string_to_metric_families

        status, _, body = fetched(port, "/metrics")
        self.assertEqual(status, 200)
        families = text_string_to_metric_families(body.decode("utf-8"))
        return {(one.name, *sorted(one.labels.items())): one.value for family in families for one in family.samples}

    def value(self, port, name, **labels):
        return self.samples(port).get((name, *sorted(labels.items())))

    def reaches(self, port, name, value, **labels):
        """Waits until a sample has this value."""
        soon(lambda: self.value(port, name, **labels) == value, "%s %s %s" % (name, labels, value))


@METRICS
class Journals(WithMetrics):
    def test_what_it_counts(self):
        self.write("j", journal(BOTH))
        os.utime(self.path("j"), (time.time() - 500, time.time() - 500))
        _, port = self.start("j")
        self.reaches(port, "cspwatch_following", 1)
        found = self.samples(port)
        for name, labels, value in FOLLOWED:
            self.assertEqual(found.get((name, *sorted(labels.items()))), value, (name, labels))
        self.assertEqual(found["cspwatch_journal_bytes",], len(journal(BOTH)))
        self.assertGreaterEqual(found["cspwatch_last_entry_age_seconds",], 499)
        self.assertLess(found["cspwatch_last_entry_age_seconds",], 500 + SECONDS)

    def test_parts(self):
        # The program's parts have 1,000,000 records; a part that isn't full is refused.
        write_parts(self.path("j"), list(cycles(3)), 3)
        _, port = self.start("j")
        self.reaches(port, "cspwatch_reports_total", 3, kind="event", seat="1", verdict="accepted")
        self.assertEqual(self.value(port, "cspwatch_parts_total"), 1)

    def test_seats_without_a_name_are_counted_together(self):
        self.write("j", journal(["1000 1 E+ 1", "1001 1 E+ 2", "1002 1 E+ 1", "65535 1 E- 1"]))
        _, port = self.start("j")
        self.reaches(port, "cspwatch_reports_total", 2, kind="event", seat="other", verdict="accepted")
        self.assertEqual(self.value(port, "cspwatch_reports_total", kind="event", seat="other", verdict="rejected"), 1)
        self.assertEqual(self.value(port, "cspwatch_reports_total", kind="event", seat="1000", verdict="accepted"), 1)

    def test_a_journal_that_isnt_there_yet(self):
        _, port = self.start("j")
        soon(lambda: "j: No such file or directory; waiting for it" in self.said())
        self.assertEqual(self.value(port, "cspwatch_following"), 0)
        self.assertIsNone(self.value(port, "cspwatch_rejected_reports_total"))
        self.write("j", b"")
        soon(lambda: "j: it is empty; waiting for it" in self.said())
        self.write("j", journal(BOTH))
        self.reaches(port, "cspwatch_rejected_reports_total", 1)

    def test_another_journal_in_its_place(self):
        self.write("j", journal(BOTH))
        _, port = self.start("j")
        self.reaches(port, "cspwatch_rejected_reports_total", 1)
        self.write("j", journal(["3 1 E+ 1"]))
        self.reaches(port, "cspwatch_reports_total", 1, kind="event", seat="3", verdict="accepted")
        found = self.samples(port)
        self.assertEqual(found["cspwatch_rejected_reports_total",], 0)
        self.assertNotIn("1", {dict(key[1:]).get("seat") for key in found})
        self.assertIn("j: is another journal now", self.said())

    def test_a_journal_that_is_refused_amid_following(self):
        self.write("j", journal(BOTH))
        _, port = self.start("j")
        self.reaches(port, "cspwatch_rejected_reports_total", 1)
        self.write("j", journal(BOTH + ["1 9 E+ 1"]))
        self.reaches(port, "cspwatch_refused", 1)
        self.assertIn("j: 52 record 5", self.said())
        self.assertEqual(self.value(port, "cspwatch_following"), 0)
        # What was counted stays.
        self.assertEqual(self.value(port, "cspwatch_rejected_reports_total"), 1)
        self.write("j", journal(BOTH + ["1 4 E- 2"]))
        self.reaches(port, "cspwatch_rejected_reports_total", 2)
        self.assertEqual((self.value(port, "cspwatch_following"), self.value(port, "cspwatch_refused")), (1, 0))
        self.assertEqual(self.said().count("52 record 5"), 1)

    def test_a_journal_that_goes_away(self):
        self.write("j", journal(BOTH))
        _, port = self.start("j")
        self.reaches(port, "cspwatch_rejected_reports_total", 1)
        os.unlink(self.path("j"))
        self.reaches(port, "cspwatch_following", 0)
        self.write("j", journal(BOTH))
        self.reaches(port, "cspwatch_following", 1)

    def test_no_journal(self):
        self.write("j", b"\xff\x00 this is none\n")
        _, port = self.start("j")
        self.reaches(port, "cspwatch_refused", 1)
        self.assertIn("j: 50 header", self.said())

    def test_what_is_no_file(self):
        os.mkfifo(self.path("pipe"))
        for name in ("pipe", "/dev/zero", "."):
            _, port = self.start(name)
            soon(lambda: "%s: it is no file; waiting for it" % name in self.said())
            self.assertEqual(self.value(port, "cspwatch_following"), 0)

    def test_without_standard_streams(self):
        self.write("j", journal(BOTH))
        with socket.create_server(("127.0.0.1", 0)) as free:
            port = free.getsockname()[1]
        words = self.words("j", "--listen", "127.0.0.1:%d" % port)
        environment = {**os.environ, "PYTHONPATH": PYTHON}
        run = subprocess.Popen(["sh", "-c", 'exec "$@" <&- >&- 2>&-', "sh", *words], cwd=self.folder, env=environment, stdout=subprocess.PIPE)
        self.addCleanup(self.end, run)
        soon(lambda: listens(port))
        self.reaches(port, "cspwatch_rejected_reports_total", 1)

    def test_a_name_that_nobody_should_give(self):
        # The program can't open one that isn't UTF-8.
        for name, following, shown in (
            (b'-a"}\n# TYPE x \\ <script>', "cspwatch_following", '-a"}\n# TYPE x \\ <script>'),
            (b"\xff", "cspwatch_refused", "\\xff"),
        ):
            self.write(os.fsdecode(name), journal(BOTH))
            _, port = self.start("--", os.fsdecode(name))
            self.reaches(port, following, 1)
            labels = [dict(key[1:]) for key in self.samples(port) if key[0] == "cspwatch_watching_info"]
            self.assertEqual([one["journal"] for one in labels], [shown])


@METRICS
@SERVICE
class BesideAService(WithMetrics):
    def test_it_follows_and_a_restart_counts_on(self):
        from cspwatch_client import Client

        _, address = self.serve()
        run, port = self.start("j")
        self.reaches(port, "cspwatch_open", 1)
        self.reaches(port, "cspwatch_following", 1)
        with Client(address, SECONDS, seat=7) as client:
            for report in ("a", "b", "b", "a"):
                client.event(report)
            client.refusal(["a"])
            self.reaches(port, "cspwatch_reports_total", 1, kind="refusal", seat="7", verdict="accepted")
            self.assertEqual(self.value(port, "cspwatch_reports_total", kind="event", seat="7", verdict="accepted"), 3)
            self.assertLess(self.value(port, "cspwatch_last_entry_age_seconds"), SECONDS)
            before = {key: value for key, value in self.samples(port).items() if key[0].endswith("_total")}
            self.assertEqual(self.end(run), -signal.SIGTERM)
            run, port = self.start("j")
            seen = []
            while not seen or "cspwatch_rejected_reports_total" not in {key[0] for key in seen[-1]}:
                seen.append(self.samples(port))
            # Until all is read there is no count of entries, and so none that is too small.
            for samples in seen[:-1]:
                self.assertNotIn("cspwatch_reports_total", {key[0] for key in samples})
            self.assertEqual({key: seen[-1][key] for key in before}, before)
            client.event("b")
            self.reaches(port, "cspwatch_reports_total", 4, kind="event", seat="7", verdict="accepted")

    def test_an_end_of_the_service(self):
        service, _ = self.serve()
        _, port = self.start("j")
        self.reaches(port, "cspwatch_open", 1)
        self.end(service)
        self.reaches(port, "cspwatch_open", 0)

    def test_it_leaves_no_process(self):
        self.serve()
        for number in (signal.SIGTERM, signal.SIGINT):
            run, port = self.start("j")
            self.reaches(port, "cspwatch_following", 1)
            found = children(run.pid)
            self.assertTrue(found)
            self.assertEqual(self.end(run, number), -number)
            self.assertFalse([pid for pid in found if os.path.exists("/proc/" + pid)])


@METRICS
class Logs(WithMetrics):
    LINES = [
        {"what": "listening", "address": "127.0.0.1:4070"},
        {"what": "connected", "connection": 1, "peer": "127.0.0.1:51844"},
        {"what": "connected", "connection": 2, "peer": "127.0.0.1:51845"},
        {"what": "not judged", "connection": 1, "code": 11, "line": "E x"},
        {"what": "not judged", "connection": 1, "code": 11, "line": "E \"}\ny 1\n"},
        {"what": "ended", "connection": 1, "reports": 4, "why": "quit"},
    ]

    def log(self, *more):
        return "".join(json.dumps({"time": "2026-11-28T09:14:07.120Z", **one}) + "\n" for one in [*self.LINES, *more]).encode()

    def begun(self, content):
        self.write("j", journal(BOTH))
        self.write("log", content)
        _, port = self.start("j", "--log", "log")
        self.reaches(port, "cspwatch_following", 1)
        return port

    def test_what_it_counts(self):
        port = self.begun(self.log())
        found = self.samples(port)
        self.assertEqual(found["cspwatch_lines_not_judged_total", ("code", "11")], 2)
        self.assertEqual(found["cspwatch_lines_not_judged_total", ("code", "30")], 0)
        self.assertEqual((found["cspwatch_connections_total",], found["cspwatch_connections_now",]), (2, 1))
        self.assertEqual(found["cspwatch_connections_ended_total", ("why", "quit")], 1)
        with open(self.path("log"), "ab") as file:
            file.write(b'{"time":"2026-11-28T09:14:08.000Z","what":"not judged","connection":2,"code":12,"line":"')
            file.flush()
            time.sleep(1)
            file.write(b'x"}\n')
        self.reaches(port, "cspwatch_lines_not_judged_total", 1, code="12")
        self.assertEqual(self.value(port, "cspwatch_log_lines_unread_total"), 0)

    def test_odd_lines(self):
        why = 'a"}\ncspwatch_open 1\n# \\'
        odd = [b"no JSON", b"[1]", b"{}", b'{"what":"not judged","code":"x"}', b"[" * 100000, b"\xff\xfe", b'{"what":{}}']
        port = self.begun(self.log({"what": "ended", "connection": 2, "why": why}, {"what": "closed", "lost": 3}) + b"\n".join(odd) + b"\n")
        self.reaches(port, "cspwatch_log_lines_unread_total", 6)
        found = self.samples(port)
        self.assertEqual(found["cspwatch_connections_ended_total", ("why", why)], 1)
        self.assertEqual((found["cspwatch_open",], found["cspwatch_log_lines_lost_total",]), (0, 3))

    def test_a_log_that_isnt_read_yet_has_no_counts(self):
        # 20 MB are read in several looks. Too small a count would look like a reset, and what follows like new lines.
        line = self.log().splitlines(keepends=True)[3]
        lines = 20_000_000 // len(line)
        self.write("j", journal(BOTH))
        self.write("log", line * lines)
        _, port = self.start("j", "--log", "log")
        found = soon(lambda: self.value(port, "cspwatch_lines_not_judged_total", code="11"))
        self.assertEqual(found, lines)

    def test_reasons_without_end_are_counted_together(self):
        port = self.begun(self.log(*({"what": "ended", "connection": 2, "why": "why %d" % number} for number in range(1000))))
        found = {key: value for key, value in self.samples(port).items() if key[0] == "cspwatch_connections_ended_total"}
        self.assertLess(len(found), 100)
        self.assertEqual(sum(found.values()), 1001)

    def test_a_log_that_is_rotated(self):
        port = self.begun(self.log())
        os.rename(self.path("log"), self.path("log.1"))
        self.write("log", self.log())
        self.reaches(port, "cspwatch_lines_not_judged_total", 4, code="11")

    @SERVICE
    def test_a_journal_that_failed_is_closed(self):
        self.serve()
        self.write("log", self.log({"what": "not judged", "connection": 2, "code": 30, "line": "E a"}))
        _, port = self.start("j", "--log", "log")
        self.reaches(port, "cspwatch_lines_not_judged_total", 1, code="30")
        self.assertEqual(self.value(port, "cspwatch_open"), 0)


@METRICS
class Requests(WithMetrics):
    def test_other_requests(self):
        _, port = self.start("j")
        self.assertEqual(fetched(port)[0], 200)
        self.assertEqual(fetched(port, "/metrics", method="HEAD")[::2], (200, b""))
        self.assertEqual(fetched(port, "/metrics", method="POST")[0], 501)
        status, headers, body = fetched(port, "/%0d%0aSet-Cookie:%20a=b")
        self.assertEqual((status, headers["Set-Cookie"], body), (404, None, b"there is only /metrics\n"))
        for sent in (b"\xff\xfe\x00\n\n", b"GET /metrics HTTP/9.9\r\n\r\n", b"GET " + b"/" * 100000 + b" HTTP/1.1\r\n\r\n", b"\n"):
            with socket.create_connection(("127.0.0.1", port), SECONDS) as link, contextlib.suppress(OSError):
                # It may end the connection before all is sent.
                link.sendall(sent)
                link.shutdown(socket.SHUT_WR)
                while link.recv(65536):
                    pass
        self.assertEqual(fetched(port, "/metrics")[0], 200)
        self.assertNotIn("Traceback", self.said())

    def test_too_many_at_one_time(self):
        _, port = self.start("j")
        links = [socket.create_connection(("127.0.0.1", port), SECONDS) for _ in range(40)]
        first = [soon(lambda: link.recv(12), "an answer") for link in links[16:]]
        self.assertEqual(set(first), {b"HTTP/1.1 503"})
        for link in links:
            link.close()
        soon(lambda: fetched(port, "/metrics")[0] == 200)

    def test_a_port_in_use(self):
        with socket.create_server(("127.0.0.1", 0)) as taken:
            words = self.words("j")
            words[words.index("--listen") + 1] = address = "127.0.0.1:%d" % taken.getsockname()[1]
            done = subprocess.run(words, cwd=PYTHON, capture_output=True, timeout=SECONDS)
        self.assertEqual((done.returncode, done.stdout, done.stderr.decode()), (5, b"", address + ": cannot listen: Address already in use\n"))

    def test_words_that_arent_right(self):
        for words, status in ((["--listen", "9180"], 2), (["--listen", "127.0.0.1:99999"], 2), (["--program", "/none"], 5), ([], 2)):
            done = subprocess.run([sys.executable, "-m", "cspwatch_client.watching.metrics", *words, *(["j"] if words else [])], cwd=PYTHON, capture_output=True, timeout=SECONDS)
            self.assertEqual((done.returncode, done.stdout), (status, b""), words)
            self.assertNotIn(b"Traceback", done.stderr)

    @unittest.skipUnless(shutil.which("strace"), "strace isn't installed")
    def test_it_writes_no_file(self):
        self.write("j", journal(BOTH))
        run, port = self.start("j", before=["strace", "-f", "-qq", "-e", "trace=open,openat,creat,mkdir,unlink,rename,flock,fcntl", "-o", self.path("calls")])
        self.reaches(port, "cspwatch_following", 1)
        for pid in children(run.pid):
            os.kill(int(pid), signal.SIGTERM)
        run.wait(SECONDS)
        with open(self.path("calls"), encoding="utf-8", errors="replace") as file:
            calls = file.read().splitlines()
        made = [line for line in calls if re.search(r"O_(WRONLY|RDWR|CREAT|APPEND)|creat\(|mkdir\(|unlink\(|rename\(|flock\(|F_SETLK", line)]
        self.assertTrue(calls)
        self.assertEqual([line for line in made if "/dev/null" not in line and "/dev/tty" not in line], [])

    def test_a_full_disk(self):
        with tempfile.TemporaryDirectory(prefix="full-") as place:
            if subprocess.run(["mount", "-t", "tmpfs", "-o", "size=256k", "none", place], stderr=subprocess.DEVNULL).returncode:
                self.skipTest("no disk can be mounted here")
            try:
                with open(os.path.join(place, "j"), "wb") as file:
                    file.write(journal(BOTH))
                with open(os.path.join(place, "rest"), "wb", buffering=0) as file:
                    while file_takes(file):
                        pass
                run, port = self.start(os.path.join(place, "j"))
                self.reaches(port, "cspwatch_rejected_reports_total", 1)
                self.assertEqual((self.value(port, "cspwatch_disk_free_bytes"), self.value(port, "cspwatch_events_never_seen")), (0, 1))
                self.end(run)
            finally:
                subprocess.run(["umount", place], check=True)


def listens(port):
    with socket.socket() as link:
        return link.connect_ex(("127.0.0.1", port)) == 0


def file_takes(file):
    """Whether the file takes one more page."""
    try:
        return file.write(b"x" * 4096) == 4096
    except OSError:
        return False


if __name__ == "__main__":
    unittest.main()
