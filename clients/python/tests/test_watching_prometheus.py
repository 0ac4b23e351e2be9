"""The rules for alerts and the dashboard of `examples/watching`, by Debian's promtool and prometheus, on what `cspwatch-metrics` says."""
import json
import os
import shutil
import subprocess
import sys
import unittest
import urllib.parse

sys.path[:0] = [os.path.dirname(os.path.abspath(__file__))]

from watching_folder import BOTH, ROOT, SECONDS, fetched, journal, needs, soon  # noqa: E402
from test_watching_metrics import WithMetrics  # noqa: E402

EXAMPLES = os.path.join(ROOT, "examples", "watching")
TOOLS = unittest.skipUnless(shutil.which("promtool") and shutil.which("prometheus"), "prometheus isn't installed")
ALERTS = {
    "CspwatchRejected", "CspwatchLineNotJudged", "CspwatchClosed", "CspwatchSilent", "CspwatchDiskNearlyFull", "CspwatchJournalRefused",
    "CspwatchNotFollowed",
}


def text_of(name):
    with open(os.path.join(EXAMPLES, name), encoding="utf-8") as file:
        return file.read()


def expressions():
    """What the dashboard asks for, with its variables filled in."""
    for panel in json.loads(text_of("dashboard.json"))["panels"]:
        for target in panel["targets"]:
            yield panel["title"], target["expr"].replace("$instance", ".*")


@TOOLS
class Rules(unittest.TestCase):
    def test_promtool(self):
        for words in (["check", "config", "prometheus.yml"], ["check", "rules", "alerts.yml"], ["test", "rules", "alerts_test.yml"]):
            done = subprocess.run(["promtool", *words], cwd=EXAMPLES, stdout=subprocess.PIPE, stderr=subprocess.STDOUT, timeout=SECONDS)
            self.assertEqual(done.returncode, 0, done.stdout.decode())

    def test_each_alert_has_a_test(self):
        self.assertEqual({name for name in ALERTS if "alertname: %s\n" % name in text_of("alerts_test.yml")}, ALERTS)
        self.assertEqual(text_of("alerts.yml").count("- alert: "), len(ALERTS))


@TOOLS
@needs("prometheus_client")
class Prometheus(WithMetrics):
    """A Prometheus that asks the command every second."""

    def prometheus(self, port):
        """Its port, on which it is ready."""
        config = text_of("prometheus.yml").replace("127.0.0.1:9180", "127.0.0.1:%d" % port).replace("interval: 5s", "interval: 1s")
        self.write("prometheus.yml", config.encode())
        shutil.copy(os.path.join(EXAMPLES, "alerts.yml"), self.folder)
        log = self.path("prometheus.log")
        words = ["prometheus", "--config.file=prometheus.yml", "--storage.tsdb.path=data", "--web.listen-address=127.0.0.1:0"]
        with open(log, "wb") as errors:
            run = subprocess.Popen(words, cwd=self.folder, stdin=subprocess.DEVNULL, stdout=subprocess.PIPE, stderr=errors)
        self.addCleanup(self.end, run)

        def listens():
            # It doesn't say which port the system chose.
            told = subprocess.run(["ss", "-Hltnp"], stdout=subprocess.PIPE, timeout=SECONDS).stdout.decode()
            return [line.split()[3].rsplit(":", 1)[1] for line in told.splitlines() if "pid=%d," % run.pid in line]

        found = int(soon(listens, "a port of prometheus")[0])
        soon(lambda: fetched(found, "/-/ready")[0] == 200)
        return found

    def asked(self, port, query):
        """What Prometheus answers to a query."""
        status, _, body = fetched(port, "/api/v1/query?" + urllib.parse.urlencode({"query": query}))
        answer = json.loads(body)
        self.assertEqual((status, answer["status"]), (200, "success"), (query, answer))
        return answer["data"]["result"]

    def test_what_it_sees(self):
        self.write("j", journal(BOTH))
        self.write("log", b'{"what":"listening"}\n{"what":"connected"}\n{"what":"not judged","code":11}\n')
        run, metrics = self.start("j", "--log", "log")
        self.reaches(metrics, "cspwatch_following", 1)
        port = self.prometheus(metrics)
        soon(lambda: [one["value"][1] for one in self.asked(port, "cspwatch_rejected_reports_total")] == ["1"])
        rare = {"Rejected, by seat", "Lines not judged, by code"}
        for title, query in expressions():
            if title in rare:
                self.asked(port, query)
            else:
                soon(lambda: self.asked(port, query), title)

        def firing():
            return {one["metric"]["alertname"] for one in self.asked(port, "ALERTS")}

        # The NO and the line stood there before; and no server has the journal.
        soon(lambda: firing() >= {"CspwatchRejected", "CspwatchLineNotJudged", "CspwatchClosed"})
        # A restart with the same counts is no increase.
        self.end(run)
        soon(lambda: self.asked(port, "up == 0"))
        self.start("j", "--log", "log", "--listen", "127.0.0.1:%d" % metrics)
        soon(lambda: self.asked(port, "up == 1 and cspwatch_following == 1"))
        self.assertEqual(self.asked(port, "resets(cspwatch_rejected_reports_total[5m])")[0]["value"][1], "0")
        self.assertEqual(self.asked(port, "increase(cspwatch_rejected_reports_total[5m]) > 0"), [])


if __name__ == "__main__":
    unittest.main()
