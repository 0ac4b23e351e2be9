"""The command `cspwatch-test`: what it prints and writes, bad input, interrupts, several systems side by side, real systems."""
import json
import os
import shutil
import signal
import subprocess
import sys
import time
import unittest
import xml.etree.ElementTree

sys.path[:0] = [os.path.dirname(os.path.abspath(__file__))]

from testing_folder import CLIENTS, COMMAND, NEEDS, NEEDS_HYPOTHESIS, NEEDS_PROGRAM, SECONDS, InFolder, program  # noqa: E402

EXAMPLES = os.path.join(os.path.dirname(CLIENTS), "examples", "testing")

SCRIPT = """channel coin, push, bell
P = coin -> PAID
PAID = push -> bell -> P [] coin -> PAID
"""

ADAPTER = """import os
from cspwatch_client.testing import Refused, does

outputs = ["bell"]
quiet = "0"
rings = []
paid = False

def reset():
    global paid
    paid = False
    rings.clear()

@does("coin")
def coin():
    global paid
    paid = True

@does("push")
def push():
    global paid
    if not paid:
        raise Refused
    paid = %s
    rings.append("bell")

def observe(wait):
    seen = list(rings)
    rings.clear()
    return seen
"""

RIGHT, WRONG = ADAPTER % "False", ADAPTER % "True"
"""The second lets people through without a further coin."""


@NEEDS
@NEEDS_PROGRAM
@NEEDS_HYPOTHESIS
class Command(InFolder):
    def setUp(self):
        super().setUp()
        self.file("p.csp", SCRIPT)

    def played(self, adapter, *words, **more):
        self.file("a.py", adapter)
        return self.command(*words, "p.csp", "P", "a.py", **more)

    def test_a_right_system(self):
        status, out, errors = self.played(RIGHT, "--runs", "20", "--seed", "7", "--json", "j", "--junit", "x")
        self.assertEqual((status, errors), (0, []))
        self.assertRegex(out[-1], r"^20 runs, \d+ steps, \d+ reports: 0 failed; 3 of 3 events came; seed 7$")
        told = json.loads(self.text("j"))
        self.assertEqual((told["status"], told["runs"], told["found"], told["stopped"]), (0, 20, None, None))
        self.assertEqual(set(told["coverage"]["events"]), {"coin", "push", "bell"})
        suite = xml.etree.ElementTree.fromstring(self.text("x"))[0]
        self.assertEqual((suite.get("tests"), suite.get("failures"), suite.get("errors")), ("20", "0", "0"))

    def test_a_fault_is_found_printed_saved_and_replayed(self):
        words = ("--robust", "--seed", "7")
        status, out, errors = self.played(WRONG, *words, "--save", "r", "--json", "j", "--junit", "x")
        run = ["E coin", "E push", "E bell", "E push"]
        self.assertEqual((status, errors), (1, []))
        self.assertEqual(out[0], "the system took push, and the specification says that it must refuse it: expected coin")
        self.assertEqual(out[1:5], ["    " + line for line in run])
        self.assertEqual(self.text("r").splitlines(), run)
        found = json.loads(self.text("j"))["found"]
        self.assertEqual((found["kind"], found["reason"], found["reports"], found["flaky"]), ("taken", "expected coin", run, False))
        case = xml.etree.ElementTree.fromstring(self.text("x")).find(".//failure")
        self.assertEqual((case.get("message"), case.text.split("\n")[1:-1]), (out[0], run))
        judged = subprocess.run([program(), "check", self.path("p.csp"), "P"], input=self.text("r").encode(), stdout=subprocess.PIPE)
        self.assertEqual(judged.stdout.decode().split("\n")[:-1], ["OK 1", "OK 2", "OK 3", "NO 4"])
        self.assertEqual(self.played(WRONG, "--replay", "r"), (1, out[:5], []))
        self.assertEqual(self.played(RIGHT, "--replay", "r"), (0, ["r: the run passes: 3 steps, 7 reports"], []))
        self.assertEqual(self.played(WRONG, *words, "--quiet"), (1, out[:5], []))

    def test_an_exception_in_the_adapter(self):
        faulty = RIGHT.replace("    paid = True\n", "    raise KeyError('slot')\n", 1)
        status, out, errors = self.played(faulty, "--seed", "1", "--junit", "x")
        self.assertEqual(status, 2)
        self.assertEqual((errors[0], errors[-1]), ("Traceback (most recent call last):", "coin raised this exception"))
        self.assertIn("KeyError: 'slot'", errors)
        suite = xml.etree.ElementTree.fromstring(self.text("x"))[0]
        self.assertEqual(suite.get("errors"), "1")
        late = RIGHT.replace("    rings.append", "    1 / 0\n    rings.append")
        status, _, errors = self.played(late, "--seed", "1")
        self.assertEqual((status, errors[-1]), (2, "    E coin"))
        self.assertIn("the run so far:", errors)
        for text in ("raise SystemExit(0)", "def", "import nothing_like_this"):
            status, out, errors = self.played(text)
            self.assertEqual((status, out, errors[-1]), (2, [], "a.py: the adapter can't be loaded"))

    def test_a_system_that_hangs(self):
        hanging = RIGHT.replace("    paid = True\n", "    import time; time.sleep(600)\n", 1)
        status, out, errors = self.played(hanging, "--timeout", "300ms")
        self.assertEqual((status, errors), (2, ["coin: no answer within 0.3 s"]))

    def test_a_call_that_cannot_be_interrupted(self):
        # A lock of SQLite is waited for in C, which no signal interrupts.
        stuck = """import sqlite3
from cspwatch_client.testing import does
one, two = (sqlite3.connect("t.db", timeout=600, isolation_level=None) for _ in range(2))
def reset():
    if not one.in_transaction:
        one.execute("BEGIN IMMEDIATE")
@does("coin")
def coin():
    two.execute("BEGIN IMMEDIATE")
"""
        self.file("p.csp", "channel coin\nP = coin -> P\n")
        status, out, errors = self.played(stuck, "--timeout", "100ms")
        self.assertEqual((status, errors), (2, ["coin: no answer, and the call can't be interrupted; the run so far:"]))

    def test_bad_use(self):
        self.file("a.py", RIGHT)
        self.file("no", "nothing\n")
        for words, status, wanted in (
            (["p.csp", "P", "b.py"], 5, "b.py: No such file or directory"),
            (["q.csp", "P", "a.py"], 5, "q.csp"),
            (["p.csp", "Q", "a.py"], 3, "process"),
            (["no", "P", "a.py"], 3, "no:2: 3 expected"),
            (["--program", "nothing", "p.csp", "P", "a.py"], 5, "nothing: there is no such program"),
            (["--steps", "1001", "p.csp", "P", "a.py"], 2, "a run has at most 1000 inputs"),
            (["--jobs", "65", "p.csp", "P", "a.py"], 2, "at most 64 systems"),
            (["--runs", "0", "p.csp", "P", "a.py"], 2, "--runs"),
            (["--time", "soon", "p.csp", "P", "a.py"], 2, "--time"),
            (["--replay", "none", "p.csp", "P", "a.py"], 5, "none: No such file or directory"),
            (["--replay", "no", "p.csp", "P", "a.py"], 2, "no:1: 'nothing' is no report"),
            (["--replay", "no", "--jobs", "2", "p.csp", "P", "a.py"], 2, "--jobs is for a campaign"),
            (["--junit", "no/where", "p.csp", "P", "a.py"], 5, "no/where: Not a directory"),
        ):
            found = self.command(*words)
            self.assertEqual(found[0], status, (words, found))
            self.assertIn(wanted, " ".join(found[2]), words)

    def test_it_says_what_is_missing(self):
        self.file("hypothesis.py", "raise ImportError('none')\n")
        status, out, errors = self.played(RIGHT, PYTHONPATH=self.folder)
        self.assertEqual((status, out), (2, []))
        self.assertIn("needs Python's package hypothesis (Debian: python3-hypothesis)", errors[0])

    def test_an_interrupt_ends_with_the_counts(self):
        # Where these tests run in the background the signal is ignored, and what they start would ignore it too.
        before = signal.signal(signal.SIGINT, signal.default_int_handler)
        self.addCleanup(signal.signal, signal.SIGINT, before)
        self.file("a.py", RIGHT)
        for name in ("SIGINT", "SIGTERM"):
            for jobs in ("1", "2"):
                slow = RIGHT.replace("    global paid\n    paid = True", "    global paid\n    open('begun', 'w').close()\n    paid = True")
                self.file("a.py", slow)
                if os.path.exists(self.path("begun")):
                    os.remove(self.path("begun"))
                run = self.start("--time", "1h", "--jobs", jobs, "p.csp", "P", "a.py")
                until = time.monotonic() + SECONDS
                while not os.path.exists(self.path("begun")) and time.monotonic() < until:
                    time.sleep(0.05)
                time.sleep(1)
                run.send_signal(getattr(signal, name))
                out, errors = run.communicate(timeout=SECONDS)
                self.assertEqual((run.returncode, errors), (0, b""), (name, jobs))
                self.assertRegex(out.decode(), r"^\d+ runs, .* 0 failed; 3 of 3 events came; seed \d+; interrupted\n$")

    def test_several_systems_side_by_side(self):
        noting = RIGHT + "\nopen('job' + os.environ['CSPWATCH_TEST_JOB'], 'w').close()\n"
        status, out, errors = self.played(noting, "--jobs", "3", "--runs", "20", "--seed", "5")
        self.assertEqual((status, errors), (0, []))
        self.assertRegex(out[-1], r"^20 runs, .* seed 5$")
        self.assertEqual(sorted(name for name in os.listdir(self.folder) if name.startswith("job")), ["job1", "job2", "job3"])
        status, out, errors = self.played(WRONG, "--jobs", "2", "--robust")
        self.assertEqual((status, out[1:5]), (1, ["    E coin", "    E push", "    E bell", "    E push"]))
        status, out, errors = self.played("import none_such", "--jobs", "2")
        self.assertEqual((status, out, errors[-1]), (2, [], "a.py: the adapter can't be loaded"))
        dying = RIGHT + "\nif os.environ['CSPWATCH_TEST_JOB'] == '2':\n    os._exit(9)\n"
        status, out, errors = self.played(dying, "--jobs", "2", "--runs", "10")
        self.assertEqual((status, errors), (5, ["1 processes ended before their part of the runs"]))

    def test_a_time(self):
        began = time.monotonic()
        status, out, errors = self.played(RIGHT, "--time", "1s")
        self.assertEqual((status, errors), (0, []))
        self.assertLess(time.monotonic() - began, SECONDS / 2)

    def test_nobody_reads(self):
        self.file("a.py", RIGHT)
        run = self.start("--runs", "5", "p.csp", "P", "a.py")
        run.stdout.close()
        self.assertEqual((run.wait(SECONDS), run.stderr.read()), (5, b""))
        run.stderr.close()

    def test_odd_names(self):
        self.file("odd\x1b\n.py", RIGHT.replace('["bell"]', '["be\\x1bll"]'))
        status, out, errors = self.command("p.csp", "P", "odd\x1b\n.py")
        self.assertEqual(status, 2)
        self.assertFalse(any("\x1b" in line for line in errors), errors)


@NEEDS
@NEEDS_PROGRAM
@NEEDS_HYPOTHESIS
class RealSystems(InFolder):
    def found(self, words, folder, known, **more):
        """Has the planted fault of an example found, which has to be as short as the known run."""
        run = subprocess.run(
            [*words, "--seed", "1", "--save", self.path("r")],
            cwd=os.path.join(EXAMPLES, folder),
            env=self.environment(PATH=os.path.dirname(COMMAND) + os.pathsep + self.tools() + os.pathsep + os.environ["PATH"], **more),
            stdin=subprocess.DEVNULL,
            stdout=subprocess.PIPE,
            stderr=subprocess.PIPE,
            timeout=SECONDS,
        )
        if known is None:
            self.assertEqual((run.returncode, run.stderr), (0, b""), run.stdout)
            return
        self.assertEqual((run.returncode, run.stderr), (1, b""), run.stdout)
        with open(os.path.join(EXAMPLES, folder, known), encoding="ascii") as file:
            wanted = [line.split(".")[0] for line in file.read().splitlines()]
        self.assertEqual([line.split(".")[0] for line in self.text("r").splitlines()], wanted)

    def tools(self):
        """A folder in which `python3` is this Python."""
        os.makedirs(self.path("tools"), exist_ok=True)
        self.file("tools/python3", "#!/bin/sh\nexec %s \"$@\"\n" % sys.executable)
        os.chmod(self.path("tools/python3"), 0o755)
        return self.path("tools")

    def test_sqlite(self):
        words = [sys.executable, COMMAND, "--database", self.path("kept"), "store.csp", "STORE(0)", "store.py"]
        self.found([*words, "--robust", "--runs", "40"], "sqlite", None)
        self.found(words, "sqlite", "dirty.reports", STORE="dirty")

    @unittest.skipUnless(shutil.which("redis-server"), "there is no redis-server")
    def test_redis(self):
        try:
            import redis  # noqa: F401
        except ImportError:
            self.skipTest("python3-redis isn't installed")
        self.found(["./run.sh", "--runs", "40"], "redis", None)
        self.found(["./run.sh"], "redis", "careless.reports", LOCK="careless")


if __name__ == "__main__":
    unittest.main()
