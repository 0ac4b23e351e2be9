"""Walking through a specification: acceptances, walks, searches, the command. Run by `python3 -m unittest discover -s clients/python/tests`."""
import itertools
import os
import pty
import random
import re
import subprocess
import sys
import tempfile
import unittest

HERE = os.path.dirname(os.path.abspath(__file__))
sys.path[:0] = [os.path.dirname(HERE), os.path.dirname(os.path.dirname(HERE))]

from stand_in import SECONDS, program  # noqa: E402

from cspwatch_client.exploring.acceptances import minimal_acceptances, transversals  # noqa: E402
from cspwatch_client.exploring.machine import Machine, NotPossible, Unknown, report_lines  # noqa: E402
from cspwatch_client.exploring.searching import may_be_refused, may_come, nearest  # noqa: E402
from cspwatch_client.exploring.talk import Talk  # noqa: E402
from cspwatch_client.exploring.walk import Walk  # noqa: E402

PROGRAM = program()
COMMAND = os.path.join(os.path.dirname(HERE), "bin", "cspwatch-explore")

SCRIPT = """
channel coin, tea, milk, undo
VEND = coin -> (tea -> VEND |~| milk -> VEND)
END = coin -> SKIP |~| STOP
LOOP = LOOP
ODD = undo -> coin -> STOP
THREE = coin -> coin -> coin -> (tea -> STOP [] milk -> STOP)
"""


class Acceptances(unittest.TestCase):
    """The sets are those that a random family has, which answers what is refused by the definition."""

    def test_random_families(self):
        chance = random.Random(1)
        may = ("a", "b", "c", "d", "e")
        every = [frozenset(some) for size in range(6) for some in itertools.combinations(may, size)]
        for _ in range(300):
            family = chance.sample(every, chance.randint(0, 5))
            least = {one for one in family if not any(other < one for other in family)}
            found = minimal_acceptances(may, lambda events: any(not one & set(events) for one in family))
            self.assertEqual(set(found), least)
            self.assertEqual(len(found), len(least))

    def test_transversals(self):
        found = transversals(transversals([frozenset()], frozenset("ab")), frozenset("bc"))
        self.assertEqual(set(found), {frozenset("b"), frozenset("ac")})


@unittest.skipUnless(PROGRAM, "there is no program")
class Walking(unittest.TestCase):
    def setUp(self):
        self.folder = tempfile.TemporaryDirectory()
        self.addCleanup(self.folder.cleanup)
        self.script = os.path.join(self.folder.name, "p.csp")
        with open(self.script, "w", encoding="utf-8") as file:
            file.write(SCRIPT)

    def machine(self, process):
        found = Machine(self.script, process, PROGRAM)
        self.addCleanup(found.close)
        return found

    def test_what_may_and_must_come(self):
        machine = self.machine("VEND")
        self.assertEqual(machine.after(()).may, ("coin",))
        self.assertEqual(machine.after(()).must, (frozenset({"coin"}),))
        self.assertEqual(machine.after(("coin",)).may, ("tea", "milk"))
        self.assertEqual(machine.after(("coin",)).must, (frozenset({"tea"}), frozenset({"milk"})))
        self.assertEqual(machine.after(()).may, ("coin",))

    def test_ends(self):
        self.assertEqual(self.machine("LOOP").after(()).must, ())
        machine = self.machine("END")
        self.assertEqual(machine.after(()).must, (frozenset(),))
        self.assertEqual(machine.after(("coin",)).must, (frozenset({"_tick"}),))
        self.assertEqual(machine.after(("coin", "_tick")).may, ())

    def test_what_is_no_trace(self):
        machine = self.machine("VEND")
        with self.assertRaises(NotPossible):
            machine.after(("coin", "coin"))
        self.assertEqual(machine.after(("coin", "tea")).may, ("coin",))
        with self.assertRaises(Unknown):
            machine.check("cof fee")
        with self.assertRaises(Unknown):
            machine.check("coffee")
        machine.check("milk")

    def test_a_walk(self):
        walk = Walk(self.machine("VEND"))
        walk.take("coin")
        walk.mark("paid")
        walk.take("milk")
        self.assertEqual(report_lines(walk.trace), ["E coin", "E milk"])
        with self.assertRaises(NotPossible):
            walk.take("milk")
        self.assertTrue(walk.undo())
        self.assertEqual(walk.trace, ("coin",))
        self.assertFalse(walk.undo(2))
        self.assertTrue(walk.undo())
        self.assertTrue(walk.back("paid"))
        self.assertFalse(walk.back("never"))
        self.assertEqual(walk.trace, ("coin",))

    def test_searches(self):
        machine = self.machine("THREE")
        found = nearest(machine, (), may_come(machine, "tea"), 3)
        self.assertEqual((found.trace, found.depth), (("coin", "coin", "coin"), 3))
        found = nearest(machine, (), may_come(machine, "tea"), 2)
        self.assertEqual((found.trace, found.looked, found.is_out_of_time), (None, 3, False))
        machine = self.machine("VEND")
        self.assertEqual(nearest(machine, (), may_be_refused(machine, "coin"), 2).trace, ("coin",))
        self.assertEqual(nearest(machine, ("coin",), may_be_refused(machine, "tea"), 2).trace, ())

    def test_lines(self):
        talk = Talk(Walk(self.machine("VEND")))
        self.assertEqual(talk.say("1").splitlines()[1], "may come:  1 tea  2 milk")
        self.assertEqual(talk.say("look").splitlines()[2], "must come: tea, or milk")
        self.assertEqual(talk.say("find coin 2").splitlines()[0], "coin may come after: tea")
        talk.say("go")
        self.assertEqual(talk.say("trace"), "E coin\nE tea")
        self.assertEqual(talk.status, 0)
        self.assertEqual(talk.say("tea"), "tea may not come after coin tea")
        self.assertEqual(talk.status, 1)
        self.assertEqual(talk.say(""), "")
        for line in ("7", "nothing", "undo x", "find", "find coin 101", "go", "trace 1", "\x1b[31m"):
            self.assertNotIn("\x1b", talk.say(line))
            self.assertEqual(talk.walk.trace, ("coin", "tea"), line)
        self.assertTrue(talk.say("quit") == "" and talk.ended)

    def test_an_event_that_is_named_as_a_word(self):
        talk = Talk(Walk(self.machine("ODD")))
        self.assertIn("not so many moves", talk.say("undo"))
        talk.say("take undo")
        self.assertEqual(talk.walk.trace, ("undo",))

    def test_saved_lines_are_accepted(self):
        talk = Talk(Walk(self.machine("VEND")))
        for word in ("coin", "tea", "coin"):
            talk.say(word)
        path = os.path.join(self.folder.name, "trace")
        self.assertIn("3 lines", talk.say("save " + path))
        with open(path, "rb") as file:
            done = subprocess.run([PROGRAM, "check", self.script, "VEND"], stdin=file, stdout=subprocess.PIPE, timeout=SECONDS, check=True)
        self.assertEqual(done.stdout, b"OK 1\nOK 2\nOK 3\n")
        self.assertIn("File exists", talk.say("save " + path))

    def run_command(self, process, lines, script=None):
        words = [sys.executable, COMMAND, "--program", PROGRAM, script or self.script, process]
        return subprocess.run(words, input=lines, stdout=subprocess.PIPE, stderr=subprocess.PIPE, timeout=SECONDS, check=False)

    def test_the_command(self):
        done = self.run_command("VEND", b"coin\ntea\nquit\nnever read\n")
        self.assertEqual((done.returncode, done.stderr), (0, b""))
        self.assertEqual(done.stdout.decode().splitlines()[-3:], ["after:     coin tea", "may come:  1 coin", "must come: coin"])
        self.assertEqual(self.run_command("VEND", b"tea\n").returncode, 1)
        self.assertEqual(self.run_command("VEND", b"\xff\n").returncode, 2)
        self.assertEqual(self.run_command("NOBODY", b"").returncode, 3)
        done = self.run_command("P", b"", script=os.path.join(self.folder.name, "none.csp"))
        self.assertEqual(done.returncode, 5)
        self.assertIn(b"none.csp", done.stderr)

    def test_a_terminal(self):
        ours, theirs = pty.openpty()
        environment = dict(os.environ, TERM="dumb", PROMPT_TOOLKIT_NO_CPR="1")
        words = [sys.executable, COMMAND, "--program", PROGRAM, self.script, "VEND"]
        with subprocess.Popen(words, stdin=theirs, stdout=theirs, stderr=theirs, env=environment) as process:
            os.close(theirs)
            text = b""
            for wanted, line in ((b"must come", b"1\r"), (b"or milk", b"quit\r")):
                while wanted not in text:
                    text += os.read(ours, 4096)
                os.write(ours, line)
            try:
                while os.read(ours, 4096):
                    pass
            except OSError:
                pass
            self.assertEqual(process.wait(SECONDS), 0)
        os.close(ours)


class Words(unittest.TestCase):
    """The manual page and the completions have the command's options."""

    def test_the_pages(self):
        done = subprocess.run([sys.executable, COMMAND, "--help"], stdout=subprocess.PIPE, timeout=SECONDS, check=True)
        options = set(re.findall(r"(?<![\w-])--[a-z]+", done.stdout.decode("utf-8")))
        self.assertEqual(options, {"--help", "--large", "--program"})
        python = os.path.dirname(HERE)
        files = [os.path.join(python, "completions", name) for name in ("_cspwatch-explore", "cspwatch-explore.bash")]
        for path in files + [os.path.join(os.path.dirname(os.path.dirname(python)), "man", "cspwatch-explore.1")]:
            with open(path, encoding="utf-8") as file:
                text = file.read().replace("\\-", "-")
            self.assertEqual([option for option in sorted(options) if option not in text], [], path)
        with open(os.path.join(python, "completions", "cspwatch-explore.fish"), encoding="utf-8") as file:
            self.assertEqual(set(re.findall(r"-l ([a-z]+)", file.read())), {"help", "large", "program"})


if __name__ == "__main__":
    unittest.main()
