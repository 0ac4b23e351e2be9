"""The plugin for pytest. Run by `python3 -m unittest discover -s clients/python/tests`."""
import importlib.util
import os
import subprocess
import sys
import tempfile
import unittest

HERE = os.path.dirname(os.path.abspath(__file__))
sys.path[:0] = [HERE, os.path.dirname(os.path.dirname(HERE))]

from stand_in import SECONDS, program  # noqa: E402

PROGRAM = program()

TESTS = """
import pytest

@pytest.mark.cspwatch("p.csp", "P")
def test_passes(monitor):
    assert monitor.event("a")
    assert not monitor.event("a")
    assert monitor.refusal(["a"])

def test_fails(monitor):
    for _ in range(6):
        assert monitor.event("a")
        assert monitor.event("b")
    assert monitor.event("b")

@pytest.mark.cspwatch("p.csp", "Q")
def test_no_such_process(monitor):
    pass

@pytest.mark.cspwatch("none.csp", "P")
def test_no_such_script(monitor):
    pass
"""


@unittest.skipUnless(PROGRAM, "there is no program")
@unittest.skipUnless(importlib.util.find_spec("pytest"), "there is no pytest")
class Plugin(unittest.TestCase):
    def run_tests(self, settings):
        with tempfile.TemporaryDirectory(prefix="plugin-") as folder:
            for name, text in (("p.csp", "channel a, b\nP = a -> b -> P\n"), ("test_it.py", TESTS), ("pytest.ini", "[pytest]\n" + settings)):
                with open(os.path.join(folder, name), "w", encoding="ascii") as file:
                    file.write(text)
            words = [sys.executable, "-m", "pytest", "-p", "cspwatch_client.pytest_plugin", "-p", "no:cacheprovider", "--strict-markers", "-q"]
            environment = {**os.environ, "CSPWATCH": PROGRAM, "PYTHONPATH": os.path.dirname(HERE), "PYTHONDONTWRITEBYTECODE": "1"}
            done = subprocess.run(words, cwd=folder, stdout=subprocess.PIPE, stderr=subprocess.STDOUT, timeout=SECONDS, env=environment)
            return done.stdout.decode()

    def test_a_failed_test_shows_what_it_reported(self):
        told = self.run_tests("cspwatch_script = p.csp\ncspwatch_process = P\n")
        self.assertIn("1 failed, 1 passed, 2 errors", told)
        self.assertIn("assert Verdict(accepted=False, place=13, expected=('a',))", told)
        lines = told.splitlines()
        begin = lines.index("the last 10 of 13 reports:")
        self.assertEqual(lines[begin + 9 : begin + 12], ["  E b: OK 12", "  E b: NO 13, expected a", "may come next: a"])
        self.assertIn("12 process", told)
        self.assertIn("none.csp: there is no such script, neither beside the test nor in ", told)

    def test_a_test_that_names_no_script(self):
        self.assertIn("the fixture monitor needs @pytest.mark.cspwatch(SCRIPT, PROCESS), or the settings", self.run_tests(""))


if __name__ == "__main__":
    unittest.main()
