"""What the tests of `cspwatch-logs` share: a folder with a map, a script and a log, and runs of the command."""
import os
import subprocess
import sys
import tempfile
import unittest

HERE = os.path.dirname(os.path.abspath(__file__))
CLIENTS = os.path.dirname(os.path.dirname(HERE))
sys.path[:0] = [os.path.dirname(HERE), CLIENTS]

from stand_in import SECONDS  # noqa: E402

STAND_IN = os.path.join(CLIENTS, "stand_in_check.py")
NEEDS = unittest.skipUnless(sys.version_info >= (3, 11), "cspwatch-logs needs Python 3.11")

SCRIPT = "channel open : {0, 1}\nchannel close : {0, 1}\nchannel bad\nno|E bad|expected open.0 or open.1\nno|R open.0|offers close.0\n"
SPECIFICATION = '[specification]\nscript = "p.csp"\nprocess = "P"\n'
RULES = """
[[rule]]
match = '^open (?P<n>\\d)$'
event = "open.{n}"

[[rule]]
match = '^close (?P<n>\\d)$'
event = "close.{n}"

[[rule]]
match = '^bad$'
event = "bad"

[[rule]]
match = '^no (?P<n>\\d)$'
refusal = ["open.{n}"]
"""


class InFolder(unittest.TestCase):
    """A test with a folder of its own, in which it runs the command."""

    def setUp(self):
        folder = tempfile.TemporaryDirectory(prefix="logs-")
        self.addCleanup(folder.cleanup)
        self.folder = folder.name
        self.file("p.csp", SCRIPT)

    def path(self, name):
        return os.path.join(self.folder, name)

    def file(self, name, content):
        with open(self.path(name), "wb") as file:
            file.write(content if isinstance(content, bytes) else content.encode("utf-8"))

    def text(self, name):
        with open(self.path(name), encoding="utf-8") as file:
            return file.read()

    def environment(self, **more):
        return {**os.environ, "CSPWATCH": STAND_IN, "PYTHONPATH": os.path.dirname(HERE), "PYTHONDONTWRITEBYTECODE": "1", **more}

    def start(self, *words, **more):
        """The command, begun, with pipes for its three streams."""
        return subprocess.Popen(
            [sys.executable, "-m", "cspwatch_client.logs", *words],
            cwd=self.folder,
            stdin=subprocess.PIPE,
            stdout=subprocess.PIPE,
            stderr=subprocess.PIPE,
            env=self.environment(**more),
        )

    def logs(self, *words, given=b"", **more):
        """The status, the lines of output and those of errors of a run of the command."""
        run = self.start(*words, **more)
        try:
            out, errors = run.communicate(given, timeout=SECONDS)
        finally:
            run.kill()
        return run.returncode, out.decode("utf-8").splitlines(), errors.decode("utf-8").splitlines()
