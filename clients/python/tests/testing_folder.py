"""What the tests of `cspwatch-test` share: campaigns in this process, and a folder in which the command is run."""
import os
import subprocess
import sys
import tempfile
import unittest

HERE = os.path.dirname(os.path.abspath(__file__))
CLIENTS = os.path.dirname(os.path.dirname(HERE))
sys.path[:0] = [os.path.dirname(HERE), CLIENTS]

from stand_in import program  # noqa: E402

SECONDS = 120
COMMAND = os.path.join(os.path.dirname(HERE), "bin", "cspwatch-test")


def has_hypothesis():
    try:
        import hypothesis  # noqa: F401
    except ImportError:
        return False
    return True


NEEDS = unittest.skipUnless(sys.version_info >= (3, 11), "cspwatch-test needs Python 3.11")
NEEDS_PROGRAM = unittest.skipUnless(program(), "there is no program")
NEEDS_HYPOTHESIS = unittest.skipUnless(has_hypothesis(), "python3-hypothesis isn't installed")


class InFolder(unittest.TestCase):
    """A test with a folder of its own."""

    def setUp(self):
        folder = tempfile.TemporaryDirectory(prefix="testing-")
        self.addCleanup(folder.cleanup)
        self.folder = folder.name

    def path(self, name):
        return os.path.join(self.folder, name)

    def file(self, name, content):
        with open(self.path(name), "wb") as file:
            file.write(content if isinstance(content, bytes) else content.encode("utf-8"))
        return self.path(name)

    def text(self, name):
        with open(self.path(name), encoding="utf-8") as file:
            return file.read()

    def system(self, adapter, script, process="P", timeout=10):
        """The system behind this adapter."""
        from cspwatch_client.logs.maps import Specification
        from cspwatch_client.testing.systems import system_for

        specification = Specification(self.file("p.csp", script), process, False)
        system = system_for(specification, adapter, "adapter", program(), timeout)
        self.addCleanup(system.close)
        return system

    def campaign(self, adapter, script, **wishes):
        """What comes of a campaign in this process."""
        from cspwatch_client.testing.campaigns import Campaign, Wishes

        return Campaign(self.system(adapter, script), Wishes(**wishes)).play()

    def environment(self, **more):
        return {**os.environ, "CSPWATCH": program(), "PYTHONDONTWRITEBYTECODE": "1", **more}

    def start(self, *words, **more):
        """The command, begun, with pipes for its streams."""
        return subprocess.Popen(
            [sys.executable, COMMAND, *words],
            cwd=self.folder,
            stdin=subprocess.DEVNULL,
            stdout=subprocess.PIPE,
            stderr=subprocess.PIPE,
            env=self.environment(**more),
        )

    def command(self, *words, **more):
        """The status, the lines of output and those of errors of a run of the command."""
        run = self.start(*words, **more)
        try:
            out, errors = run.communicate(timeout=SECONDS)
        finally:
            run.kill()
        return run.returncode, out.decode("utf-8").splitlines(), errors.decode("utf-8").splitlines()
