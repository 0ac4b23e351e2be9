"""What the tests of `cspwatch-metrics` and `cspwatch-web` share: journals that are written by hand, services, and runs of the commands."""
import hashlib
import http.client
import os
import signal
import subprocess
import sys
import tempfile
import time
import unittest

HERE = os.path.dirname(os.path.abspath(__file__))
PYTHON = os.path.dirname(HERE)
CLIENTS = os.path.dirname(PYTHON)
ROOT = os.path.dirname(CLIENTS)
sys.path[:0] = [PYTHON, CLIENTS]

from stand_in import SECONDS, has_services, program  # noqa: E402

PROGRAM = program()
IS_SERVICE = PROGRAM is not None and has_services(PROGRAM)
SCRIPT = "channel a, b, c\nP = a -> b -> P\n"
"""Events a, b, c with the places 1, 2, 3; c never comes."""

BOTH = ["1 1 E+ 1", "1 2 E- 1", "2 1 R+ 1", "1 3 E+ 2"]
"""Records: a; a again, rejected, since b is due; seat 2 saw a refused; b."""

LOOK = 0.05


def needs(*packages):
    """Passes a test over where the program, Python 3.11 or a package is missing."""
    reason = None if PROGRAM and sys.version_info >= (3, 11) else "there is no program" if not PROGRAM else "this needs Python 3.11"
    for package in packages:
        try:
            __import__(package)
        except ImportError:
            reason = reason or "Python's package %s isn't installed" % package
    return unittest.skipIf(reason is not None, reason)


def header(script=SCRIPT, part=None, before=0, previous="-"):
    """What a journal of the process P begins with."""
    first = "cspwatch journal 2\nroot P\n"
    if part is not None:
        first = "cspwatch large journal 1\nroot P\npart %d\nbefore %d\nprevious %s\n" % (part, before, previous)
    return first + "script %d\n%s\n" % (len(script), script)


def journal(records, script=SCRIPT):
    """The bytes of a journal."""
    return (header(script) + "".join("+%s\n" % record for record in records) + ".").encode()


def write_parts(path, records, size):
    """Writes a large journal whose parts have so many records."""
    previous = "-"
    for number, begin in enumerate(range(0, len(records), size), 1):
        text = header(part=number, before=begin, previous=previous) + "".join("+%s\n" % one for one in records[begin : begin + size])
        previous = hashlib.sha256(text.encode()).hexdigest()
        with open(path if number == 1 else "%s.%d" % (path, number), "wb") as file:
            file.write(text.encode() + b".")


def cycles(count, seats=1):
    """So many records in which a and b take turns, as do the seats."""
    numbers = [0] * seats
    for place in range(count):
        numbers[place % seats] += 1
        yield "%d %d E+ %d" % (place % seats + 1, numbers[place % seats], place % 2 + 1)


def soon(condition, what="it"):
    """Waits until the condition holds, and answers what it answered."""
    ending = time.monotonic() + SECONDS
    while time.monotonic() < ending:
        found = condition()
        if found:
            return found
        time.sleep(LOOK)
    raise AssertionError("%s didn't come in %d seconds" % (what, SECONDS))


def children(pid):
    """The processes that a process has started."""
    return subprocess.run(["ps", "-o", "pid=", "--ppid", str(pid)], stdout=subprocess.PIPE, timeout=SECONDS, text=True).stdout.split()


def fetched(port, path="/", headers=None, method="GET"):
    """The status, the headers and the body of an answer."""
    connection = http.client.HTTPConnection("127.0.0.1", port, timeout=SECONDS)
    try:
        connection.request(method, path, headers=headers or {})
        answer = connection.getresponse()
        return answer.status, answer.headers, answer.read()
    finally:
        connection.close()


class Watching(unittest.TestCase):
    """A test with a folder of its own, in which it runs a command and a service."""

    command = ""
    """The module of the command."""

    def setUp(self):
        folder = tempfile.TemporaryDirectory(prefix="watching-")
        self.addCleanup(folder.cleanup)
        self.folder = folder.name
        self.write("p.csp", SCRIPT.encode())

    def path(self, name):
        return os.path.join(self.folder, name)

    def write(self, name, content):
        """Writes a file as a whole, in place of one of its name."""
        with open(self.path(name + ".new"), "wb") as file:
            file.write(content)
        os.replace(self.path(name + ".new"), self.path(name))

    def words(self, *words):
        return [sys.executable, "-m", "cspwatch_client.watching." + self.command, "--listen", "127.0.0.1:0", "--program", PROGRAM, *words]

    def start(self, *words, before=(), **how):
        """The command beside the test, and its port. What it says is in the file `said`."""
        environment = {**os.environ, "PYTHONPATH": PYTHON, "PYTHONDONTWRITEBYTECODE": "1"}
        with open(self.path("said"), "ab") as said:
            run = subprocess.Popen(
                [*before, *self.words(*words)], cwd=self.folder, env=environment, stdin=subprocess.DEVNULL, stdout=subprocess.PIPE, stderr=said, **how
            )
        self.addCleanup(self.end, run)
        first = run.stdout.readline().decode()
        if not first.startswith("listening 127.0.0.1:"):
            raise AssertionError("it printed %r, and said\n%s" % (first, self.said()))
        return run, int(first.rsplit(":", 1)[1])

    def end(self, run, number=signal.SIGTERM):
        """Its status after a signal."""
        if run.poll() is None:
            run.send_signal(number)
        try:
            return run.wait(SECONDS)
        finally:
            run.kill()
            run.wait()
            run.stdout.close()

    def said(self):
        with open(self.path("said"), encoding="utf-8") as file:
            return file.read()

    def serve(self, *words, name="j"):
        """A service of the journal, and its port."""
        words = [PROGRAM, "serve", "p.csp", "P", name, "--listen", "127.0.0.1:0", *words]
        run = subprocess.Popen(words, cwd=self.folder, stdout=subprocess.PIPE, stderr=subprocess.DEVNULL)
        self.addCleanup(self.end, run, signal.SIGKILL)
        return run, "127.0.0.1:" + run.stdout.readline().decode().rsplit(":", 1)[1].rstrip("\n")
