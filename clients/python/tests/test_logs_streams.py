"""Many sessions over streams of Redis, with workers that are killed. Run by `python3 -m unittest discover -s clients/python/tests`.

The variable CSPWATCH_STREAM_LINES has the number of lines, 100,000 where it isn't set.
"""
import collections
import json
import os
import random
import shutil
import socket
import subprocess
import sys
import time
import unittest

sys.path[:0] = [os.path.dirname(os.path.abspath(__file__))]

from logs_folder import CLIENTS, NEEDS, SPECIFICATION, InFolder  # noqa: E402
from stand_in import SECONDS, program  # noqa: E402

if sys.version_info >= (3, 11):
    from cspwatch_client.logs.streams import partition, partition_of

PROGRAM = program()
LINES = int(os.environ.get("CSPWATCH_STREAM_LINES", "100000"))
SESSIONS = max(1, LINES // 100)
WORKERS = 4
KILLS = 20
LONG = 1800
"""The most seconds that the workers may take together."""

SCRIPT = "channel put, get : {0..3}\nP = put?x -> (get!x -> P [] put?y -> get!x -> get!y -> P)\n"
MAP = SPECIFICATION + """
[sessions]
key = "{id}"

[[rule]]
match = '^(?P<id>\\S+) (?P<what>put|get) (?P<x>\\d)$'
event = "{what}.{x}"

[[rule]]
match = '^(?P<id>\\S+) full (?P<x>\\d)$'
refusal = ["put.{x}"]
"""


def python_with_redis():
    """A Python that has the package redis, and is new enough; None where there is none."""
    for path in (sys.executable, "/usr/bin/python3"):
        test = "import sys, redis; sys.exit(sys.version_info < (3, 11))"
        if os.access(path, os.X_OK) and subprocess.run([path, "-c", test], stderr=subprocess.DEVNULL).returncode == 0:
            return path
    return None


PYTHON = python_with_redis()


def lines_of(count, sessions, seed=7):
    """Lines of many sessions, mixed; some of what they report is rejected."""
    chance = random.Random(seed)
    words = ["put %d" % x for x in range(4)] + ["get %d" % x for x in range(4)] + ["full %d" % x for x in range(4)]
    return ["s%d %s" % (chance.randrange(sessions), chance.choice(words)) for _ in range(count)]


class Redis:
    """A server of its own on a free port."""

    def __init__(self, folder):
        with socket.socket() as one:
            one.bind(("127.0.0.1", 0))
            self.port = one.getsockname()[1]
        words = ["redis-server", "--bind", "127.0.0.1", "--port", str(self.port), "--save", "", "--dir", folder]
        self.process = subprocess.Popen(words, stdout=subprocess.DEVNULL)

    def add(self, lines, count):
        """Adds the lines to their partitions of the stream `log`, of so many."""
        self.add_to("log", lines, count)

    def add_to(self, name, lines, count):
        """Adds the lines to their partitions of the stream, of so many."""
        commands = []
        for line in lines:
            words = ["XADD", "%s:%d" % (name, partition_of(line.split()[0], count)), "*", "line", line]
            commands.append("*%d\r\n" % len(words) + "".join("$%d\r\n%s\r\n" % (len(word), word) for word in words))
        until = time.monotonic() + SECONDS
        while True:
            try:
                link = socket.create_connection(("127.0.0.1", self.port), SECONDS)
                break
            except OSError:
                if time.monotonic() > until:
                    raise
                time.sleep(0.1)
        with link, link.makefile("rb") as replies:
            for begin in range(0, len(commands), 1000):
                part = commands[begin : begin + 1000]
                link.sendall("".join(part).encode())
                for _ in part:
                    assert replies.readline().startswith(b"$")
                    replies.readline()

    def stop(self):
        self.process.kill()
        self.process.wait()


@NEEDS
class Page(unittest.TestCase):
    def test_its_map_is_the_one_that_is_tested(self):
        with open(os.path.join(os.path.dirname(CLIENTS), "docs", "SCALING.md"), encoding="utf-8") as file:
            self.assertIn("```toml\n" + MAP + "```", file.read())


@NEEDS
class Partitions(unittest.TestCase):
    def test_numbers(self):
        self.assertEqual(partition("3/16"), (3, 16))
        for text in ("0/4", "5/4", "1", "1/0", "1/70000", "x/y", "01/4"):
            with self.assertRaises(ValueError):
                partition(text)

    def test_keys(self):
        # The CRC-32 of these nine digits is 0xCBF43926.
        self.assertEqual([partition_of("123456789", count) for count in (1, 4, 1000)], [1, 0xCBF43926 % 4 + 1, 0xCBF43926 % 1000 + 1])
        counts = collections.Counter(partition_of("s%d" % number, 4) for number in range(1000))
        self.assertTrue(all(150 < counts[number] < 350 for number in (1, 2, 3, 4)), counts)


@NEEDS
@unittest.skipUnless(PROGRAM, "there is no program")
@unittest.skipUnless(PYTHON, "there is no Python 3.11 with the package redis")
@unittest.skipUnless(shutil.which("redis-server"), "there is no redis-server")
class Streams(InFolder):
    def setUp(self):
        super().setUp()
        self.file("p.csp", SCRIPT)
        self.file("m.toml", MAP)
        self.redis = Redis(self.folder)
        self.addCleanup(self.redis.stop)
        self.url = "redis://127.0.0.1:%d/log" % self.redis.port

    def environment(self, **more):
        return super().environment(CSPWATCH=PROGRAM, **more)

    def work(self, *words, out=subprocess.PIPE):
        """A run of the command by a Python that has the package redis."""
        return subprocess.Popen(
            [PYTHON, "-m", "cspwatch_client.logs", *words],
            cwd=self.folder, env=self.environment(), stdout=out, stderr=subprocess.PIPE, stdin=subprocess.DEVNULL,
        )

    def histories(self, name):
        """Of each session what was reported and judged, in its order."""
        found = collections.defaultdict(list)
        for line in self.text(name).splitlines():
            entry = json.loads(line)
            found[entry["session"]].append((entry["report"], entry["verdict"], entry["place"]))
        return found

    def finish(self, worker):
        out, errors = worker.communicate(timeout=LONG)
        self.assertIn(worker.returncode, (0, 1), errors.decode())
        return out

    def wait_for(self, worker, name, size):
        """Waits until the record has so many bytes, or the worker has ended."""
        while worker.poll() is None and not (os.path.exists(self.path(name)) and os.path.getsize(self.path(name)) > size):
            time.sleep(0.01)

    def test_killed_workers_give_the_histories_of_one_run(self):
        lines = lines_of(LINES, SESSIONS)
        self.file("whole.log", "".join(line + "\n" for line in lines))
        self.finish(self.work("--quiet", "--record", "whole", "m.toml", "whole.log"))
        self.redis.add(lines, WORKERS)

        def begin(number):
            words = ["--quiet", "--stream", self.url, "--partition", "%d/%d" % (number, WORKERS), "--record", "part%d" % number]
            return self.work(*words, "m.toml", out=subprocess.DEVNULL)

        chance = random.Random(LINES)
        size = os.path.getsize(self.path("whole")) / WORKERS
        workers = {number: begin(number) for number in range(1, WORKERS + 1)}
        amid = 0
        for when in sorted(chance.random() for _ in range(KILLS)):
            number = chance.randint(1, WORKERS)
            # Three of four are killed amid what they add, the others amid what stands in the record already.
            if chance.random() < 0.75:
                self.wait_for(workers[number], "part%d" % number, 0.9 * when * size)
                amid += workers[number].poll() is None
            time.sleep(chance.random() * 0.1)
            workers[number].kill()
            workers[number].communicate()
            workers[number] = begin(number)
        self.assertGreater(amid, KILLS // 4)
        for worker in workers.values():
            self.finish(worker)
        wanted, found = self.histories("whole"), {}
        for number in workers:
            part = self.histories("part%d" % number)
            self.assertEqual({partition_of(key, WORKERS) for key in part}, {number})
            found.update(part)
        self.assertEqual(found, wanted)
        self.assertEqual(sum(len(history) for history in found.values()), LINES)

    def test_a_stream_is_followed(self):
        self.redis.add(["s1 put 1", "s1 get 2"], 1)
        worker = self.work("--follow", "--stream", self.url, "--partition", "1/1", "m.toml")
        self.addCleanup(worker.kill)
        self.assertEqual(worker.stdout.readline(), b"log:1:2: s1: E get.2: NO 2 (first), expected put.0 or put.1 or put.2 or put.3 or get.1\n")
        worker.stdout.readline()
        self.redis.add(["s2 put 1", "s2 get 0"], 1)
        self.assertEqual(worker.stdout.readline(), b"log:1:4: s2: E get.0: NO 2 (first), expected put.0 or put.1 or put.2 or put.3 or get.1\n")
        worker.terminate()
        self.finish(worker)

    def test_faults(self):
        self.redis.add(["s1 put 1"], 1)
        rows = [
            (["--stream", "http://x/y"], 2, "cspwatch-logs: a stream is redis://HOST:PORT/NAME, not 'http://x/y'"),
            (["--stream", self.url, "m.toml", "a.log"], 2, "cspwatch-logs: --stream is read in place of logs"),
            (["--partition", "1/2"], 2, "cspwatch-logs: --partition goes with --stream"),
            (["--stream", "redis://127.0.0.1:1/log"], 5, "log: Error 111 connecting to 127.0.0.1:1. Connection refused."),
        ]
        for words, status, text in rows:
            worker = self.work(*words, *([] if "m.toml" in words else ["m.toml"]))
            _, errors = worker.communicate(timeout=SECONDS)
            self.assertEqual((worker.returncode, errors.decode()), (status, text + "\n"))


if __name__ == "__main__":
    unittest.main()
