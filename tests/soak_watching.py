#!/usr/bin/env python3
"""A service with 16 reporters, with `cspwatch-metrics` and `cspwatch-web` beside it and without: its speed, and their memory.

    tests/soak_watching.py [--program FILE] [--seconds 24] [--phase 4] [--percent 80] [--reporters 16] [--folder DIR]
    tests/soak_watching.py --seconds 600 --phase 30 --percent 3

Phases with the tools and without them take turns (without, with, with, without, ..), so that what else the machine does falls on both. In
those with them Prometheus' requests come every second, and three pages are kept up to date. It is checked that
- the service judges with them at least all but so many percent of what it judges without them (medians of the phases);
- the memory of the tools' own processes doesn't grow from the first such phase to the last;
- in the end the counts of both are those of `replay`.

On a machine that does other things a small bound says nothing: the default is wide. The last line is `N passed, M failed`.
"""
import argparse
import contextlib
import http.client
import json
import os
import re
import socket
import statistics
import subprocess
import sys
import tempfile
import threading
import time

HERE = os.path.dirname(os.path.abspath(__file__))
ROOT = os.path.dirname(HERE)
PROGRAM = os.path.join(ROOT, "crates", "cspwatch", "out", "cspwatch")
PYTHON = os.path.join(ROOT, "clients", "python")
SCRIPT = "channel e : {1..16}\nP = [] x : {1..16} @ e.x -> P\n"
TOOLS = ("metrics", "web")
PAGES = 3
SECONDS = 120
READING_SECONDS = 900
"""How long a tool may take to read the journal from its beginning: it is millions of entries in the end."""

MOST_GROWTH = 8_000
"""By how many kilobytes the memory of a tool may differ from its first phase to its last."""


class Reporter(threading.Thread):
    """A component that reports one event after the other, and waits for each reply."""

    def __init__(self, port, seat):
        super().__init__(daemon=True)
        self.seat, self.count, self.stopping = seat, 0, False
        self.link = socket.create_connection(("127.0.0.1", port), SECONDS)

    def run(self):
        self.ask(b"I %d\n" % self.seat)
        line = b"E e.%d\n" % self.seat
        while not self.stopping:
            if not self.ask(line).startswith(b"OK "):
                raise RuntimeError("a report wasn't accepted")
            self.count += 1
        self.link.close()

    def ask(self, line):
        self.link.sendall(line)
        return self.link.recv(4096)


class Tool:
    """A run of one of the tools."""

    def __init__(self, name, program, folder):
        words = [sys.executable, "-m", "cspwatch_client.watching." + name, "j", "--log", "log", "--listen", "127.0.0.1:0", "--program", program]
        environment = {**os.environ, "PYTHONPATH": PYTHON}
        with open(os.path.join(folder, name + ".said"), "ab") as said:
            self.process = subprocess.Popen(words, cwd=folder, env=environment, stdout=subprocess.PIPE, stderr=said, text=True)
        self.name, self.port = name, int(self.process.stdout.readline().rsplit(":", 1)[1])

    def get(self, path):
        connection = http.client.HTTPConnection("127.0.0.1", self.port, timeout=SECONDS)
        with contextlib.closing(connection):
            connection.request("GET", path)
            return connection.getresponse().read().decode()

    def entries(self):
        """How many entries it has counted; None while it reads."""
        if self.name == "web":
            state = json.loads(self.get("/state"))["state"]
            return state["entries"] if state["phase"] == "following" else None
        counts = re.findall(r"^cspwatch_reports_total\{.*\} (\S+)$", self.get("/metrics"), re.MULTILINE)
        return int(sum(map(float, counts))) if counts else None

    def memory(self, pid=None):
        """Kilobytes of a process."""
        with open("/proc/%s/status" % (pid or self.process.pid), encoding="ascii") as file:
            return int(re.search(r"VmRSS:\s+(\d+)", file.read())[1])

    def helpers(self):
        """Kilobytes of the processes that it has started."""
        found = subprocess.run(["ps", "-o", "rss=", "--ppid", str(self.process.pid)], stdout=subprocess.PIPE, text=True, check=False)
        return sum(map(int, found.stdout.split()))

    def end(self):
        self.process.terminate()
        self.process.wait(SECONDS)
        self.process.stdout.close()


def wait_for(condition, what, seconds=SECONDS):
    ending = time.monotonic() + seconds
    while not condition():
        if time.monotonic() > ending:
            raise RuntimeError("%s didn't come in %d seconds" % (what, seconds))
        time.sleep(0.2)


@contextlib.contextmanager
def tools_beside(program, folder):
    """Both tools, with those who ask them."""
    with contextlib.ExitStack() as stack:
        tools = [Tool(name, program, folder) for name in TOOLS]
        for tool in tools:
            stack.callback(tool.end)
        for _ in range(PAGES):
            link = stack.enter_context(socket.create_connection(("127.0.0.1", tools[1].port), SECONDS))
            link.sendall(b"GET /events HTTP/1.1\r\nHost: 127.0.0.1\r\n\r\n")
            threading.Thread(target=drain, args=(link,), daemon=True).start()
        for tool in tools:
            wait_for(lambda: tool.entries() is not None, "the end of the journal", READING_SECONDS)
        stopping = threading.Event()
        asking = threading.Thread(target=scrape, args=(tools[0], stopping), daemon=True)
        asking.start()
        yield tools
        stopping.set()
        asking.join()


def drain(link):
    """Reads what comes until the connection ends."""
    with contextlib.suppress(OSError):
        while link.recv(1 << 16):
            pass


def scrape(tool, stopping):
    """Asks every second."""
    while not stopping.wait(1):
        tool.get("/metrics")


def speed(reporters, seconds):
    """How many reports a second are judged, over so many seconds."""
    before, begun = sum(one.count for one in reporters), time.monotonic()
    time.sleep(seconds)
    return (sum(one.count for one in reporters) - before) / (time.monotonic() - begun)


def phases(options, reporters, folder):
    """The speeds without the tools and with them, and by tool the kilobytes at the end of each phase."""
    without, with_them, memory = [], [], {name: [] for name in TOOLS}
    for number in range(max(2, round(options.seconds / options.phase))):
        if number % 4 in (0, 3):
            without.append(speed(reporters, options.phase))
            print("without: %6.0f reports a second" % without[-1], flush=True)
            continue
        with tools_beside(options.program, folder) as tools:
            with_them.append(speed(reporters, options.phase))
            for tool in tools:
                memory[tool.name].append(tool.memory())
            told = ", ".join("%s %d MB and its helpers %d MB" % (tool.name, tool.memory() / 1000, tool.helpers() / 1000) for tool in tools)
        print("with:    %6.0f reports a second; %s" % (with_them[-1], told), flush=True)
    return without, with_them, memory


def problems_of(options, folder):
    """What is wrong, check by check."""
    with open(os.path.join(folder, "p.csp"), "w", encoding="ascii") as file:
        file.write(SCRIPT)
    words = [options.program, "serve", "--large", "p.csp", "P", "j", "--listen", "127.0.0.1:0", "--log", "log"]
    with subprocess.Popen(words, cwd=folder, stdout=subprocess.PIPE, stderr=subprocess.DEVNULL, text=True) as service:
        try:
            port = int(service.stdout.readline().rsplit(":", 1)[1])
            reporters = [Reporter(port, seat) for seat in range(1, options.reporters + 1)]
            for one in reporters:
                one.start()
            without, with_them, memory = phases(options, reporters, folder)
            with tools_beside(options.program, folder) as tools:
                for one in reporters:
                    one.stopping = True
                for one in reporters:
                    one.join()
                counts = [counted(tool, sum(one.count for one in reporters)) for tool in tools]
        finally:
            service.kill()
    ratio = statistics.median(with_them) / statistics.median(without)
    print("the speed with them is %.1f%% of that without; %d entries" % (100 * ratio, sum(one.count for one in reporters)))
    yield None if ratio >= 1 - options.percent / 100 else "the service is slower by more than %g%%" % options.percent
    for name, found in memory.items():
        yield None if abs(found[-1] - found[0]) < MOST_GROWTH else "%s: %d kB at first, and %d in the end" % (name, found[0], found[-1])
    replayed = subprocess.run([options.program, "replay", "j"], cwd=folder, stdout=subprocess.PIPE, text=True, check=False).stdout
    wanted = "S %d %d 0 0 open\n" % ((sum(one.count for one in reporters),) * 2)
    yield None if replayed == wanted else "replay says %r, and the reporters %r" % (replayed, wanted)
    yield next((problem for problem in counts if problem), None)


def counted(tool, wanted):
    """What is wrong with a tool's count; None once it is right."""
    try:
        wait_for(lambda: tool.entries() == wanted, "%d entries of %s" % (wanted, tool.name), READING_SECONDS)
    except RuntimeError as error:
        return str(error)
    return None


def main():
    parser = argparse.ArgumentParser(description=__doc__.split("\n", 1)[0])
    parser.add_argument("--program", default=PROGRAM)
    parser.add_argument("--seconds", type=float, default=24, help="how long all phases take together")
    parser.add_argument("--phase", type=float, default=4, help="how long one takes")
    parser.add_argument("--percent", type=float, default=80, help="by how much the service may be slower")
    parser.add_argument("--reporters", type=int, default=16)
    parser.add_argument("--folder", help="where the journal is made")
    options = parser.parse_args()
    options.program = os.path.abspath(options.program)
    for package, debian in (("aiohttp", "python3-aiohttp"), ("prometheus_client", "python3-prometheus-client")):
        try:
            __import__(package)
        except ImportError:
            print("left out: watching a service: %s isn't installed" % debian)
            print("0 passed, 0 failed")
            return 0
    with tempfile.TemporaryDirectory(dir=options.folder) as folder:
        problems = list(problems_of(options, folder))
    for problem in filter(None, problems):
        print(problem)
    failed = sum(problem is not None for problem in problems)
    print("%d passed, %d failed" % (len(problems) - failed, failed))
    return 1 if failed else 0


if __name__ == "__main__":
    sys.exit(main())
