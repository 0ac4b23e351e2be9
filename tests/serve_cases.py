"""Cases of several runs in one folder, of which some serve connections. `tests/run_cases.py` calls `problems_of` for each case with
`runs`; tests/README.md has the form.
"""
import contextlib
import os
import re
import signal
import socket
import struct
import subprocess
import tempfile
import threading
import time

from contents import bounded, lines, octets, shown

EXAMPLES = os.path.join(os.path.dirname(os.path.dirname(os.path.abspath(__file__))), "examples")
CASE_SECONDS = 240
STEP_SECONDS = 60
# A peer that takes nothing for so long is taken to be stuck.
STUCK_SECONDS = 1.0


class Failure(Exception):
    """What was seen isn't what the case wants."""


class Link:
    """A client's end of a connection, to a host and a port or to a socket's file."""

    def __init__(self, address, small=False):
        at_file = isinstance(address, str)
        self.socket = socket.socket(socket.AF_UNIX if at_file else socket.AF_INET)
        self.socket.settimeout(STEP_SECONDS)
        if small:
            self.socket.setsockopt(socket.SOL_SOCKET, socket.SO_RCVBUF, 4096)
        if not at_file:
            self.socket.setsockopt(socket.IPPROTO_TCP, socket.TCP_NODELAY, 1)
        self.socket.connect(address)
        self.taken = b""

    def more(self):
        """Whether more bytes came. A reset is an end."""
        try:
            got = self.socket.recv(1 << 16)
        except ConnectionError:
            return False
        self.taken += got
        return bool(got)

    def line(self):
        """The next line without its LF, or None at the end."""
        while b"\n" not in self.taken:
            if not self.more():
                return None
        line, self.taken = self.taken.split(b"\n", 1)
        return line.decode("latin-1")

    def rest(self, most):
        """All bytes up to the end, or so many where there are more."""
        while len(self.taken) <= most and self.more():
            pass
        return self.taken

    def send_slowly(self, data):
        for at in range(len(data)):
            self.socket.sendall(data[at:at + 1])
            time.sleep(0.002)

    def send_ahead(self, data):
        """Sends all before anything is read, as far as the other end takes it. What it doesn't take is sent beside the reading."""
        sender = threading.Thread(target=self.socket.sendall, args=(data,), daemon=True)
        sender.start()
        sender.join(2)

    def send_until_stuck(self, data):
        """Sends it again and again, until the other end takes nothing any more."""
        self.socket.settimeout(STUCK_SECONDS)
        try:
            while True:
                self.socket.sendall(data)
        except TimeoutError:
            self.socket.settimeout(STEP_SECONDS)

    def reset(self):
        self.socket.setsockopt(socket.SOL_SOCKET, socket.SO_LINGER, struct.pack("ii", 1, 0))
        self.socket.close()


class Server:
    """A run of `serve`, from its first line to its end."""

    def __init__(self, process, deadline, beside, folder):
        """`beside` runs another command in the same folder, and gives its output, its errors and its status."""
        self.process, self.deadline, self.beside, self.folder = process, deadline, beside, folder
        self.links = {}
        self.out = b""
        self.address = None

    def begin(self):
        """Reads the first line. Whether it says where the server listens."""
        first = self.process.stdout.readline()
        found = re.fullmatch(rb"listening (127\.[0-9]+\.[0-9]+\.[0-9]+):([0-9]+)\n", first)
        self.out = first
        if found:
            self.address = (found.group(1).decode(), int(found.group(2)))
            self.out = b"listening %s:PORT\n" % found.group(1)
            return True
        at_file = re.fullmatch(rb"listening unix:(.+)\n", first)
        if at_file:
            self.address = os.path.join(self.folder, os.fsdecode(at_file.group(1)))
        return bool(at_file)

    def step(self, who, what, *values):
        if time.monotonic() > self.deadline:
            raise Failure("the case took more than %d seconds" % CASE_SECONDS)
        if who == "server":
            self.process.send_signal(getattr(signal, "SIG" + values[0]))
            self.process.wait(timeout=STEP_SECONDS)
            return
        if who == "beside":
            wanted = values[0]
            if self.beside(what) != (lines(wanted["stdout"]), lines(wanted["stderr"]), wanted["status"]):
                raise Failure("%s beside it: %s" % (" ".join(what), self.beside(what)))
            return
        for number in range(who[0], who[1] + 1) if isinstance(who, list) else [who]:
            try:
                self.client_step(number, what, *values)
            except TimeoutError:
                raise Failure("connection %d: %s took more than %d seconds" % (number, what, STEP_SECONDS))
            except OSError as error:
                raise Failure("connection %d: %s: %s" % (number, what, error))

    def client_step(self, number, what, *values):
        if what in ("connect", "connect small"):
            self.links[number] = Link(self.address, small=what.endswith("small"))
            return
        if what == "isn't served":
            self.refused(number)
            return
        if what == "comes back":
            self.come_back(number, *values)
            return
        link = self.links[number]
        if what == "send":
            link.socket.sendall(octets(values[0]) + b"\n")
        elif what == "bytes":
            link.socket.sendall(octets(values[0]))
        elif what == "slowly":
            link.send_slowly(octets(values[0]))
        elif what == "ahead":
            link.send_ahead(octets(values[0]))
        elif what == "until stuck":
            link.send_until_stuck(octets(values[0]))
        elif what == "shut":
            link.socket.shutdown(socket.SHUT_WR)
        elif what == "close":
            link.socket.close()
        elif what == "reset":
            link.reset()
        else:
            self.expect(number, link, what, *values)

    def expect(self, number, link, what, *values):
        """A step that looks at what came."""
        if what == "ended":
            if link.rest(0):
                raise Failure("connection %d read %s, wanted its end" % (number, shown(link.taken)))
        elif what == "read":
            line = link.line()
            if line not in values:
                raise Failure("connection %d read %r, wanted %s" % (number, line, " or ".join(map(repr, values))))
        elif what == "read like":
            line = link.line()
            if line is None or not re.fullmatch(values[0], line):
                raise Failure("connection %d read %r, wanted %s" % (number, line, values[0]))
        elif what == "read bytes":
            wanted = octets(values[0])
            while len(link.taken) < len(wanted) and link.more():
                pass
            if link.taken[:len(wanted)] != wanted:
                raise Failure("connection %d read %s, wanted %s" % (number, shown(link.taken), shown(wanted)))
            link.taken = link.taken[len(wanted):]
        else:
            raise ValueError("no such step: " + what)

    def refused(self, number):
        """A connection that is refused, or on which nothing comes within half a second."""
        with contextlib.suppress(ConnectionError):
            link = Link(self.address)
            self.links[number] = link
            link.socket.settimeout(0.5)
            with contextlib.suppress(TimeoutError, ConnectionError):
                link.socket.sendall(b"S\n")
                if link.socket.recv(1):
                    raise Failure("connection %d was served" % number)

    def come_back(self, number, line, wanted):
        """A connection whose first line is this, as soon as its seat isn't taken any more."""
        end = time.monotonic() + STEP_SECONDS
        while time.monotonic() < end:
            link = Link(self.address)
            link.socket.sendall(octets(line) + b"\n")
            reply = link.line()
            if reply != "ERR 27 taken":
                self.links[number] = link
                if reply != wanted:
                    raise Failure("connection %d read %r, wanted %r" % (number, reply, wanted))
                return
            link.socket.close()
            time.sleep(0.02)
        raise TimeoutError

    def end(self):
        """The output, the errors and the status, once the program has ended."""
        for link in self.links.values():
            link.socket.close()
        out, err = self.process.communicate(timeout=max(1, self.deadline - time.monotonic()))
        return self.out + out, err, self.process.returncode


def words_of(run, program, addresses):
    """The words of a run. Names of addresses in them are replaced: `TAKEN`, at which somebody listens, and `AGAIN`, that of the run before."""
    if "example" in run:
        return [os.path.join(EXAMPLES, run["example"] + ".sh"), program]
    if "serve" not in run:
        return [program] + run["args"]
    given = run["serve"]
    words = [program, "serve", "p.csp", given.get("process", "P"), given.get("journal", "j")]
    words += ["--listen", given.get("listen", "127.0.0.1:0")]
    if "service" not in given:
        words += ["--connections", str(given.get("connections", 1))]
    words += ["--until-idle"] * (given.get("service") == "until idle")
    words += ["--large"] * given.get("large", False)
    return [addresses.get(word, word) for word in words]


def records_of(data):
    """Seat, number and kind of each record of a journal, or None where it is none."""
    header = re.match(rb"cspwatch (?:large )?journal [0-9]+\nroot [^\n]+\n(?:part 1\nbefore 0\nprevious -\n)?script ([0-9]+)\n", data)
    if not header:
        return None
    at = header.end() + int(header.group(1)) + 1
    records = []
    while data[at:at + 1] == b"+":
        end = data.index(b"\n", at)
        records.append(b" ".join(data[at + 1:end].split(b" ")[:3]).decode())
        at = end + 1
    return records


def file_problems(run, folder):
    for name, content in run.get("files_after", {}).items():
        path = os.path.join(folder, name)
        data = None
        if os.path.exists(path):
            with open(path, "rb") as file:
                data = file.read()
        wanted = None if content is None else octets(content)
        if data != wanted:
            yield "%s is %s, wanted %s" % (name, data, wanted)
    for name, wanted in run.get("records", {}).items():
        with open(os.path.join(folder, name), "rb") as file:
            records = records_of(file.read())
        if records != wanted:
            yield "%s has the records %s, wanted %s" % (name, records, wanted)


def done_beside(words, folder):
    done = subprocess.run(words, cwd=folder, stdin=subprocess.DEVNULL, capture_output=True, timeout=STEP_SECONDS)
    return done.stdout, done.stderr, done.returncode


def outcome(run, program, folder, deadline, addresses):
    """What a run wrote on its output and its errors, its status, and what was wrong on the way."""
    words = words_of(run, program, addresses)
    if "file_bytes" in run:
        words = bounded(run["file_bytes"], words)
    process = subprocess.Popen(words, cwd=folder, stdin=subprocess.DEVNULL, stdout=subprocess.PIPE, stderr=subprocess.PIPE)
    server = Server(process, deadline, lambda args: done_beside([program] + args, folder), folder)
    problems = []
    alarm = threading.Timer(max(1, deadline - time.monotonic()), process.kill)
    alarm.start()
    try:
        if "steps" in run and server.begin():
            if not isinstance(server.address, str):
                addresses["AGAIN"] = "%s:%d" % server.address
            try:
                for step in run["steps"]:
                    server.step(*step)
            except Failure as failure:
                problems.append(str(failure))
                process.kill()
        out, err, status = server.end()
    except subprocess.TimeoutExpired:
        process.kill()
        out, err, status = server.end()
        problems.append("took more than %d seconds" % CASE_SECONDS)
    finally:
        alarm.cancel()
    return out, err, status, problems


def filled(run):
    """The run with the output of its example, if it has one."""
    if "example" not in run:
        return run
    with open(os.path.join(EXAMPLES, run["example"] + ".output"), encoding="utf-8") as file:
        return {"stdout": file.read().splitlines(), "stderr": [], "status": 0, **run}


def run_problems(run, program, folder, deadline, addresses):
    run = filled(run)
    for name, content in run.get("files", {}).items():
        with open(os.path.join(folder, name), "wb") as file:
            file.write(octets(content))
    for name in run.get("folders", []):
        os.mkdir(os.path.join(folder, name))
    if "script" in run:
        with open(os.path.join(folder, "p.csp"), "wb") as file:
            file.write(octets(run["script"]))
    with socket.socket() as holder:
        holder.bind(("127.0.0.1", 0))
        holder.listen()
        addresses["TAKEN"] = "127.0.0.1:%d" % holder.getsockname()[1]
        out, err, status, problems = outcome(run, program, folder, deadline, addresses)
    err = err.replace(addresses["TAKEN"].encode(), b"TAKEN")
    if problems and err:
        problems.append("stderr is %s" % shown(err))
    for name, got in (("stdout", out), ("stderr", err)):
        wanted = lines(run.get(name, []))
        if name in run and got != wanted:
            problems.append("%s is %s, wanted %s" % (name, shown(got), shown(wanted)))
        if run.get(name + "_any") not in (None, bool(got)):
            problems.append("%s is %s" % (name, shown(got)))
    if status != run["status"]:
        problems.append("status is %s, wanted %s" % (status, run["status"]))
    return problems + list(file_problems(run, folder))


def problems_of(case, program):
    """What is wrong with the runs of a case, each with the run's place."""
    deadline = time.monotonic() + CASE_SECONDS
    problems, addresses = [], {}
    with tempfile.TemporaryDirectory(prefix="case-") as folder:
        for place, run in enumerate(case["runs"], 1):
            problems += ["run %d: %s" % (place, problem) for problem in run_problems(run, program, folder, deadline, addresses)]
    return problems
