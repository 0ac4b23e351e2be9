"""Servers for the clients' tests: one that plays a written conversation, and one that hands a connection to `check`.

Neither judges anything: the first sends what the test has written down, the second is the program itself.
"""
import os
import re
import socket
import subprocess
import threading
import time

HERE = os.path.dirname(os.path.abspath(__file__))
ROOT = os.path.dirname(HERE)

HOLD = object()
"""As the last step of a conversation: the connection stays open until the client ends it."""

RESET = object()
"""As the last step of a conversation: the connection is cut, not ended."""

SECONDS = 120
"""The longest that a test waits for anything."""


def program():
    """The program to test with: that of the variable CSPWATCH, else the built one; None where there is none."""
    path = os.environ.get("CSPWATCH") or os.path.join(ROOT, "crates", "cspwatch", "out", "cspwatch")
    return os.path.abspath(path) if os.access(path, os.X_OK) else None


def has_serve(path):
    """Whether the program has the command `serve`."""
    told = subprocess.run([path, "serve", "--help"], stdout=subprocess.PIPE, stderr=subprocess.DEVNULL, timeout=SECONDS)
    return told.returncode == 0 and b"--connections" in told.stdout


def has_services(path):
    """Whether its command `serve` can be a service."""
    told = subprocess.run([path, "serve", "--help"], stdout=subprocess.PIPE, stderr=subprocess.DEVNULL, timeout=SECONDS)
    return told.returncode == 0 and b"--until-idle" in told.stdout


class Listener:
    """A port on which a thread takes connections, one after the other."""

    def __init__(self):
        self.socket = socket.create_server(("127.0.0.1", 0))
        self.socket.settimeout(SECONDS)
        self.address = "127.0.0.1:%d" % self.socket.getsockname()[1]
        self.thread = threading.Thread(target=self.run, daemon=True)

    def __enter__(self):
        self.thread.start()
        return self

    def __exit__(self, *_):
        self.thread.join(SECONDS)
        self.socket.close()


class StandIn(Listener):
    """Plays a conversation on each connection: a list of pairs of a line and the reply to it.

    The line is what the client has to send, without its LF; where it is None nothing is waited for. The reply is
    bytes, sent as they stand, or a list of pieces that are sent one by one. After the last pair the connection is
    ended. What came from the clients is in `lines`, and a line that wasn't expected in `troubles`.
    """

    def __init__(self, *conversations):
        super().__init__()
        self.conversations = conversations
        self.lines = []
        self.troubles = []

    def run(self):
        for conversation in self.conversations:
            try:
                link, _ = self.socket.accept()
            except OSError:
                self.troubles.append("no connection came")
                return
            with link:
                link.settimeout(SECONDS)
                try:
                    self.play(link, conversation)
                except OSError as error:
                    self.troubles.append(str(error))

    def play(self, link, conversation):
        reader = link.makefile("rb")
        wanted = b""
        for step in conversation:
            if step is HOLD:
                self.lines += [line.rstrip(b"\n") for line in reader]
                return
            if step is RESET:
                link.setsockopt(socket.SOL_SOCKET, socket.SO_LINGER, b"\1\0\0\0\0\0\0\0")
                reader.close()
                return
            wanted, reply = step
            if wanted is not None:
                line = reader.readline()
                self.lines.append(line.rstrip(b"\n"))
                if line != wanted + b"\n":
                    self.troubles.append("%r came, %r was wanted" % (line, wanted))
            for piece in [reply] if isinstance(reply, bytes) else reply:
                link.sendall(piece)
                time.sleep(0.01)
        if wanted is None:
            # What the client sent meanwhile is read before the end, as a server does that refuses: else the end is a reset,
            # which may overtake the reply.
            link.shutdown(socket.SHUT_WR)
            reader.read()


class CheckServer(Listener):
    """Hands each of some connections to a run of `check` of its own."""

    def __init__(self, path, spec, process, connections):
        super().__init__()
        self.words = [path, "check", spec, process]
        self.connections = connections
        self.statuses = []

    def run(self):
        for _ in range(self.connections):
            link, _ = self.socket.accept()
            with link:
                done = subprocess.run(self.words, stdin=link.fileno(), stdout=link.fileno(), timeout=SECONDS)
            self.statuses.append(done.returncode)


class SeatService(Listener):
    """A service that gives seats by number: it answers `I n` by how many reports of the seat it has, and each report by `OK`.

    It takes connections until it is closed. With `cut`, a connection ends without a word after so many answers, the last report
    being kept and not answered; with `lose`, the last report isn't kept. `reports` has the lines of each seat, and `taken` seats that
    another connection has.
    """

    def __init__(self, cut=None, taken=(), lose=None):
        super().__init__()
        self.cut = cut
        self.lose = lose
        self.taken = set(taken)
        self.reports = {}
        self.is_closed = False

    def __exit__(self, *_):
        self.is_closed = True
        socket.create_connection(self.socket.getsockname()).close()
        super().__exit__()

    def run(self):
        while True:
            link, _ = self.socket.accept()
            with link:
                if self.is_closed:
                    return
                link.settimeout(SECONDS)
                try:
                    self.serve(link)
                except OSError:
                    pass

    def serve(self, link):
        own, answers = None, 0
        for number, line in enumerate(link.makefile("rb")):
            text = line.decode("ascii").rstrip("\n")
            seat = re.fullmatch("I ([1-9][0-9]{0,2}|1000)", text)
            if seat is not None and number == 0 and int(seat[1]) in self.taken:
                link.sendall(b"ERR 27 taken\n")
            elif seat is not None and number == 0:
                own = self.reports.setdefault(int(seat[1]), [])
                link.sendall(b"I %d %d\n" % (int(seat[1]), len(own)))
            elif text[:1] in ("E", "R"):
                if answers == self.lose:
                    self.lose = None
                    return
                own = self.reports.setdefault(1001, []) if own is None else own
                own.append(text)
                if answers == self.cut:
                    self.cut = None
                    return
                answers += 1
                link.sendall(b"OK %d\n" % sum(len(lines) for lines in self.reports.values()))
            elif text == "Q":
                link.sendall(b"BYE\n")
                return
            else:
                link.sendall(b"ERR 10 command\n")
