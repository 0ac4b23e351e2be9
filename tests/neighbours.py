#!/usr/bin/env python3
"""Clients that don't behave, beside one that does: its reports are answered meanwhile.

    tests/neighbours.py [--program FILE] [--reports 500] [--megabytes 64] [--keep DIR] [--folder DIR]

While the others are connected, one client reports and waits for each reply, and each has to come within a second: at once, and when the
server has to wait for the client that doesn't read. The others are
- one that sends reports ahead and never reads a reply, until its socket takes no more;
- one that sends half a line, and nothing after it;
- one that sends so many megabytes without an LF: `ERR 12 line` is its only reply, and the connection is closed;
- one that sends a report byte by byte, and gets its answer.

Then they leave, the server ends, and the journal holds every report of the first client with its verdict. The last line is
`N passed, M failed`.
"""
import argparse
import contextlib
import os
import sys
import tempfile
import threading
import time

sys.dont_write_bytecode = True

from sweeping import SCRIPT, Book, Link, Server, add_options, begin, journal_of, read_file, write_file  # noqa: E402

EVENT = b"E c.1\n"
"""Accepted in both states."""

LATEST = 1.0
"""How long a reply may take, in seconds."""


def send_until_full(link):
    """Sends reports and reads nothing, until the socket takes no more. How many bytes it took."""
    link.socket.settimeout(0.5)
    taken, block = 0, EVENT * 1000
    with contextlib.suppress(OSError):
        while taken < 1 << 26:
            taken += link.socket.send(block)
    return taken


def send_without_end(link, megabytes):
    """Sends one line without an end. Its replies."""
    link.socket.settimeout(30)
    block = b"x" * (1 << 16)
    with contextlib.suppress(OSError):
        for _ in range(megabytes * 16):
            link.socket.sendall(block)
    return link.rest()


class Others:
    """The clients that don't behave, each in a thread where it takes time."""

    def __init__(self, port, megabytes):
        self.never_reads, self.half, self.endless, self.slow = (Link(port, seconds=60) for _ in range(4))
        self.replies_to_endless, self.reply_to_slow = None, None
        self.half.send(b"E c.")
        self.threads = [
            threading.Thread(target=lambda: send_until_full(self.never_reads)),
            threading.Thread(target=lambda: self.send_endless(megabytes)),
            threading.Thread(target=self.send_slowly)]
        for thread in self.threads:
            thread.start()

    def send_endless(self, megabytes):
        self.replies_to_endless = send_without_end(self.endless, megabytes)

    def send_slowly(self):
        for place in range(len(EVENT)):
            self.slow.send(EVENT[place:place + 1])
            time.sleep(0.02)
        self.reply_to_slow = self.slow.reply()

    def leave(self):
        for thread in self.threads:
            thread.join()
        for link in (self.never_reads, self.half, self.endless, self.slow):
            link.close()


def report(link, count):
    """Reports so often, and waits for each reply. How long the slowest took, and what is wrong with the replies."""
    slowest, problems, last = 0.0, [], 0
    for _ in range(count):
        began = time.monotonic()
        reply = link.ask(EVENT[:-1])
        slowest = max(slowest, time.monotonic() - began)
        place = int(reply[3:]) if reply and reply.startswith(b"OK ") else 0
        if place <= last:
            problems.append("the reply %s after place %d" % (reply, last))
        last = place
    return slowest, problems


def played(options, folder, book):
    write_file(os.path.join(folder, "p.csp"), SCRIPT)
    server = Server(options.program, folder, connections=5, seconds=120)
    if not server.listening():
        book.note("neighbours", ["it doesn't listen: %s" % (server.end(),)], {})
        return
    link = Link(server.port)
    others = Others(server.port, options.megabytes)
    slowest, problems = report(link, options.reports)
    others.threads[0].join()  # from here on a server that writes to the client that doesn't read has to wait
    later, more = report(link, options.reports)
    slowest = max(slowest, later)
    book.note("replies", problems + more, {})
    book.note("time", ["a reply took %.2f s" % slowest] if slowest > LATEST else [], {})
    others.leave()
    link.close()
    book.note("byte by byte", [] if others.reply_to_slow.startswith(b"OK ") else [str(others.reply_to_slow)], {})
    endless = others.replies_to_endless
    book.note("no end", [] if endless in ([b"ERR 12 line"], []) else [str(endless)], {})
    end = server.end()
    book.note("end", [] if end.status == 0 else ["it ended with %s" % (end,)], {})
    held = journal_of(read_file(os.path.join(folder, "j")))
    of_first = [] if isinstance(held, str) else [entry for entry in held.records if entry[0] == 1 and entry[4]]
    book.note("journal", [] if len(of_first) == 2 * options.reports else ["%d entries of the first client" % len(of_first)], {})
    print("the slowest of %d replies took %.1f ms" % (2 * options.reports, slowest * 1000))


def main():
    parser = argparse.ArgumentParser(description=__doc__.split("\n")[0])
    add_options(parser, "neighbours")
    parser.add_argument("--reports", type=int, default=500)
    parser.add_argument("--megabytes", type=int, default=64)
    options = parser.parse_args()
    if not begin(options):
        return 1
    book = Book(options.keep)
    with tempfile.TemporaryDirectory(prefix="neighbours-", dir=options.folder) as folder:
        played(options, folder, book)
    return book.end()


if __name__ == "__main__":
    sys.exit(main())
