"""The command `cspwatch-metrics`: what a journal holds, for Prometheus."""
from __future__ import annotations

import argparse
import itertools
import os
import socket
import sys
import threading
import time
from http.server import BaseHTTPRequestHandler, ThreadingHTTPServer
from typing import Any, Iterator, Optional, Sequence

from .. import __version__
from ..replies import FaultCode
from .following import FOLLOWING, REFUSED, Follower, View
from .service_logs import ServiceLog
from .tallies import KINDS, OTHER, VERDICTS, Key, Tally
from .words import Address, Fault, Signals, announce, end_by, package, parser, program_of, run, sayer

NAME = "cspwatch-metrics"
LISTEN = "127.0.0.1:9180"
AT_ONCE = 16
"""How many requests are answered at one time; the rest get 503."""

SECONDS = 10.0
"""How long a request may take to come, or its answer to be taken."""

CODES = [str(int(code)) for code in FaultCode]
"""The codes of lines that aren't judged, of which each has a counter from the beginning."""

BUSY = b"HTTP/1.1 503 Service Unavailable\r\nRetry-After: 5\r\nContent-Length: 0\r\nConnection: close\r\n\r\n"

ROOT = b"cspwatch-metrics: what there is for Prometheus is at /metrics\n"


class Metrics:
    """What is collected of a follower's view at each request."""

    def __init__(self, follower: Follower, core: Any) -> None:
        self.follower, self.core = follower, core

    def collect(self) -> Iterator[Any]:
        """All families of metrics."""
        with self.follower.lock:
            view, log = self.follower.view, self.follower.log
            families = [*self.of_the_journal(view), *self.of_the_follower(view)]
            if view.tally is not None:
                families += self.of_the_entries(view.tally, view)
            if log is not None and log.is_read:
                families += self.of_the_log(log)
        return iter(families)

    def counter(self, name: str, text: str, labels: Sequence[str] = ()) -> Any:
        return self.core.CounterMetricFamily(name, text, labels=labels)

    def gauge(self, name: str, text: str, value: float) -> Any:
        return self.core.GaugeMetricFamily(name, text, value=value)

    def of_the_entries(self, tally: Tally, view: View) -> Iterator[Any]:
        """What the entries come to. It is there only once the journal was read to its end."""
        reports = self.counter("cspwatch_reports", "Reports in the journal.", ("seat", "kind", "verdict"))
        # Those that didn't come are there with 0: of a counter that begins with 1 Prometheus sees no increase.
        for seat, kind, verdict in itertools.product(sorted({OTHER, *(key.seat for key in tally.counts)}), KINDS, VERDICTS):
            name = "other" if seat == OTHER else str(seat)
            reports.add_metric((name, kind, verdict), tally.counts[Key(seat, kind, verdict)])
        yield reports
        rejected = self.counter("cspwatch_rejected_reports", "Rejected reports in the journal, of all seats.")
        rejected.add_metric((), tally.rejected)
        yield rejected
        yield self.gauge("cspwatch_behind_entries", "Entries in the journal's files that aren't counted yet.", max(0, view.extent.records - tally.total))
        if view.events is not None:
            named = view.events[:-1]
            yield self.gauge("cspwatch_events", "Events of the script, without termination.", len(named))
            yield self.gauge("cspwatch_events_never_seen", "Those of which no report was accepted.", len(tally.never_seen(named)))

    def of_the_journal(self, view: View) -> Iterator[Any]:
        """What the journal's files show."""
        extent = view.extent
        parts = self.counter("cspwatch_parts", "Files of the journal.")
        parts.add_metric((), extent.parts if extent.bytes else 0)
        yield parts
        yield self.gauge("cspwatch_journal_bytes", "Size of the journal's files.", extent.bytes)
        if extent.grown is not None:
            age = max(0.0, time.time() - extent.grown)
            yield self.gauge("cspwatch_last_entry_age_seconds", "Seconds since the last entry was written.", age)
        if view.is_open is not None:
            yield self.gauge("cspwatch_open", "1 where a server takes reports to the journal, else 0.", int(view.is_open))
        try:
            found = os.statvfs(os.path.dirname(os.path.abspath(self.follower.path)))
        except OSError:
            return
        yield self.gauge("cspwatch_disk_free_bytes", "Room left where the journal is.", found.f_bavail * found.f_frsize)
        yield self.gauge("cspwatch_disk_bytes", "Room in all where the journal is.", found.f_blocks * found.f_frsize)

    def of_the_follower(self, view: View) -> Iterator[Any]:
        """How the following goes."""
        yield self.gauge("cspwatch_following", "1 where the journal was read and is followed, else 0.", int(view.phase == FOLLOWING))
        yield self.gauge("cspwatch_refused", "1 where the journal can't be followed, else 0.", int(view.phase == REFUSED))
        info = self.core.GaugeMetricFamily("cspwatch_watching_info", "What is watched.", labels=("journal", "version"))
        info.add_metric((shown(self.follower.path), __version__), 1)
        yield info

    def of_the_log(self, log: ServiceLog) -> Iterator[Any]:
        """What the log of the service says."""
        lines = self.counter("cspwatch_lines_not_judged", "Lines that were answered ERR, as the log has them.", ("code",))
        for code in sorted({*CODES, *log.not_judged}):
            lines.add_metric((code,), log.not_judged[code])
        yield lines
        ended = self.counter("cspwatch_connections_ended", "Connections that have ended, as the log has them.", ("why",))
        for why, count in sorted(log.ended.items()):
            ended.add_metric((why,), count)
        yield ended
        for name, text, count in (
            ("cspwatch_connections", "Connections that were taken, as the log has them.", log.connected),
            ("cspwatch_log_lines_lost", "Lines that the log says are missing.", log.lost),
            ("cspwatch_log_lines_unread", "Lines of the log that can't be read.", log.unread),
        ):
            family = self.counter(name, text)
            family.add_metric((), count)
            yield family
        yield self.gauge("cspwatch_connections_now", "Connections that are there, as far as the log says.", log.connections)


def shown(path: str) -> str:
    """A file's name as text that can be sent: bytes that aren't UTF-8 are written as `\\xff`."""
    return os.fsencode(path).decode("utf-8", "backslashreplace")


class Handler(BaseHTTPRequestHandler):
    """A request of Prometheus."""

    server: Server
    protocol_version = "HTTP/1.1"
    server_version, sys_version = NAME, ""
    timeout = SECONDS

    def do_GET(self) -> None:
        path = self.path.partition("?")[0]
        if path == "/metrics":
            encode, kind = self.server.exposition.choose_encoder(self.headers.get("Accept", ""))
            self.answer(200, kind, encode(self.server.metrics))
        elif path == "/":
            self.answer(200, "text/plain; charset=utf-8", ROOT)
        else:
            self.answer(404, "text/plain; charset=utf-8", b"there is only /metrics\n")

    do_HEAD = do_GET

    def answer(self, status: int, kind: str, body: bytes) -> None:
        self.send_response(status)
        self.send_header("Content-Type", kind)
        self.send_header("Content-Length", str(len(body)))
        self.send_header("X-Content-Type-Options", "nosniff")
        self.send_header("Connection", "close")
        self.end_headers()
        if self.command != "HEAD":
            self.wfile.write(body)
        self.close_connection = True

    def log_message(self, format: str, *words: object) -> None:
        """Says nothing: requests come every few seconds."""


class Server(ThreadingHTTPServer):
    """Answers requests, so many at one time."""

    daemon_threads = True
    request_queue_size = 64

    def __init__(self, where: Address, metrics: Metrics, exposition: Any) -> None:
        if ":" in where.host:
            self.address_family = socket.AF_INET6
        self.metrics, self.exposition = metrics, exposition
        self.places = threading.BoundedSemaphore(AT_ONCE)
        super().__init__((where.host, where.port), Handler)

    def server_bind(self) -> None:
        # Without the look-up of a name that `HTTPServer` does.
        self.socket.setsockopt(socket.SOL_SOCKET, socket.SO_REUSEADDR, 1)
        self.socket.bind(self.server_address)
        self.server_address = self.socket.getsockname()
        self.server_name, self.server_port = str(self.server_address[0]), int(self.server_address[1])

    def process_request(self, request: Any, client_address: Any) -> None:
        if not self.places.acquire(blocking=False):
            try:
                request.settimeout(0)
                request.send(BUSY)
            except OSError:
                pass
            self.shutdown_request(request)
            return
        try:
            super().process_request(request, client_address)
        except RuntimeError:
            # No thread can be started.
            self.places.release()
            self.shutdown_request(request)

    def process_request_thread(self, request: Any, client_address: Any) -> None:
        try:
            super().process_request_thread(request, client_address)
        finally:
            self.places.release()

    def handle_error(self, request: Any, client_address: Any) -> None:
        """A request that breaks off is no fault of ours."""
        if not isinstance(sys.exc_info()[1], OSError):
            super().handle_error(request, client_address)


def serve(options: argparse.Namespace) -> int:
    """Follows the journal, and answers requests until a signal comes."""
    core = package(NAME, "prometheus_client.core", "python3-prometheus-client")
    exposition = package(NAME, "prometheus_client.exposition", "python3-prometheus-client")
    follower = Follower(options.journal, program_of(options), options.log, say=sayer(NAME))
    try:
        server = Server(options.listen, Metrics(follower, core), exposition)
    except OSError as error:
        raise Fault("%s: cannot listen: %s" % (str(options.listen), error.strerror)) from None
    signals = Signals()
    follower.start()
    threading.Thread(target=server.serve_forever, daemon=True).start()
    announce(server.server_name, server.server_port)
    signals.come.wait()
    follower.stop()
    assert signals.number is not None
    end_by(signals.number)


def main(words: Optional[Sequence[str]] = None) -> int:
    """Runs the command with these words, and answers its status."""
    options = parser(NAME, "Follows a journal of cspwatch, and counts what it holds for Prometheus.", LISTEN).parse_args(words)
    return run(lambda: serve(options))


if __name__ == "__main__":
    sys.exit(main())
