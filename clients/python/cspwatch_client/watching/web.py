"""The command `cspwatch-web`: a page of a journal that is always up to date."""
from __future__ import annotations

import argparse
import asyncio
import ipaddress
import json
import os
import signal
import socket
import sys
import time
from typing import Any, Dict, List, NamedTuple, Optional, Sequence

from .following import Follower
from .sections import SECTIONS, Known
from .tallies import Tally
from .words import Address, Fault, announce, end_by, package, parser, program_of, run, sayer

NAME = "cspwatch-web"
LISTEN = "127.0.0.1:8080"

READERS = 200
"""How many pages are kept up to date at one time; the rest get 503, and try again."""

CONNECTIONS = 512
"""How many connections there are at one time. A page takes one or two."""

PAUSE = 0.5
"""How many seconds lie between two messages to the pages at least."""

HEARTBEAT = 15.0
"""After so many seconds without a message there is an empty one, by which an end of the connection is found."""

AWAY = 60.0
"""After so many seconds in which a reader takes nothing its connection is closed. It may come back."""

KEEP_ALIVE = 15.0

BUSY = b"HTTP/1.1 503 Service Unavailable\r\nRetry-After: 5\r\nContent-Length: 0\r\nConnection: close\r\n\r\n"

HEADERS = {
    "Content-Security-Policy": "default-src 'none'; script-src 'self'; style-src 'self'; connect-src 'self'; img-src data:; "
    "base-uri 'none'; form-action 'none'; frame-ancestors 'none'",
    "X-Content-Type-Options": "nosniff",
    "Referrer-Policy": "no-referrer",
    "Cross-Origin-Resource-Policy": "same-origin",
    "Cache-Control": "no-store",
}
"""What each answer says: nothing comes from elsewhere, and nothing that is shown can be run."""

FILES = {"/": ("page.html", "text/html"), "/page.css": ("page.css", "text/css"), "/page.js": ("page.js", "text/javascript")}
"""The files of the page, by their paths."""


class Part(NamedTuple):
    """A section as it is sent, and since which publication it is so."""

    text: str
    since: int


class Hub:
    """What is sent to all readers. It is made anew where something has changed, twice a second at most, however many readers there are;
    one that was away gets what is so now, and nothing of what was between."""

    def __init__(self, follower: Follower) -> None:
        self.follower = follower
        self.parts: Dict[str, Part] = {}
        self.publication = 0
        self.readers = 0
        self.wanted = asyncio.Event()
        self.published = asyncio.Event()

    def publish(self) -> None:
        """Makes the sections anew, and tells the readers where one has changed."""
        with self.follower.lock:
            view = self.follower.view
            known = Known(self.follower.path, view, self.follower.log, view.best() or Tally())
            found = {name: section(known) for name, section in SECTIONS.items()}
        number = self.publication + 1
        texts = {name: json.dumps(data, separators=(",", ":")) for name, data in found.items()}
        changed = {name: Part(text, number) for name, text in texts.items() if name not in self.parts or self.parts[name].text != text}
        if changed:
            self.parts.update(changed)
            self.publication = number
            self.published.set()
            self.published = asyncio.Event()

    async def keep(self) -> None:
        """Publishes what changes, until it is cancelled."""
        while True:
            self.wanted.clear()
            self.publish()
            await asyncio.sleep(PAUSE)
            await self.wanted.wait()

    def since(self, publication: int) -> str:
        """An object with the sections that have changed since this publication, and the time."""
        fields = ['"%s":%s' % (name, part.text) for name, part in self.parts.items() if part.since > publication]
        return "{" + ",".join(['"now":%.3f' % time.time(), *fields]) + "}"


class Pages:
    """The answers to requests."""

    def __init__(self, hub: Hub, aiohttp_web: Any, where: Address) -> None:
        self.hub, self.web = hub, aiohttp_web
        self.is_local = is_loopback(where.host)
        here = os.path.dirname(os.path.abspath(__file__))
        self.files: Dict[str, bytes] = {}
        for path, (name, _) in FILES.items():
            with open(os.path.join(here, name), "rb") as file:
                self.files[path] = file.read()

    def application(self) -> Any:
        """What answers."""
        async def checked(request: Any, handler: Any) -> Any:
            self.check_host(request)
            return await handler(request)

        application = self.web.Application(middlewares=[self.web.middleware(checked)])
        for path in FILES:
            application.router.add_get(path, self.file)
        application.router.add_get("/state", self.state)
        application.router.add_get("/events", self.events)
        application.on_response_prepare.append(self.add_headers)
        return application

    def check_host(self, request: Any) -> None:
        """Refuses requests that were made for another host's name: a page from elsewhere could read what only this machine may."""
        if self.is_local and not is_loopback(host_of(request.headers.get("Host", ""))):
            raise self.web.HTTPForbidden(text="this page is at 127.0.0.1 and localhost alone\n")

    async def add_headers(self, request: Any, response: Any) -> None:
        response.headers.update(HEADERS)
        response.headers["Server"] = NAME

    async def file(self, request: Any) -> Any:
        return self.web.Response(body=self.files[request.path], content_type=FILES[request.path][1], charset="utf-8")

    async def state(self, request: Any) -> Any:
        """All sections, for programs."""
        return self.web.Response(text=self.hub.since(0) + "\n", content_type="application/json")

    async def events(self, request: Any) -> Any:
        """The sections as they change, as server-sent events."""
        if self.hub.readers >= READERS:
            raise self.web.HTTPServiceUnavailable(text="there are %d readers already\n" % READERS, headers={"Retry-After": "5"})
        self.hub.readers += 1
        try:
            response = self.web.StreamResponse(headers={"Content-Type": "text/event-stream; charset=utf-8"})
            await response.prepare(request)
            await self.send_on(response)
        except (ConnectionError, asyncio.TimeoutError):
            if request.transport is not None:
                request.transport.abort()
        finally:
            self.hub.readers -= 1
        return response

    async def send_on(self, response: Any) -> None:
        """Sends what changes until the connection ends. While a reader takes nothing, nothing more is made for it."""
        sent = 0
        while True:
            published = self.hub.published
            if self.hub.publication > sent:
                text, sent = self.hub.since(sent), self.hub.publication
                await asyncio.wait_for(response.write(b"data: %s\n\n" % text.encode()), AWAY)
            try:
                if self.hub.publication == sent:
                    await asyncio.wait_for(published.wait(), HEARTBEAT)
            except asyncio.TimeoutError:
                await asyncio.wait_for(response.write(b":\n\n"), AWAY)


class Busy(asyncio.Protocol):
    """A connection for which there is no room."""

    def connection_made(self, transport: asyncio.BaseTransport) -> None:
        assert isinstance(transport, asyncio.Transport)
        transport.write(BUSY)
        transport.close()


def host_of(header: str) -> str:
    """The host of a header `Host`, without its port."""
    name, colon, port = header.rpartition(":")
    return (name if colon and port.isdigit() else header).strip("[]")


def is_loopback(host: str) -> bool:
    """Whether this is the machine itself, by a name or an address that no other machine has."""
    if host.lower() == "localhost":
        return True
    try:
        return ipaddress.ip_address(host).is_loopback
    except ValueError:
        return False


async def listen(factory: Any, where: Address) -> asyncio.AbstractServer:
    """Listens at the address, and answers as many connections as there may be."""
    loop = asyncio.get_running_loop()

    def connection() -> asyncio.Protocol:
        protocol: asyncio.Protocol = factory() if len(factory.connections) < CONNECTIONS else Busy()
        return protocol

    try:
        return await loop.create_server(connection, where.host, where.port, backlog=CONNECTIONS)
    except OSError as error:
        # What asyncio says of a fault names the address once more.
        reason = error.strerror if isinstance(error, socket.gaierror) or not error.errno else os.strerror(error.errno)
        raise Fault("%s: cannot listen: %s" % (str(where), reason)) from None


async def serve(options: argparse.Namespace) -> int:
    """Follows the journal, and answers requests until a signal comes; the signal's number."""
    aiohttp_web = package(NAME, "aiohttp.web", "python3-aiohttp")
    loop = asyncio.get_running_loop()
    follower = Follower(options.journal, program_of(options), options.log, asks=True, say=sayer(NAME))
    hub = Hub(follower)

    def changed() -> None:
        loop.call_soon_threadsafe(hub.wanted.set)

    follower.changed = changed
    ended: asyncio.Queue[int] = asyncio.Queue()
    for number in (signal.SIGINT, signal.SIGTERM):
        loop.add_signal_handler(number, ended.put_nowait, number)
    pages = Pages(hub, aiohttp_web, options.listen)
    runner = aiohttp_web.AppRunner(pages.application(), access_log=None, keepalive_timeout=KEEP_ALIVE)
    await runner.setup()
    server = await listen(runner.server, options.listen)
    follower.start()
    keeping = asyncio.create_task(hub.keep())
    announce(*addresses_of(server)[0][:2])
    ending = asyncio.create_task(ended.get())
    await asyncio.wait([ending, keeping], return_when=asyncio.FIRST_COMPLETED)
    for number in (signal.SIGINT, signal.SIGTERM):
        # A second one ends at once.
        loop.remove_signal_handler(number)
    follower.stop()
    if keeping.done():
        await keeping
    return await ending


def addresses_of(server: asyncio.AbstractServer) -> List[Any]:
    """Where the server listens."""
    return [one.getsockname() for one in server.sockets]  # type: ignore[attr-defined]


def begin(options: argparse.Namespace) -> int:
    """Runs until a signal comes."""
    end_by(asyncio.run(serve(options)))


def main(words: Optional[Sequence[str]] = None) -> int:
    """Runs the command with these words, and answers its status."""
    options = parser(NAME, "Follows a journal of cspwatch, and shows it as a live page.", LISTEN).parse_args(words)
    return run(lambda: begin(options))


if __name__ == "__main__":
    sys.exit(main())
