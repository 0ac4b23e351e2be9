"""Lines from streams of Redis, so that many machines judge the sessions of one system."""
from __future__ import annotations

import importlib
import re
import zlib
from typing import Any, List, NamedTuple, Optional
from urllib.parse import unquote, urlsplit

from .reading import Line, Source, Splitter

FIELD = b"line"
"""The field of an entry that has the line."""

BATCH = 1000
"""The most entries that are read at once."""

PORT = 6379
"""The port of a URL that has none."""

MOST_PARTITIONS = 65536


class StreamFault(Exception):
    """The stream can't be read."""

    status = 5


class Partition(NamedTuple):
    """One of so many partitions, counted from 1."""

    number: int
    of: int


def partition(text: str) -> Partition:
    """The partition of a text such as `3/16`, or `ValueError`."""
    found = re.fullmatch(r"([1-9]\d{0,4})/([1-9]\d{0,4})", text)
    if found is None or not int(found[1]) <= int(found[2]) <= MOST_PARTITIONS:
        raise ValueError(text)
    return Partition(int(found[1]), int(found[2]))


def partition_of(key: str, count: int) -> int:
    """The partition, 1 to `count`, to which the lines of a session go: by the CRC-32 of the key's UTF-8."""
    return zlib.crc32(key.encode("utf-8")) % count + 1


def stream_of(name: str, part: Optional[Partition]) -> str:
    """The name of the stream of a partition."""
    return name if part is None else "%s:%d" % (name, part.number)


class Stream(Source):
    """A stream: each entry is a line."""

    def __init__(self, url: str, part: Optional[Partition], follow: bool) -> None:
        """Connects. `ValueError` where the URL isn't one of a stream, `StreamFault` where there is no connection."""
        found = urlsplit(url)
        if found.scheme != "redis" or not found.hostname or len(found.path) < 2:
            raise ValueError("a stream is redis://HOST:PORT/NAME, not %r" % url)
        self.name = stream_of(unquote(found.path[1:]), part)
        self.splitter = Splitter(self.name)
        self.follow = follow
        self.ended = False
        self.last = b"0-0"
        self.number = 0
        try:
            self.redis: Any = importlib.import_module("redis")
        except ModuleNotFoundError:
            raise StreamFault("--stream needs Python's package redis (Debian: python3-redis)") from None
        self.client: Any = self.redis.Redis(found.hostname, found.port or PORT, username=found.username, password=found.password)
        self.asked("PING")

    def asked(self, *words: object) -> Any:
        """What Redis answers."""
        try:
            return self.client.execute_command(*words)
        except self.redis.RedisError as error:
            raise StreamFault("%s: %s" % (self.name, error)) from None

    def waits_on(self) -> Optional[int]:
        return None

    def is_ready(self) -> bool:
        return True

    def read(self) -> List[Line]:
        streams = self.asked("XREAD", "COUNT", BATCH, "STREAMS", self.name, self.last)
        if not streams:
            self.ended = not self.follow
            return []
        return [self.line(entry, fields) for entry, fields in streams[0][1]]

    def line(self, entry: bytes, fields: Any) -> Line:
        """The line of an entry."""
        if FIELD not in fields:
            raise StreamFault("%s: the entry %s has no field `line`" % (self.name, entry.decode("ascii")))
        self.last = entry
        self.number += 1
        text = fields[FIELD].decode("utf-8", "backslashreplace").rstrip("\r\n").replace("\n", "\\n")
        return Line(self.name, self.number, text)

    def close(self) -> List[Line]:
        self.ended = True
        return []
