"""Lines of logs: of files, compressed ones too, and of standard input."""
from __future__ import annotations

import errno
import os
import select
import stat
import sys
from typing import Iterator, List, NamedTuple, Optional

from .packed import CHUNK, FORMS, MAGIC, Unpacker, form_of

LONGEST = 1 << 20
"""The most bytes of a line. What comes after them, up to the next LF, is left out."""


class Line(NamedTuple):
    """A line of a log."""

    file: str
    """The file as it was named, or `-`."""
    number: int
    """The number of the line in the file, from 1."""
    text: str
    """The line without its end. Bytes that aren't UTF-8 are written as `\\xff`."""
    time: Optional[int] = None
    """Its time, in nanoseconds since 1970, where the map says how it is read."""


class Splitter:
    """Makes lines of the bytes of one file."""

    def __init__(self, name: str) -> None:
        self.name = name
        self.number = 0
        self.rest = b""
        self.cut = 0
        """How many lines were longer than they may be."""
        self.unread = 0
        """How many lines had bytes that are no text."""
        self.first_unread = 0
        """The number of the first of them; 0 for none."""
        self.is_told = False
        """Whether that was said."""
        self.skips = False

    def take(self, data: bytes) -> List[Line]:
        """The lines that end in these bytes, which come after those before."""
        if self.skips:
            end = data.find(b"\n")
            if end < 0:
                return []
            # The line's beginning, as long as a line may be, is the rest.
            data, self.skips = data[end:], False
        whole, newline, self.rest = (self.rest + data).rpartition(b"\n")
        found = self.lines(whole + newline) if newline else []
        if len(self.rest) > LONGEST:
            self.rest, self.skips = self.rest[:LONGEST], True
            self.cut += 1
        return found

    def end(self) -> List[Line]:
        """The last line, where no LF ends it. After this a new file begins."""
        found = self.lines(self.rest + b"\n") if self.rest or self.skips else []
        self.rest, self.skips, self.number = b"", False, 0
        return found

    def lines(self, data: bytes) -> List[Line]:
        """The lines of bytes that end in LF."""
        try:
            text = data.decode("utf-8")
            is_text = "\0" not in text
        except UnicodeDecodeError:
            text, is_text = data.decode("utf-8", "backslashreplace"), False
        if not is_text:
            self.count_unread(data)
        texts = text.replace("\r\n", "\n").split("\n")
        texts.pop()
        begin = self.number + 1
        self.number += len(texts)
        name = self.name
        return [Line(name, number, text) for number, text in enumerate(texts, begin)]

    def count_unread(self, data: bytes) -> None:
        """Counts the lines of these that aren't UTF-8 or have a NUL."""
        for number, line in enumerate(data.split(b"\n"), self.number + 1):
            if b"\0" in line or not is_utf8(line):
                self.unread += 1
                self.first_unread = self.first_unread or number


def is_utf8(data: bytes) -> bool:
    """Whether the bytes are UTF-8."""
    try:
        data.decode("utf-8")
    except UnicodeDecodeError:
        return False
    return True


class Source:
    """A log: a file, or standard input. A compressed one is read as its text."""

    def __init__(self, name: str) -> None:
        self.name = name
        self.splitter = Splitter(name)
        if os.path.isdir(name):
            raise IsADirectoryError(errno.EISDIR, os.strerror(errno.EISDIR), name)
        self.descriptor = sys.stdin.fileno() if name == "-" else os.open(name, os.O_RDONLY | os.O_CLOEXEC)
        self.ended = False
        self.begin: Optional[bytes] = b""
        """The first bytes, until they tell whether the log is compressed; None after that."""
        self.unpacker: Optional[Unpacker] = None
        self.texts: Iterator[bytes] = iter(())
        """What the bytes of a compressed log that were read last are, as far as it wasn't taken."""
        self.amid = False
        """Whether there may be more of it."""

    def waits_on(self) -> Optional[int]:
        """What can be waited for: a pipe, a socket or a terminal; None for a file, which always has what it has."""
        mode = os.fstat(self.descriptor).st_mode
        return None if stat.S_ISREG(mode) or stat.S_ISDIR(mode) else self.descriptor

    def is_ready(self) -> bool:
        """Whether a read answers at once."""
        end = self.waits_on()
        return end is None or self.amid or bool(select.select([end], [], [], 0)[0])

    def read(self) -> List[Line]:
        """The next lines. There may be none yet; at the end the source has `ended`. `LogFault` where it is damaged."""
        text = next(self.texts, None)
        if text is not None:
            return self.splitter.take(text)
        self.amid = False
        if not self.is_ready():
            return []
        data = os.read(self.descriptor, CHUNK)
        if not data:
            if self.unpacker is not None:
                self.unpacker.end()
            return self.close()
        data = self.told(data)
        if self.unpacker is None:
            return self.splitter.take(data)
        self.texts, self.amid = self.unpacker.take(data), True
        return self.splitter.take(next(self.texts, b""))

    def close(self) -> List[Line]:
        """Ends the log here: its last line, where no LF ends it."""
        self.ended = True
        return self.splitter.take(self.begin or b"") + self.splitter.end()

    def told(self, data: bytes) -> bytes:
        """The bytes that can be read now: none before it is known what the log is."""
        if self.begin is None:
            return data
        data = self.begin + data
        if len(data) < MAGIC and any(magic.startswith(data) for magic, _ in FORMS):
            self.begin = data
            return b""
        self.begin = None
        form = form_of(data)
        if form is not None:
            self.unpacker = Unpacker(self.name, form)
        return data
