"""Compressed logs as their text: gzip, bzip2, xz and Zstandard, told by their first bytes."""
from __future__ import annotations

import bz2
import importlib
import lzma
import zlib
from typing import Any, Generator, Iterator, Optional

CHUNK = 1 << 16
"""How many bytes are read at once."""

ONCE = 1 << 18
"""The most bytes of text that are unpacked at once, so that a small file of a large text takes little memory."""

PIECE = 1 << 10
"""How many bytes of Zstandard are unpacked at once: it has no bound of its own on the text that they make."""

FORMS = ((b"\x1f\x8b", "gzip"), (b"BZh", "bzip2"), (b"\xfd7zXZ\x00", "xz"), (b"\x28\xb5\x2f\xfd", "Zstandard"))
"""What each form begins with."""

MAGIC = max(len(begin) for begin, _ in FORMS)
"""How many bytes tell the form."""


class LogFault(Exception):
    """A log can't be read as it should. `status` is what the run ends with."""

    status = 5


def form_of(begin: bytes) -> Optional[str]:
    """The form of a file that begins with these bytes; None for a text."""
    return next((form for magic, form in FORMS if begin.startswith(magic)), None)


class Unpacker:
    """The text of a compressed file, whose bytes are handed over piece by piece."""

    def __init__(self, name: str, form: str) -> None:
        """name -- the file, for what is wrong with it. `LogFault` where this Python can't read the form."""
        self.name, self.form = name, form
        self.one: Any = self.fresh()
        self.begun = False
        """Whether a part was begun and hasn't ended. A file may have several, one after the other."""

    def fresh(self) -> Any:
        """What unpacks one part of the file."""
        if self.form == "gzip":
            return zlib.decompressobj(zlib.MAX_WBITS | 16)
        if self.form == "bzip2":
            return bz2.BZ2Decompressor()
        if self.form == "xz":
            return lzma.LZMADecompressor(lzma.FORMAT_XZ)
        try:
            return importlib.import_module("zstandard").ZstdDecompressor().decompressobj()
        except ModuleNotFoundError:
            raise LogFault("%s: to read Zstandard, Python needs the package zstandard (Debian: python3-zstandard)" % self.name) from None

    def take(self, data: bytes) -> Iterator[bytes]:
        """The text of these bytes, which come after those before, in pieces."""
        while data:
            if not self.begun:
                data = data.lstrip(b"\0")  # What fills up the end of a tape's block.
                self.begun = bool(data)
            try:
                data = yield from self.unpack(data)
            except Exception as error:
                # The package zstandard has an exception of its own, which can't be named where it isn't installed.
                raise LogFault("%s: this isn't whole %s: %s" % (self.name, self.form, error)) from None

    # Unpacks up to the end of a part, and answers the bytes after it.
    def unpack(self, data: bytes) -> Generator[bytes, None, bytes]:
        one = self.one
        while data and not one.eof:
            if self.form == "Zstandard":
                text, data = one.decompress(data[:PIECE]), data[PIECE:]
            else:
                text, data = one.decompress(data, ONCE), one.unconsumed_tail if self.form == "gzip" else b""
            if text:
                yield text
        while not one.eof and self.has_more(one) and (text := one.decompress(b"", ONCE)):
            yield text
        if not one.eof:
            return b""
        self.one, self.begun = self.fresh(), False
        return one.unused_data + data

    # Whether there may be text of the bytes that were handed over.
    def has_more(self, one: Any) -> bool:
        return self.form == "gzip" or self.form != "Zstandard" and not one.needs_input

    def end(self) -> None:
        """Finds that the file ends amid a part (`LogFault`)."""
        if self.begun:
            raise LogFault("%s: the file ends before its %s does" % (self.name, self.form))


def pieces_of(path: str) -> Iterator[bytes]:
    """The text of a file, compressed or not, in pieces. `LogFault` where it is damaged, `OSError` where it can't be read."""
    with open(path, "rb") as file:
        data = file.read(CHUNK)
        form = form_of(data)
        unpacker = Unpacker(path, form) if form is not None else None
        while data:
            yield from unpacker.take(data) if unpacker is not None else (data,)
            data = file.read(CHUNK)
        if unpacker is not None:
            unpacker.end()
