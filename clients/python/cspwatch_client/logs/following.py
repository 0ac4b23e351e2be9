"""Logs that grow while they are read, and are rotated or cut: by whom ever, also while nobody read them."""
from __future__ import annotations

import hashlib
import os
import re
from typing import Dict, Iterator, List, Mapping, NamedTuple, Optional, Sequence

from .packed import CHUNK, MAGIC, form_of, pieces_of
from .reading import Line, Source, Splitter
from .showing import printable

TAIL = 1 << 10
"""How many of the bytes that were read last are compared, when more comes, with what stands there now."""

OLDER = re.compile(r"[.-](\d[\d.-]*)(\.(gz|bz2|xz|zst))?")
"""What a file that was rotated away has after its log's name: a number, or a date."""

MOST_DIGITS = 4
"""The most digits of a number that is counted up at each rotation. A longer one is a date."""


class Mark(NamedTuple):
    """How far a log was read, at the end of a line."""

    device: int
    inode: int
    offset: int
    """How many bytes of it were read."""
    sum: str
    """Their SHA-256, in hexadecimal."""
    line: int
    """How many lines they are."""


class Sum:
    """The sum of the bytes of a file up to its last whole line that was read."""

    def __init__(self) -> None:
        self.all = hashlib.sha256()
        self.whole = self.all.copy()
        self.size = self.offset = 0

    def take(self, data: bytes) -> None:
        """The next bytes."""
        end = data.rfind(b"\n") + 1
        if end:
            self.all.update(data[:end])
            self.whole, self.offset = self.all.copy(), self.size + end
        self.all.update(data[end:])
        self.size += len(data)

    def mark(self, found: os.stat_result, line: int) -> Mark:
        return Mark(found.st_dev, found.st_ino, self.offset, self.whole.hexdigest(), line)


def passed(pieces: Iterator[bytes], mark: Mark) -> Optional[Sum]:
    """Reads the bytes before the mark. Answers their sum; None where these are others. The last piece may have more of them."""
    found = Sum()
    for piece in pieces if mark.offset else ():
        found.take(piece[: mark.offset - found.size])
        if found.size == mark.offset:
            break
    is_same = found.size == found.offset == mark.offset and found.whole.hexdigest() == mark.sum
    return found if is_same else None


class Old:
    """A file that a log was renamed or copied to, compressed or not. It grows no more."""

    def __init__(self, path: str, sum_before: Sum, line: int) -> None:
        """sum_before -- of the bytes that were read already, which are so many lines."""
        self.path, self.sum = path, sum_before
        self.stat = os.stat(path)
        self.splitter = Splitter(path)
        self.splitter.number = line
        self.pieces = pieces_of(path)
        self.skip = sum_before.size
        self.ended = False

    def read(self) -> List[Line]:
        """The next lines. After the last the file has `ended`. `LogFault` where it is damaged, `OSError` where it can't be read."""
        piece = next(self.pieces, None)
        if piece is None:
            self.ended = True
            return self.splitter.end()
        skipped = piece[self.skip :]
        self.skip = max(0, self.skip - len(piece))
        self.sum.take(skipped)
        return self.splitter.take(skipped)

    def mark(self) -> Mark:
        return self.sum.mark(self.stat, self.splitter.number)


def older_of(name: str) -> List[str]:
    """The files that the log was rotated away to, the latest first."""
    folder, base = os.path.split(name)
    numbered: Dict[str, int] = {}
    dated: List[str] = []
    try:
        names = os.listdir(folder or ".")
    except OSError:
        return []
    for other in names:
        found = OLDER.fullmatch(other[len(base) :]) if other.startswith(base) else None
        if found is not None and found[1].isdigit() and len(found[1]) <= MOST_DIGITS:
            numbered[other] = int(found[1])
        elif found is not None:
            dated.append(other)
    ordered = sorted(numbered, key=lambda other: (numbered[other], other)) + sorted(dated, reverse=True)
    return [path for path in (os.path.join(folder, other) for other in ordered) if os.path.isfile(path)]


class Followed(Source):
    """A file that is read on as it grows. Where it is renamed or removed, it is read to its end, and then the new one of its
    name. Where it is cut, what was copied before is looked for, and then it is read from its beginning."""

    def __init__(self, name: str, mark: Optional[Mark] = None, keeps_rest: bool = False) -> None:
        """mark -- where an earlier run had read it to.
        keeps_rest -- whether a last line without LF is left to a later run.
        """
        super().__init__(name)
        self.keeps_rest = keeps_rest
        self.sum = Sum()
        self.tail = b""
        self.is_idle = False
        """Whether all was read that stood there at the last look."""
        self.old: Optional[Old] = None
        """An older file, of which the rest is read first."""
        self.queue: List[str] = []
        """The older files that come after it, in their order."""
        self.lost: List[str] = []
        """What can't be known of the log, as lines for the user. Who tells them takes them out."""
        if mark is not None:
            self.go_on(mark)

    @property
    def position(self) -> int:
        """How many bytes of the file that has the name now were read."""
        return self.sum.size

    def mark(self) -> Mark:
        """How far the log was read."""
        if self.old is not None:
            return self.old.mark()
        return self.sum.mark(os.fstat(self.descriptor), self.splitter.number)

    def go_on(self, mark: Mark) -> None:
        """Finds what was read before, and goes on after it."""
        here = os.fstat(self.descriptor)
        is_here = (here.st_dev, here.st_ino) == mark[:2]
        older = older_of(self.name)
        same = [path for path in older if (os.stat(path).st_dev, os.stat(path).st_ino) == mark[:2]]
        # Of an empty beginning the bytes tell nothing, so the file has to be the same.
        if is_here and self.go_on_here(mark) or self.go_on_in(same, older, mark):
            return
        if mark.offset and (self.go_on_in(older, older, mark) or not is_here and self.go_on_here(mark)):
            return
        text = "%s: what was read to byte %d (line %d) isn't there any more, in it or in %s; what was written there after it can't be known"
        self.lost.append(text % (printable(self.name), mark.offset, mark.line, printable(self.name + ".1")))

    def go_on_here(self, mark: Mark) -> bool:
        os.lseek(self.descriptor, 0, os.SEEK_SET)
        found = passed(iter(lambda: os.read(self.descriptor, CHUNK), b""), mark)
        os.lseek(self.descriptor, mark.offset if found is not None else 0, os.SEEK_SET)
        if found is not None:
            self.sum, self.splitter.number = found, mark.line
            self.remember()
        return found is not None

    def go_on_in(self, paths: Sequence[str], older: Sequence[str], mark: Mark) -> bool:
        for path in paths:
            try:
                found = passed(pieces_of(path), mark)
            except Exception:
                continue  # A file that can't be read isn't the one.
            if found is not None:
                self.old = Old(path, found, mark.line)
                self.queue = list(reversed(older[: older.index(path)]))
                return True
        return False

    def read(self) -> List[Line]:
        if self.old is not None:
            return self.read_old(self.old)
        if self.is_idle and self.was_cut():
            return self.begin_again()
        data = os.read(self.descriptor, CHUNK)
        if not data:
            self.is_idle = True
            return self.renewed()
        self.is_idle = len(data) < CHUNK
        self.sum.take(data)
        self.tail = (self.tail + data)[-TAIL:]
        return self.splitter.take(data)

    def read_old(self, old: Old) -> List[Line]:
        found = old.read()
        self.splitter.cut += old.splitter.cut
        self.splitter.unread += old.splitter.unread
        old.splitter.cut = old.splitter.unread = 0
        if old.ended:
            self.old = Old(self.queue.pop(0), Sum(), 0) if self.queue else None
        return found

    def remember(self) -> None:
        """Remembers the bytes before the place that is read next."""
        begin = max(0, self.sum.size - TAIL)
        self.tail = os.pread(self.descriptor, self.sum.size - begin, begin)

    def was_cut(self) -> bool:
        """Whether the file was cut, and perhaps written again beyond where it was read to."""
        size = os.fstat(self.descriptor).st_size
        if size < self.sum.size:
            return True
        return size > self.sum.size and os.pread(self.descriptor, len(self.tail), self.sum.size - len(self.tail)) != self.tail

    def begin_again(self) -> List[Line]:
        """Reads a file that was cut from its beginning, after the rest of a copy, where there is one."""
        mark, older = self.mark(), older_of(self.name)
        found: List[Line] = []
        if mark.offset and self.go_on_in(older, older, mark):
            self.splitter.rest, self.splitter.number = b"", 0
        else:
            text = "%s: it was cut after line %d, and no file %s begins as it did; what was written to it after that can't be known"
            self.lost.append(text % (printable(self.name), mark.line, printable(self.name + ".1")))
            found = self.splitter.end()
        self.begin_at()
        return found

    def begin_at(self, descriptor: Optional[int] = None) -> None:
        """Begins with a file: this one, or the present one."""
        if descriptor is not None:
            os.close(self.descriptor)
            self.descriptor = descriptor
        os.lseek(self.descriptor, 0, os.SEEK_SET)
        self.sum, self.tail, self.is_idle = Sum(), b"", False

    def renewed(self) -> List[Line]:
        """Takes the file that has the name now, where it is another one."""
        try:
            new = os.open(self.name, os.O_RDONLY | os.O_CLOEXEC)
        except OSError:
            return []
        if os.path.sameopenfile(new, self.descriptor):
            os.close(new)
            return []
        # What was written to the old file since it was read last, before it got its other name.
        found: List[Line] = []
        while data := os.read(self.descriptor, CHUNK):
            found += self.splitter.take(data)
        here = os.fstat(self.descriptor)
        self.begin_at(new)
        self.pass_over(here)
        return found + self.splitter.end()

    def pass_over(self, before: os.stat_result) -> None:
        """Reads first what came between the file before and the present one, where the log was rotated more than once."""
        older = older_of(self.name)
        for index, path in enumerate(older):
            found = os.stat(path)
            if (found.st_dev, found.st_ino) == (before.st_dev, before.st_ino) and index:
                self.queue = list(reversed(older[:index]))
                self.old = Old(self.queue.pop(0), Sum(), 0)
                return

    def close(self) -> List[Line]:
        if self.keeps_rest:
            self.ended = True
            return []
        return super().close()


def sources_of(names: Sequence[str], follow: bool, marks: Optional[Mapping[str, Mark]] = None) -> List[Source]:
    """The logs of these names; standard input where there is none. `OSError` where one can't be opened.

    marks -- how far each log was read, where that is kept; an empty mapping where it is to be kept from now on.
    """
    found: List[Source] = []
    for name in names or ["-"]:
        if follow and grows(name):
            found.append(Followed(name, (marks or {}).get(name), marks is not None))
        else:
            found.append(Source(name))
    return found


def grows(name: str) -> bool:
    """Whether the log is a file to which more may be written: one that isn't compressed."""
    if name == "-" or not os.path.isfile(name):
        return False
    with open(name, "rb") as file:
        return form_of(file.read(MAGIC)) is None
