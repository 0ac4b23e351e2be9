"""A record of all verdicts in a file. A run that was ended at any moment, and begun again, goes on with it."""
from __future__ import annotations

import fcntl
import json
import os
from typing import BinaryIO, Optional

from .links import Sent

CHUNK = 1 << 16


class RecordFault(Exception):
    """The record can't be continued by this run."""

    status = 5


class Record:
    """The file: a JSON object a line, for each report in the order of the log.

    What stands in it is compared with what this run finds, and only what comes after it is written. A last line without
    its LF, which a run that was killed may leave, is cut off.
    """

    def __init__(self, path: str) -> None:
        """Opens the file, and makes it where it isn't there. `OSError` where that fails, `RecordFault` where another run has it."""
        self.path = path
        self.file: BinaryIO = open(os.open(path, os.O_RDWR | os.O_CREAT | os.O_CLOEXEC, 0o666), "r+b")
        try:
            fcntl.flock(self.file, fcntl.LOCK_EX | fcntl.LOCK_NB)
        except BlockingIOError:
            raise RecordFault("%s: another run has it open" % path) from None
        self.file.truncate(end_of_lines(self.file))
        self.earlier: Optional[BinaryIO] = open(path, "rb")
        """Reads what was there before; None once all of it has been compared."""
        self.number = 0

    def add(self, sent: Sent, session: str) -> bool:
        """The next outcome. Answers whether it is new; `RecordFault` where another one stands in its place."""
        line = line_of(sent, session)
        self.number += 1
        if self.earlier is not None:
            stood = self.earlier.readline()
            if stood == line:
                return False
            if stood:
                text = "%s: line %d is %s and not %s, as this run has it" % (self.path, self.number, shown(stood), shown(line))
                raise RecordFault(text)
            self.earlier.close()
            self.earlier = None
            self.file.seek(0, os.SEEK_END)
        self.file.write(line)
        return True

    def flush(self) -> None:
        """Hands what was added to the system."""
        self.file.flush()

    def close(self, is_whole: bool) -> None:
        """Ends the record. `RecordFault` where more stands in it than a run that has read the whole log has found."""
        more = self.earlier is not None and self.earlier.read(1) != b""
        self.file.close()
        if self.earlier is not None:
            self.earlier.close()
        if more and is_whole:
            raise RecordFault("%s: it has more lines than the %d that this run has found" % (self.path, self.number))


def line_of(sent: Sent, session: str) -> bytes:
    """The line of an outcome."""
    fields = {"line": sent.line.number, "session": session, "report": sent.report.line}
    if sent.times > 1:
        fields.update(times=sent.times, accepted=sent.passed())
    if sent.after_no:
        fields["after"] = "NO"
    elif sent.fault:
        fields["fault"] = sent.fault
    else:
        fields["verdict"] = "OK" if sent.accepted else "NO"
        fields["place"] = sent.place or 0
    return json.dumps(fields, ensure_ascii=False).encode("utf-8") + b"\n"


def shown(line: bytes) -> str:
    return line.decode("utf-8", "replace").rstrip("\n")


def end_of_lines(file: BinaryIO) -> int:
    """How many bytes of the file are whole lines."""
    end = file.seek(0, os.SEEK_END)
    while end > 0:
        begin = max(0, end - CHUNK)
        file.seek(begin)
        found = file.read(end - begin).rfind(b"\n")
        if found >= 0:
            return begin + found + 1
        end = begin
    return 0
