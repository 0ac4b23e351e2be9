"""Following a journal by `cspwatch show --follow --format json`, from a thread, through all that can become of its file."""
from __future__ import annotations

import os
import select
import subprocess
import threading
import time
from dataclasses import dataclass
from typing import Callable, Optional, Tuple

from ..logs.maps import Specification
from ..logs.program import Program, ProgramFault, events_of
from ..running import stream
from ..shown import Wrong
from .journals import Extent, Files, Header, is_open, stamp_of
from .next_events import Asker, Next, Unknown
from .service_logs import ServiceLog
from .tallies import Tally

LOOK_SECONDS = 0.5
"""How often the files are looked at."""

RETRY_SECONDS = 10.0
"""How long a journal that was refused and hasn't changed is left alone."""

CHUNK = 1 << 18
"""How many bytes are read at once."""

NICENESS = 10
"""The priority of the processes that judge beside the service, which is to have the processor first."""

WAITING, READING, FOLLOWING, REFUSED = "waiting", "reading", "following", "refused"
"""The phases: the journal isn't there; it is read from its beginning; it was read, and what comes is taken; it can't be followed."""


@dataclass
class View:
    """What is known of the journal. It is looked at and changed under the follower's lock alone."""

    phase: str = WAITING
    reason: str = ""
    """Why the journal is waited for or refused."""
    tally: Optional[Tally] = None
    """The counts of a journal that was read to its end once; None before."""
    coming: Optional[Tally] = None
    """The counts of one that is being read."""
    extent: Extent = Extent(0, 0, 1, None)
    """What the files hold."""
    is_open: Optional[bool] = None
    """Whether a server takes reports; None where that can't be known."""
    header: Optional[Header] = None
    events: Optional[Tuple[str, ...]] = None
    """The events of the script; None where they aren't known."""
    next: Optional[Next] = None
    next_reason: str = ""
    """Why what comes next isn't known."""
    since: float = 0.0
    """Since when what comes is seen to come, in seconds since 1970."""
    revision: int = 0
    """Grows with each change."""

    def best(self) -> Optional[Tally]:
        """The counts to show: of the whole journal, or else as far as it was read."""
        return self.tally or self.coming


class Ended(Exception):
    """`show` has ended, or what it prints can't be read: this is why."""


class Follower(threading.Thread):
    """Follows a journal until it is stopped. `say` is told what becomes of it, a line at a time, and `changed` that there is
    something new to see; both are called from the thread."""

    def __init__(
        self,
        path: str,
        program: Program,
        log: Optional[str] = None,
        asks: bool = False,
        say: Callable[[str], None] = lambda line: None,
        changed: Callable[[], None] = lambda: None,
    ) -> None:
        super().__init__(name="follower", daemon=True)
        self.path, self.program, self.asks, self.say, self.changed = path, program, asks, say, changed
        self.lock = threading.Lock()
        self.view = View()
        self.log = ServiceLog(log) if log is not None else None
        self.files = Files(path)
        self.show: Optional[subprocess.Popen[bytes]] = None
        self.asker: Optional[Asker] = None
        self.script: Optional[int] = None
        """The script of the journal, as a file in memory: nothing is written to a disk."""
        self.errors: Optional[int] = None
        """What `show` writes on standard error, as another."""
        self.is_told = True
        """Whether the view has what comes next after the newest entry."""
        self.stopping = threading.Event()

    def stop(self) -> None:
        """Ends the thread and the processes that it has started."""
        self.stopping.set()
        if self.is_alive():
            self.join()

    def run(self) -> None:
        while not self.stopping.is_set():
            try:
                if self.begin():
                    self.follow()
                else:
                    self.stopping.wait(LOOK_SECONDS)
            except Ended as end:
                self.close()
                if not self.refuse(str(end)):
                    self.wait_for_change(stamp_of(self.path))
            except OSError as error:
                # Too many descriptors, or no process: what is missing now may be there later.
                self.close()
                self.refuse("%s: %s" % (error.filename or self.path, error.strerror))
                self.stopping.wait(LOOK_SECONDS)
        self.close()

    def begin(self) -> bool:
        """Starts to read the journal from its beginning. Answers whether it is there."""
        self.files = Files(self.path)
        try:
            extent = self.files.look()
        except OSError as error:
            self.wait_for_journal(error.strerror or "cannot read")
            return False
        if extent.bytes == 0:
            self.wait_for_journal("it is empty")
            return False
        with self.lock:
            self.view.coming, self.view.extent, self.view.header = Tally(), extent, self.files.header()
            if self.view.phase != REFUSED:
                self.view.phase, self.view.reason = READING, ""
        self.start_show()
        self.know_script()
        self.look()
        return True

    def start_show(self) -> None:
        words = [self.program.path, "show", "--follow", "--format", "json", "--", self.path]
        # Its words are few, and are read once it has ended.
        self.errors = os.memfd_create("errors", os.MFD_CLOEXEC)
        self.show = subprocess.Popen(words, stdin=subprocess.DEVNULL, stdout=subprocess.PIPE, stderr=self.errors)
        make_nice(self.show)

    def know_script(self) -> None:
        """Learns the events of the journal's script, and begins to ask what comes next where that is wanted."""
        header = self.files.header()
        events, reason, asker = None, "", None
        if header is None:
            reason = "the journal has no header"
        else:
            self.script = os.memfd_create("script", os.MFD_CLOEXEC)
            os.write(self.script, header.script)
            script, process = "/proc/%d/fd/%d" % (os.getpid(), self.script), os.fsdecode(header.root)
            try:
                events = events_of(self.program, Specification(script, process, header.is_large))
                asker = Asker(self.program.path, script, process) if self.asks else None
            except (ProgramFault, Unknown, ValueError) as fault:
                reason = str(fault)
        if asker is not None:
            make_nice(asker.check)
        self.asker, self.is_told = asker, asker is None
        with self.lock:
            self.view.events, self.view.next, self.view.next_reason = events, None, reason

    def follow(self) -> None:
        """Takes what `show` prints until the end is asked for. `Ended` where it prints no more."""
        assert self.show is not None
        come = stream(self.show.stdout).fileno()
        target, rest, looked = self.view.extent.records, b"", time.monotonic()
        self.reach(target)
        while not self.stopping.is_set():
            asks = not self.is_told and self.view.coming is None
            if select.select([come], [], [], 0 if asks else LOOK_SECONDS)[0]:
                data = os.read(come, CHUNK)
                if not data:
                    raise Ended(self.reason())
                whole, end, rest = (rest + data).rpartition(b"\n")
                self.take(whole + end)
                self.reach(target)
            elif asks:
                self.ask()
            if time.monotonic() - looked >= LOOK_SECONDS:
                self.look()
                looked = time.monotonic()

    def take(self, lines: bytes) -> None:
        """Counts lines of `show`."""
        with self.lock:
            tally, is_new = self.view.coming or self.view.tally, self.view.coming is None
            assert tally is not None
            try:
                accepted = tally.take(lines, time.time() if is_new else None)
            except (Wrong, ValueError) as wrong:
                raise Ended("what `show` prints can't be read: %s" % wrong) from None
            is_ahead = is_new and tally.total > self.view.extent.records
            self.view.revision += 1
        if is_ahead:
            self.look()
        if self.asker is not None:
            try:
                self.asker.tell(accepted)
                self.is_told = False
            except Unknown as unknown:
                self.forget_next(str(unknown))
        self.changed()

    def ask(self) -> None:
        """Learns what comes next after the newest entry."""
        assert self.asker is not None
        try:
            found = self.asker.ask()
        except Unknown as unknown:
            self.forget_next(str(unknown))
            return
        self.is_told = True
        with self.lock:
            self.view.next, self.view.next_reason = found, ""
            self.view.revision += 1
        self.changed()

    def forget_next(self, reason: str) -> None:
        """What comes next isn't known any more."""
        if self.asker is not None:
            self.asker.close()
        self.asker, self.is_told = None, True
        with self.lock:
            self.view.next, self.view.next_reason = None, reason
            self.view.revision += 1
        self.changed()

    def reach(self, target: int) -> None:
        """Notes that the journal was read to its end, where it was."""
        with self.lock:
            view = self.view
            if view.coming is None or view.coming.total < target:
                return
            view.tally, view.coming, view.phase, view.reason, view.since = view.coming, None, FOLLOWING, "", time.time()
            view.revision += 1
            text = "%s: is followed from entry %d on" % (self.path, view.tally.total + 1)
        self.say(text)
        self.changed()

    def look(self) -> None:
        """Looks at the files, and at the log."""
        try:
            extent = self.files.look()
        except OSError:
            return
        if self.log is not None:
            self.log.look(self.lock)
        with self.lock:
            before = self.view.extent, self.view.is_open
            self.view.extent, self.view.is_open = extent, self.takes_reports()
            is_same = before == (self.view.extent, self.view.is_open)
            self.view.revision += 0 if is_same else 1
        if not is_same:
            self.changed()

    def takes_reports(self) -> Optional[bool]:
        """Whether a server takes reports, as far as its lock and its log say."""
        open_now = is_open(self.path)
        if self.log is None:
            return open_now
        if open_now is None:
            open_now = self.log.listens
        return open_now and not self.log.failed

    def reason(self) -> str:
        """Why `show` has ended."""
        assert self.show is not None and self.errors is not None
        status = self.show.wait()
        told = os.pread(self.errors, CHUNK, 0).decode("utf-8", "backslashreplace").splitlines()
        return told[-1][:500] if told else "`show` has ended with status %d" % status

    def wait_for_journal(self, reason: str) -> None:
        """Notes that the journal isn't there."""
        text = "%s: %s; waiting for it" % (self.path, reason)
        with self.lock:
            is_known = self.view.phase == WAITING and self.view.reason == text
            self.view.phase, self.view.reason, self.view.is_open = WAITING, text, self.takes_reports()
            self.view.revision += 0 if is_known else 1
        if self.log is not None:
            self.log.look(self.lock)
        if not is_known:
            self.say(text)
            self.changed()

    def refuse(self, reason: str) -> bool:
        """Notes why the journal isn't followed any more. Another journal has other counts; else what was counted stays. Answers whether
        it is another one."""
        is_another = reason.endswith("is another journal now")
        with self.lock:
            is_known = self.view.phase == REFUSED and self.view.reason == reason
            self.view.phase, self.view.reason, self.view.coming = REFUSED, reason, None
            self.view.next, self.view.next_reason = None, reason
            if is_another:
                self.view.tally = None
            self.view.revision += 1
        if not is_known:
            self.say(reason)
        self.changed()
        return is_another

    def wait_for_change(self, stamp: object) -> None:
        """Waits until the file isn't any more what it was, for some seconds at most."""
        if stamp is None:
            return
        ending = time.monotonic() + RETRY_SECONDS
        while time.monotonic() < ending and not self.stopping.wait(LOOK_SECONDS):
            if stamp_of(self.path) != stamp:
                return

    def close(self) -> None:
        """Ends the processes, and forgets the script."""
        if self.show is not None:
            self.show.kill()
            self.show.wait()
            stream(self.show.stdout).close()
        if self.asker is not None:
            self.asker.close()
        for file in (self.script, self.errors):
            if file is not None:
                os.close(file)
        self.show = self.asker = self.script = self.errors = None
        self.is_told = True


def make_nice(process: subprocess.Popen[bytes]) -> None:
    """Gives a process a lower priority, so that it takes little from the service."""
    try:
        os.setpriority(os.PRIO_PROCESS, process.pid, NICENESS)
    except OSError:
        pass
