"""What judges: runs of `cspwatch check`, one for each history."""
from __future__ import annotations

import subprocess
from typing import IO, List, Optional, Sequence, Tuple

from ..logs.links import EXPLAINED
from ..logs.maps import Specification
from ..logs.program import SECONDS, Program, ProgramFault
from ..replies import next_of, raise_fault, verdict_of

Next = Tuple[str, ...]

NEXT = "N"
"""Asks what may come next."""

OTHER_STATUS = 5
"""What the run ends with where `check` ends by something else than a status of its own."""


class Judge:
    """One history. Several lines are sent in one turn, and it is begun before it is needed."""

    def __init__(self, words: Sequence[str]) -> None:
        # In a session of its own a key that interrupts the terminal doesn't reach it.
        self._process = subprocess.Popen(
            words, stdin=subprocess.PIPE, stdout=subprocess.PIPE, stderr=subprocess.PIPE, start_new_session=True
        )

    def answers(self, reports: Sequence[str]) -> Tuple[List[bytes], Next]:
        """Sends these reports and a question in one turn: the reply to each report, and what may come after them."""
        to, come = stream(self._process.stdin), stream(self._process.stdout)
        try:
            to.write("".join(report + "\n" for report in (*reports, NEXT)).encode("utf-8"))
            to.flush()
            replies = [come.readline() for _ in range(len(reports) + 1)]
        except BrokenPipeError:
            replies = [b""]
        if not all(reply.endswith(b"\n") for reply in replies):
            raise self._ended()
        *verdicts, offers = (reply[:-1] for reply in replies)
        raise_fault(offers)
        return verdicts, next_of(offers)

    def _ended(self) -> ProgramFault:
        told = stream(self._process.stderr).read().decode("utf-8", "replace").strip()
        status = self._process.wait()
        return ProgramFault(told or "cspwatch check ended with status %d" % status, status if status in (3, 6) else OTHER_STATUS)

    def close(self) -> None:
        """Ends the history."""
        for end in (self._process.stdin, self._process.stdout, self._process.stderr):
            try:
                stream(end).close()
            except BrokenPipeError:
                pass
        self._process.wait()


def is_accepted(reply: bytes) -> bool:
    """Whether the report with this reply was accepted. `Fault` where it couldn't be judged."""
    raise_fault(reply)
    return verdict_of(reply).accepted


class Judges:
    """Begins one history after the other. The next one is begun while the last is in use."""

    def __init__(self, program: Program, specification: Specification) -> None:
        self.specification = specification
        options = ["--large"] if specification.large else []
        self._words = [program.path, "check", *options, specification.script, specification.process]
        self._explaining = program.check(specification) if program.explains else None
        self._ahead: Optional[Judge] = None

    def begin(self) -> Judge:
        """A new history."""
        judge = self._ahead or Judge(self._words)
        self._ahead = Judge(self._words)
        return judge

    def reason(self, reports: Sequence[str]) -> str:
        """Why the last of these reports is rejected, after the others; empty where the program doesn't say why."""
        if self._explaining is None:
            return ""
        given = "".join(report + "\n" for report in reports).encode("utf-8")
        done = subprocess.run(self._explaining, input=given, stdout=subprocess.DEVNULL, stderr=subprocess.PIPE, timeout=SECONDS)
        for line in reversed(done.stderr.decode("utf-8", "replace").splitlines()):
            found = EXPLAINED.fullmatch(line)
            if found is not None and int(found[1]) == len(reports):
                return found[2]
        return ""

    def close(self) -> None:
        """Ends the history that was begun ahead."""
        if self._ahead is not None:
            self._ahead.close()
            self._ahead = None


def stream(end: Optional[IO[bytes]]) -> IO[bytes]:
    assert end is not None
    return end
