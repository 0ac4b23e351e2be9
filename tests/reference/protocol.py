"""Lines and their replies."""

from __future__ import annotations

from .faults import LINE_WORDS, JudgeFault
from .session import Session

LONGEST_LINE = 4_096
COMMAND, EVENT, LINE = 10, 11, 12


def error(code: int) -> str:
    return f"ERR {code} {LINE_WORDS[code]}"


class Conversation:
    """One connection: a seat of a session. `outcomes` has the number of each `ERR`, and "rejected" for a rejected report."""

    def __init__(self, session: Session, seat: int = 1) -> None:
        self.session = session
        self.seat = seat
        self.ended = False
        self.outcomes: set[int | str] = set()

    def replies(self, data: bytes) -> list[str]:
        """The replies to all lines of some input, up to the one that ends the connection."""
        found: list[str] = []
        while not self.ended:
            end = data.find(b"\n")
            if (end if end >= 0 else len(data)) > LONGEST_LINE:
                self.ended = True
                found.append(self.failed(LINE))
            elif end < 0:
                break
            else:
                found.append(self.reply(data[:end]))
                data = data[end + 1:]
        return found

    def failed(self, code: int) -> str:
        self.outcomes.add(code)
        return error(code)

    def reply(self, line: bytes) -> str:
        alphabet = self.session.spec.alphabet
        if line == b"Q":
            self.ended = True
            return "BYE"
        if line == b"S":
            return self.session.summary()
        if line == b"N":
            return " ".join(["N"] + alphabet.listed(self.session.judge.possible()))
        if line.startswith(b"E "):
            return self.report("E", [line[2:]])
        if line == b"R" or line.startswith(b"R "):
            return self.report("R", line.split(b" ")[1:])
        return self.failed(COMMAND)

    def report(self, kind: str, names: list[bytes]) -> str:
        mask = 0
        for name in names:
            event = self.session.spec.alphabet.named(name.decode("latin-1"))
            if event is None:
                return self.failed(EVENT)
            mask |= 1 << event
        try:
            verdict = self.session.report(self.seat, kind, mask).verdict
        except JudgeFault as fault:
            self.outcomes.add(fault.code)
            return f"ERR {fault}"
        if not verdict:
            self.outcomes.add("rejected")
        return f"{'OK' if verdict else 'NO'} {len(self.session.history)}"
