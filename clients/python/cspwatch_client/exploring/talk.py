"""What is said at the prompt, and what is answered."""
from __future__ import annotations

import textwrap
from dataclasses import dataclass
from typing import Callable, Dict, List, Optional, Sequence, Tuple

from ..logs.showing import printable
from ..replies import Fault
from .machine import NotPossible, State, Trace, Unknown, report_lines
from .searching import MOST_STEPS, STEPS, Found, may_be_refused, may_come, nearest
from .walk import Walk

REJECTED = 1
"""The status after an event that may not come."""

BAD_USE = 2
"""The status after a line that says nothing."""

FILE_FAILED = 5
"""The status after a file that couldn't be written."""

LIMIT = 6
"""The status after a limit was met."""

PLAIN_WIDTH = 0
"""The width where lines aren't broken."""


class Misunderstood(Exception):
    """A line that says nothing that can be done."""


@dataclass(frozen=True)
class Command:
    """A word of the prompt."""

    words: str
    """The word, and what comes after it."""

    says: str
    """What it does, for the help."""

    do: Callable[[Talk, Sequence[str]], str]
    """Does it, and answers what to print."""


class Talk:
    """A walk that is told by lines, and answers by text."""

    def __init__(self, walk: Walk, width: int = PLAIN_WIDTH) -> None:
        """walk -- where it begins; width -- how many columns a line may have, or `PLAIN_WIDTH`."""
        self.walk = walk
        self.width = width
        self.ended = False
        """Whether `quit` was said."""
        self.status = 0
        """The first of the statuses that something asked for, or 0."""
        self._way: Optional[Trace] = None

    def here(self) -> str:
        """Where the walk stands: the trace, what may come, and what must."""
        state = self.walk.state
        may = "  ".join("%d %s" % (number, name) for number, name in enumerate(state.may, 1))
        return "\n".join(
            [self._laid("after", " ".join(self.walk.trace) or "nothing"), self._laid("may come", may or "nothing"), self._laid("must come", must_text(state))]
        )

    def say(self, line: str) -> str:
        """Does what a line says, and answers what to print. A line that can't be done says why, and changes nothing."""
        words = line.split()
        if not words:
            return ""
        try:
            command = COMMANDS.get(words[0])
            return command.do(self, words[1:]) if command is not None else self._take(words)
        except (Misunderstood, Unknown) as fault:
            return self._failed(str(fault), BAD_USE)
        except NotPossible as fault:
            return self._failed(str(fault), REJECTED)
        except Fault as fault:
            return self._failed("a limit was met: %s" % fault, LIMIT)
        except OSError as fault:
            return self._failed("%s: %s" % (fault.filename, fault.strerror), FILE_FAILED)

    def _failed(self, text: str, status: int) -> str:
        self.status = self.status or status
        return printable(text)

    def _laid(self, head: str, text: str) -> str:
        line = "%-10s %s" % (head + ":", text)
        if self.width == PLAIN_WIDTH:
            return line
        return textwrap.fill(line, self.width, subsequent_indent=" " * 11, break_long_words=False, break_on_hyphens=False)

    def _take(self, words: Sequence[str]) -> str:
        for word in words:
            self.walk.take(self._event(word))
        return self.here()

    def _event(self, word: str) -> str:
        """The event that a number or a name means here."""
        may = self.walk.state.may
        if word.isascii() and word.isdigit():
            number = int(word)
            if not 1 <= number <= len(may):
                raise Misunderstood("there is no number %d here: %s" % (number, "1 to %d" % len(may) if may else "nothing may come"))
            return may[number - 1]
        if word not in may:
            self.walk.machine.check(word)
        return word

    def undo(self, words: Sequence[str]) -> str:
        steps = number_of(words, 1)
        if not self.walk.undo(steps):
            raise Misunderstood("there are not so many moves to take back")
        return self.here()

    def mark(self, words: Sequence[str]) -> str:
        self.walk.mark(one_of(words, "a name"))
        return ""

    def back(self, words: Sequence[str]) -> str:
        name = one_of(words, "the name of a mark")
        if not self.walk.back(name):
            raise Misunderstood("there is no mark '%s'; `marks` names them" % name)
        return self.here()

    def marks(self, words: Sequence[str]) -> str:
        none_of(words)
        return "\n".join("%s: %s" % (name, " ".join(trace) or "nothing") for name, trace in self.walk.marks) or "no marks"

    def find(self, words: Sequence[str]) -> str:
        event, steps = self._event_and_steps(words)
        found = nearest(self.walk.machine, self.walk.trace, may_come(self.walk.machine, event), steps)
        return self._told(found, steps, "%s may come" % event)

    def refusal(self, words: Sequence[str]) -> str:
        event, steps = self._event_and_steps(words)
        found = nearest(self.walk.machine, self.walk.trace, may_be_refused(self.walk.machine, event), steps)
        return self._told(found, steps, "%s may be refused" % event)

    def _event_and_steps(self, words: Sequence[str]) -> Tuple[str, int]:
        """An event, and how many steps ahead to look."""
        if not words:
            raise Misunderstood("say an event")
        steps = number_of(words[1:], STEPS)
        if steps > MOST_STEPS:
            raise Misunderstood("at most %d steps are looked ahead" % MOST_STEPS)
        return self._event(words[0]), steps

    def _told(self, found: Found, steps: int, what: str) -> str:
        behind = "; %d traces met a limit" % found.limits if found.limits else ""
        if found.trace is None:
            self._way = None
            until = " in the time that a search has" if found.is_out_of_time else ""
            depth = max(found.depth, 0) if found.is_out_of_time else steps
            return "not found%s: %d traces of up to %d steps were looked at%s" % (until, found.looked, depth, behind)
        self._way = found.trace
        if not found.trace:
            return "%s here" % what
        return "%s after: %s%s\n`go` goes there" % (what, " ".join(found.trace), behind)

    def go(self, words: Sequence[str]) -> str:
        none_of(words)
        if self._way is None:
            raise Misunderstood("nothing was found to go to")
        self.walk.go(self.walk.trace + self._way)
        self._way = None
        return self.here()

    def refuses(self, words: Sequence[str]) -> str:
        events = [self._event(word) for word in words]
        is_refused = self.walk.machine.refuses(self.walk.trace, events)
        return "these may be refused together" if is_refused else "these can't all be refused"

    def lines(self, words: Sequence[str]) -> str:
        none_of(words)
        return "\n".join(report_lines(self.walk.trace))

    def save(self, words: Sequence[str]) -> str:
        path = one_of(words, "a file")
        with open(path, "x", encoding="utf-8") as file:
            file.write("".join(line + "\n" for line in report_lines(self.walk.trace)))
        return "%d lines for `cspwatch check` in %s" % (len(self.walk.trace), path)

    def restart(self, words: Sequence[str]) -> str:
        none_of(words)
        self.walk.go(())
        return self.here()

    def look(self, words: Sequence[str]) -> str:
        none_of(words)
        return self.here()

    def help(self, words: Sequence[str]) -> str:
        none_of(words)
        rows = [("NUMBER or EVENT ..", "these events come, one after the other")]
        rows += [(command.words, command.says) for command in COMMANDS.values()]
        return "\n".join("%-22s %s" % row for row in rows)

    def quit(self, words: Sequence[str]) -> str:
        none_of(words)
        self.ended = True
        return ""


def must_text(state: State) -> str:
    """What must come, as a line."""
    if state.must is None:
        return "not asked: the names of what may come are longer than a line"
    if not state.must:
        return "nothing: it never comes to rest"
    if state.must == (frozenset(),):
        return "nothing: everything may be refused"
    sets = [" ".join(name for name in state.may if name in one) for one in state.must]
    return ", or ".join(sets) + (", or others" if state.is_cut else "")


def one_of(words: Sequence[str], what: str) -> str:
    """The one word."""
    if len(words) != 1:
        raise Misunderstood("say %s" % what)
    return words[0]


def none_of(words: Sequence[str]) -> None:
    """Finds words that are too many."""
    if words:
        raise Misunderstood("nothing goes after this word; `help` names what can be said")


def number_of(words: Sequence[str], default: int) -> int:
    """The number that is said, if any."""
    if not words:
        return default
    word = one_of(words, "one number")
    if not (word.isascii() and word.isdigit()) or int(word) == 0:
        raise Misunderstood("'%s' is no number from 1 on" % word)
    return int(word)


def completions(talk: Talk) -> List[str]:
    """What can be said here."""
    return [*talk.walk.state.may, *COMMANDS]


COMMANDS: Dict[str, Command] = {
    "take": Command("take EVENT ..", "the same, for an event that is named as a word of this list", Talk._take),
    "undo": Command("undo [N]", "takes back the last move, or the last N", Talk.undo),
    "mark": Command("mark NAME", "gives this place a name", Talk.mark),
    "back": Command("back NAME", "goes to the place with this name", Talk.back),
    "marks": Command("marks", "names the marks", Talk.marks),
    "find": Command("find EVENT [N]", "a shortest way, of N steps at most (%d), to where it may come" % STEPS, Talk.find),
    "refuse": Command("refuse EVENT [N]", "a shortest way to where it may be refused", Talk.refusal),
    "go": Command("go", "goes the way that was found", Talk.go),
    "refuses": Command("refuses EVENT ..", "whether these may be refused together here", Talk.refuses),
    "trace": Command("trace", "prints the trace as lines for `cspwatch check`", Talk.lines),
    "save": Command("save FILE", "writes these lines to a new file", Talk.save),
    "restart": Command("restart", "goes to the beginning", Talk.restart),
    "look": Command("look", "says again where you are", Talk.look),
    "help": Command("help", "prints this list", Talk.help),
    "quit": Command("quit", "ends (so does the end of the input)", Talk.quit),
}
"""What can be said beside events."""
