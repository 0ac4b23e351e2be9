"""The faults that are reported, by number and word."""

SCRIPT_WORDS = {1: "byte", 2: "token", 3: "expected", 4: "unknown", 5: "redeclared", 6: "fields", 7: "range", 8: "events",
                9: "depth", 10: "large", 11: "unsupported", 12: "process"}
BYTE, TOKEN, EXPECTED, UNKNOWN, REDECLARED, FIELDS, RANGE, EVENTS, DEPTH, LARGE, UNSUPPORTED, PROCESS = range(1, 13)

LINE_WORDS = {10: "command", 11: "event", 12: "line"}
JUDGING_WORDS = {20: "depth", 21: "states", 23: "history"}
TOO_DEEP_STATE, TOO_MANY_STATES, HISTORY_FULL = 20, 21, 23

JOURNAL_WORDS = {50: "header", 51: "truncated", 52: "record", 53: "verdict"}
HEADER, TRUNCATED, RECORD, VERDICT = 50, 51, 52, 53


class Column(int):
    """The place of a byte in a phrase by itself, counted from 1, where of a script there is a line."""


class ScriptFault(Exception):
    """A text isn't a script, or has no such process: the line, counted from 1, and the number. A fault of a phrase by
    itself has its column in place of a line."""

    def __init__(self, line: int, code: int) -> None:
        super().__init__(line, code)
        self.line = line
        self.code = code

    def __str__(self) -> str:
        return f"{self.line}: {self.code} {SCRIPT_WORDS[self.code]}"


class JudgeFault(Exception):
    """A report can't be judged: a limit is met."""

    def __init__(self, code: int) -> None:
        super().__init__(code)
        self.code = code

    def __str__(self) -> str:
        return f"{self.code} {JUDGING_WORDS[self.code]}"


class JournalFault(Exception):
    """A file isn't a journal, or its records aren't right; the record's number where the fault has one."""

    def __init__(self, code: int, record: int = 0) -> None:
        super().__init__(code, record)
        self.code = code
        self.record = record

    def __str__(self) -> str:
        return f"{self.code} {JOURNAL_WORDS[self.code]}" + (f" {self.record}" if self.record else "")


class GivesUp(Exception):
    """This plain judge has too much to list: it has no opinion."""
