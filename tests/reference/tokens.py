"""From the bytes of a script to its tokens."""

from dataclasses import dataclass

from .faults import BYTE, LARGE, RANGE, TOKEN, UNSUPPORTED, Column, ScriptFault

LARGEST_TEXT = 65_536
LARGEST_NUMBER = 1_000_000

WORDS = frozenset("channel datatype STOP SKIP Events union inter diff if then else and or not true false".split())
REFUSED_WORDS = frozenset("let within nametype subtype include transparent external module print".split())
REFUSED_SIGNS = frozenset(["[>", "|>", "<->", "/", "_"])
SIGNS = sorted(
    "-> <- [] |~| ||| ; /\\ \\ [| |] [ || ] [[ ]] { } {| |} ( ) .. . ? ! , : = | @ & + - * % == != < <= > >=".split() + list(REFUSED_SIGNS),
    key=len, reverse=True)

LETTERS = frozenset(b"abcdefghijklmnopqrstuvwxyzABCDEFGHIJKLMNOPQRSTUVWXYZ")
DIGITS = frozenset(b"0123456789")
IN_NAMES = LETTERS | DIGITS | frozenset(b"_")
BLANKS = frozenset(b" \t\r\n")
LF = 10


@dataclass(frozen=True)
class Token:
    """A token: `kind` is "name", "number", "end", or the word or sign itself. A number has its value. Of a phrase by
    itself the line is a column."""

    kind: str
    line: int
    text: str = ""
    value: int = 0


class Scanner:
    """Reads tokens from the left; the first fault is raised. Places are lines, or columns."""

    def __init__(self, text: bytes, by_columns: bool) -> None:
        self.text = text
        self.by_columns = by_columns
        self.at = 0
        self.lines = 1

    @property
    def line(self) -> int:
        return Column(self.at + 1) if self.by_columns else self.lines

    def tokens(self) -> list[Token]:
        """All tokens, the last of which is the end."""
        found = []
        self.skip_blanks()
        while self.at < len(self.text):
            token = self.token()
            if token is not None:
                found.append(token)
            self.skip_blanks()
        found.append(Token("end", Column(1 + len(self.text)) if self.by_columns else 1 + self.text.count(b"\n")))
        return found

    def skip_blanks(self) -> None:
        while self.at < len(self.text):
            if self.text[self.at] in BLANKS:
                self.step()
            elif self.text.startswith(b"--", self.at):
                self.skip_line()
            elif self.text.startswith(b"{-", self.at):
                self.skip_block()
            else:
                return

    def step(self) -> None:
        self.lines += self.text[self.at] == LF
        self.at += 1

    def skip_line(self) -> None:
        end = self.text.find(b"\n", self.at)
        self.at = len(self.text) if end < 0 else end

    def skip_block(self) -> None:
        began, depth = self.line, 0
        while self.at < len(self.text):
            if self.text.startswith(b"{-", self.at):
                depth += 1
                self.at += 2
            elif self.text.startswith(b"-}", self.at):
                depth -= 1
                self.at += 2
            else:
                self.step()
            if depth == 0:
                return
        raise ScriptFault(began, TOKEN)

    def token(self) -> Token | None:
        """The longest token here; None for an `assert`, which is blank with the rest of its line."""
        first = self.text[self.at]
        if first in LETTERS:
            return self.word()
        if first in DIGITS:
            return self.number()
        for sign in SIGNS:
            if self.text.startswith(sign.encode(), self.at):
                if sign in REFUSED_SIGNS:
                    raise ScriptFault(self.line, UNSUPPORTED)
                token = Token(sign, self.line)
                self.at += len(sign)
                return token
        raise ScriptFault(self.line, BYTE if first < 32 or first >= 127 else TOKEN)

    def word(self) -> Token | None:
        end = self.at
        while end < len(self.text) and self.text[end] in IN_NAMES:
            end += 1
        while end < len(self.text) and self.text[end] == ord("'"):
            end += 1
        name = self.text[self.at:end].decode("ascii")
        if name == "assert":
            self.skip_line()
            return None
        if name in REFUSED_WORDS:
            raise ScriptFault(self.line, UNSUPPORTED)
        token = Token(name, self.line) if name in WORDS else Token("name", self.line, name)
        self.at = end
        return token

    def number(self) -> Token:
        end = self.at
        while end < len(self.text) and self.text[end] in DIGITS:
            end += 1
        digits = self.text[self.at:end].lstrip(b"0") or b"0"
        if len(digits) > len(str(LARGEST_NUMBER)) or int(digits) > LARGEST_NUMBER:
            raise ScriptFault(self.line, RANGE)
        token = Token("number", self.line, value=int(digits))
        self.at = end
        return token


def scan(text: bytes, by_columns: bool = False) -> list[Token]:
    """The tokens of a text of at most 65,536 bytes, with their lines, or with columns."""
    if len(text) > LARGEST_TEXT:
        raise ScriptFault(Column(1) if by_columns else 1, LARGE)
    return Scanner(text, by_columns).tokens()
