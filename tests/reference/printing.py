"""A specification as the text of a script."""

from __future__ import annotations

from .alphabet import Alphabet, Values, members
from .terms import Relation, Spec, Term

OPERATORS = {"external": "[]", "internal": "|~|", "sequence": ";", "interrupt": "/\\"}


def primed(names: list[str], taken: set[str]) -> str:
    """The least number of primes that makes all these names differ from those that are taken."""
    primes = ""
    while any(name + primes in taken for name in names):
        primes += "'"
    return primes


def printed_values(values: Values) -> str:
    text = ", ".join(str(value) for value in values)
    return "{ " + text + "}" if text.startswith("-") else "{" + text + "}"


class Printer:
    def __init__(self, spec: Spec) -> None:
        self.spec = spec
        self.alphabet: Alphabet = spec.alphabet
        self.constants = sorted({value for channel in self.alphabet.channels.values() for values in channel.fields
                                 for value in values if isinstance(value, str)})
        self.taken = set(self.alphabet.channels) | set(self.constants)
        self.primes = primed([f"P{number}" for number in range(len(spec.bodies))], self.taken)
        self.texts: dict[Term, str] = {}

    def lines(self) -> list[str]:
        lines = []
        if self.constants:
            lines.append(f"datatype T{primed(['T'], self.taken)} = " + " | ".join(self.constants))
        for channel in self.alphabet.channels.values():
            fields = ".".join(printed_values(values) for values in channel.fields)
            lines.append(f"channel {channel.name}" + (f" : {fields}" if channel.fields else ""))
        for number, body in enumerate(self.spec.bodies):
            lines.append(f"P{number}{self.primes} = {self.text(body)}")
        return lines

    def text(self, term: Term) -> str:
        if term not in self.texts:
            self.texts[term] = self.made(term)
        return self.texts[term]

    def made(self, term: Term) -> str:
        form = term.form
        if form in ("stop", "skip"):
            return form.upper()
        if form == "name":
            return f"P{term.number}{self.primes}"
        parts = [self.text(part) for part in term.parts]
        if form == "prefix":
            return f"({self.alphabet.text(term.event)} -> {parts[0]})"
        if form == "parallel":
            return f"({parts[0]} [| {self.set(term.events)} |] {parts[1]})"
        if form == "hiding":
            return f"({parts[0]} \\ {self.set(term.events)})"
        if form == "renaming":
            return f"({parts[0]} [[{self.pairs(term.pairs)}]])"
        return f"({parts[0]} {OPERATORS[form]} {parts[1]})"

    def set(self, mask: int) -> str:
        return "{" + ", ".join(self.alphabet.text(event) for event in members(mask)) + "}"

    def pairs(self, pairs: Relation) -> str:
        return ", ".join(f"{self.alphabet.text(left)} <- {self.alphabet.text(right)}" for left, right in pairs)


def printed(spec: Spec) -> str:
    """The text of a specification: a line, ended by LF, for the constants, each channel and each body."""
    return "".join(line + "\n" for line in Printer(spec).lines())
