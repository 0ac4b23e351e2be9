"""Texts with fields, such as `connack.{client}`."""
from __future__ import annotations

import re
from typing import Callable, Mapping, Optional, Tuple

PIECE = re.compile(r"\{\{|\}\}|\{([A-Za-z_][A-Za-z0-9_]*)\}|[{}]")
"""A double brace, which is a single one of the text, a field, or a brace that is wrong."""


class Template:
    """A text with fields in braces; a double brace is a brace of the text."""

    def __init__(self, source: str) -> None:
        """Reads the template. A brace that opens or closes no field raises `ValueError`."""
        literals, fields, at, literal = [], [], 0, ""
        for piece in PIECE.finditer(source):
            literal += source[at : piece.start()]
            at = piece.end()
            if piece[1] is not None:
                literals.append(literal)
                fields.append(piece[1])
                literal = ""
            elif piece[0] in ("{{", "}}"):
                literal += piece[0][0]
            else:
                raise ValueError("the brace at %d belongs to no field; a field is {name}, a brace is doubled" % (piece.start() + 1))
        self.source = source
        """The template as it was written."""
        self.fields: Tuple[str, ...] = tuple(fields)
        """The names of its fields, in their order."""
        self.literals: Tuple[str, ...] = tuple(literals + [literal + source[at:]])
        """What stands before each field, and after the last."""

    def filled(self, value_of: Callable[[str], str]) -> str:
        """The text, with each field replaced by its value."""
        text = self.literals[0]
        for field, literal in zip(self.fields, self.literals[1:]):
            text += value_of(field) + literal
        return text

    def filled_from(self, values: Mapping[str, Optional[str]]) -> Optional[str]:
        """The text with these values; None where one of them is missing."""
        found = [values.get(field) for field in self.fields]
        if None in found:
            return None
        return self.filled(lambda field: str(values[field]))

    def pattern(self, form_of: Callable[[str], str]) -> re.Pattern[str]:
        """A regular expression for the texts that the template can be, where a field is of the form that is given for it."""
        text = re.escape(self.literals[0])
        for field, literal in zip(self.fields, self.literals[1:]):
            text += "(?:%s)%s" % (form_of(field), re.escape(literal))
        return re.compile(text)

    def may_equal(self, other: Template) -> bool:
        """Whether both can be the same text. It errs on the side of yes where both have fields."""
        if not other.fields:
            return self.pattern(lambda _: ".*").fullmatch(other.literals[0]) is not None
        if not self.fields:
            return other.may_equal(self)
        front, back = (self.literals[0], other.literals[0]), (self.literals[-1], other.literals[-1])
        return (front[0].startswith(front[1]) or front[1].startswith(front[0])) and (
            back[0].endswith(back[1]) or back[1].endswith(back[0])
        )
