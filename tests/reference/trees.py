"""What the tree of a script is made of."""

from __future__ import annotations

from dataclasses import dataclass


OPERATORS = {
    "*": ("Times", 3), "%": ("Remainder", 3), "+": ("Plus", 4), "-": ("Minus", 4),
    "==": ("Equal", 5), "!=": ("NotEqual", 5), "<": ("Less", 5), "<=": ("LessOrEqual", 5), ">": ("Greater", 5), ">=": ("GreaterOrEqual", 5),
    "and": ("And", 7), "or": ("Or", 8), ";": ("Sequence", 10), "/\\": ("Interrupt", 11), "[]": ("ExternalChoice", 12),
    "|~|": ("InternalChoice", 13), "|||": ("Interleaving", 15), "\\": ("Hiding", 16)}
"""The operators between two phrases: the form that each makes, and its level, of which 3 is the tightest."""

OPERATIONS = frozenset([form for form, _ in OPERATORS.values()] + ["Renaming", "Prefix", "Guard", "Sharing", "Alphabetised"])


@dataclass(frozen=True, eq=False)
class Tree:
    """A phrase or a part of one.

    `form` says which: "Name" (with `text`), "Number" (with `value`), or one of the forms that `syntax` makes, with its
    `parts`. `line` is that of the first token. `height` is counted as the language's limit counts it. `open_ended` says
    that whatever can follow belongs to this phrase already, as after an `if`.
    """

    form: str
    line: int
    parts: tuple[Tree, ...] = ()
    text: str = ""
    value: int = 0
    height: int = 0
    open_ended: bool = False

    @property
    def name(self) -> str:
        """The text of the first part, which is a name."""
        return self.parts[0].text

    def is_bare_name(self) -> bool:
        return self.form == "Event" and len(self.parts) == 1

    def without_brackets(self) -> Tree:
        tree = self
        while tree.form == "Brackets":
            tree = tree.parts[0]
        return tree


def shown(tree: Tree) -> str:
    """The tree as text: a form in brackets before its parts, names as they are, numbers with `#` before them."""
    if tree.form == "Name":
        return tree.text
    if tree.form == "Number":
        return f"#{tree.value}"
    form = f"Operation({tree.form})" if tree.form in OPERATIONS else tree.form
    return "(" + " ".join([form] + [shown(part) for part in tree.parts]) + ")"


def mentions(tree: Tree, names: frozenset[str]) -> bool:
    """Whether one of the names stands anywhere in a tree."""
    todo = [tree]
    while todo:
        tree = todo.pop()
        if tree.form == "Name" and tree.text in names:
            return True
        todo.extend(tree.parts)
    return False
