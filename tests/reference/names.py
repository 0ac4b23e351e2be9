"""What the names of a script are."""

from __future__ import annotations

from dataclasses import dataclass

from .faults import REDECLARED, UNKNOWN, UNSUPPORTED, ScriptFault
from .trees import Tree

OF_CSPM = frozenset("CHAOS RUN DIV WAIT Int Bool Char Proc".split())
"""Names that mean something in CSPM, and nothing here."""


@dataclass(frozen=True)
class Definition:
    name: str
    line: int
    body: Tree
    parameters: tuple[str, ...] | None = None


@dataclass
class Names:
    """What each name of a script is declared as."""

    channels: dict[str, Tree | None]
    datatypes: dict[str, frozenset[int | str]]
    constants: frozenset[str]
    definitions: dict[str, Definition]

    def is_declared(self, name: str) -> bool:
        return name in self.channels or name in self.datatypes or name in self.constants or name in self.definitions

    def need(self, name: str, line: int) -> None:
        """Raises the fault of a name that isn't declared."""
        if not self.is_declared(name):
            raise ScriptFault(line, UNSUPPORTED if name in OF_CSPM else UNKNOWN)

    def plain(self, name: str) -> Definition | None:
        """The definition of a name without parameters."""
        found = self.definitions.get(name)
        return found if found is not None and found.parameters is None else None

    def family(self, name: str) -> Definition | None:
        """The definition of a name with parameters."""
        found = self.definitions.get(name)
        return found if found is not None and found.parameters is not None else None


def declared_names(script: Tree) -> list[Tree]:
    """The names that a script declares, in the order of the text."""
    names: list[Tree] = []
    for declaration in script.parts:
        first = declaration.parts[0]
        names += first.parts if first.form == "Names" else [first]
        if declaration.form == "Datatype":
            names += declaration.parts[1].parts
    return names


def names_of(script: Tree) -> Names:
    """The names of a script; one that is declared twice, and a parameter that is wrong, are faults."""
    names = Names({}, {}, frozenset(), {})
    constants = [constant for one in script.parts if one.form == "Datatype" for constant in one.parts[1].parts]
    names.constants = frozenset(constant.text for constant in constants)
    check_order(script, names.constants)
    for declaration in script.parts:
        first = declaration.parts[0]
        if first.form == "Names":
            sets = declaration.parts[1] if len(declaration.parts) > 1 else None
            names.channels.update((name.text, sets) for name in first.parts)
        elif declaration.form == "Datatype":
            names.datatypes[first.text] = frozenset(constant.text for constant in declaration.parts[1].parts)
        else:
            parameters = None if len(declaration.parts) == 2 else tuple(one.text for one in declaration.parts[1].parts)
            names.definitions[first.text] = Definition(first.text, first.line, declaration.parts[-1], parameters)
    return names


def check_order(script: Tree, constants: frozenset[str]) -> None:
    """Looks for the first name that is declared again, or parameter that is wrong, in the order of the text."""
    seen: set[str] = set()
    for declaration in script.parts:
        for name in declared_names(Tree("Script", 1, (declaration,))):
            if name.text in seen:
                raise ScriptFault(name.line, REDECLARED)
            seen.add(name.text)
        if declaration.form == "DefinitionWithParameters":
            given: set[str] = set()
            for parameter in declaration.parts[1].parts:
                if parameter.text in given:
                    raise ScriptFault(parameter.line, REDECLARED)
                if parameter.text in constants:
                    raise ScriptFault(parameter.line, UNSUPPORTED)
                given.add(parameter.text)
