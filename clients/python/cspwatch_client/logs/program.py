"""What the program `cspwatch` can do, and which events a script has."""
from __future__ import annotations

import itertools
import re
import subprocess
from dataclasses import dataclass
from typing import Dict, List, Optional, Sequence, Tuple

from ..running import REFUSED, explaining
from .maps import Map, Specification
from .showing import printable
from .templates import Template

TERMINATION = "_tick"

CHANNEL = re.compile(r"channel (\S+)(?: : (.*))?")
"""A line of a channel, as `print` writes it."""

FIELD = re.compile(r"\{([^}]*)\}")
"""The values of a field."""

SECONDS = 60
"""How long the program may take to answer a question about itself or the script."""


class ProgramFault(Exception):
    """The program can't be started, or refuses the script. `status` is what the run ends with."""

    def __init__(self, text: str, status: int) -> None:
        super().__init__(text)
        self.status = status


@dataclass(frozen=True)
class Program:
    """A program `cspwatch`, and which of the newer options its `check` has."""

    path: str
    version: str
    explains: bool
    """Whether `check` has `--explain`."""
    is_large: bool
    """Whether `check` has `--large`."""

    def check(self, specification: Specification) -> List[str]:
        """The words that start a check."""
        options = (["--explain"] if self.explains else []) + (["--large"] if specification.large else [])
        return [self.path, "check", *options, specification.script, specification.process]


def program_at(path: str) -> Program:
    """The program, asked once for what it has. `ProgramFault` where it can't be started."""
    told = answer([path, "check", "--help"]).stdout
    version = answer([path, "--version"]).stdout.strip() or "cspwatch"
    return Program(path, version, "--explain" in told, "--large" in told)


def answer(words: Sequence[str]) -> subprocess.CompletedProcess[str]:
    """What a short run of the program prints."""
    try:
        return subprocess.run(
            words, env=explaining(), stdin=subprocess.DEVNULL, stdout=subprocess.PIPE, stderr=subprocess.PIPE, timeout=SECONDS, text=True, errors="replace"
        )
    except OSError as error:
        raise ProgramFault("%s: %s" % (printable(words[0]), error.strerror), 5) from None
    except subprocess.TimeoutExpired:
        raise ProgramFault("%s: no answer to `%s` in %d seconds" % (printable(words[0]), printable(" ".join(words[1:])), SECONDS), 5) from None


def events_of(program: Program, specification: Specification) -> Tuple[str, ...]:
    """All events of the script in the order of its alphabet, termination last. `ProgramFault` where the script is refused."""
    printed = answer([program.path, "print", specification.script, specification.process])
    if printed.returncode == REFUSED and program.explains and "\n" not in printed.stderr.strip():
        # Up to 0.6.3 `check` alone says in words what is wrong with a script.
        printed = answer(program.check(specification))
    if printed.returncode != 0:
        raise ProgramFault(printed.stderr.rstrip("\n"), printed.returncode if printed.returncode > 0 else 5)
    found: List[str] = []
    for line in printed.stdout.splitlines():
        channel = CHANNEL.fullmatch(line)
        if channel is not None:
            fields = [[value.strip() for value in field.split(",") if value.strip()] for field in FIELD.findall(channel[2] or "")]
            found += [".".join([channel[1], *values]) for values in itertools.product(*fields)]
    return tuple(found) + (TERMINATION,)


def check_events(found: Map, events: Sequence[str]) -> None:
    """Finds the rules whose events the script doesn't have, and places that it has too few events for (`MapFault`)."""
    templates = [(rule.path + (one.key,), template) for rule in found.rules for one in rule.reports for template in one.templates()]
    for path, template in templates:
        reason = missing(found, template, events)
        if reason is not None:
            raise found.fault(path, reason)
    tick = found.time.event if found.time is not None else None
    if tick is not None and tick not in events:
        raise found.fault(("time", "event"), "the script has no event %r" % tick)


def missing(found: Map, template: Template, events: Sequence[str]) -> Optional[str]:
    """Why the script doesn't have all events that the template can be; None where it may."""
    forms: Dict[str, str] = {}
    for field in template.fields:
        if field in found.places:
            forms[field] = "|".join(str(number) for number in range(found.places[field].size))
        elif field in found.names:
            forms[field] = "|".join(re.escape(value) for value in found.names[field].values()) or "(?!)"
    wanted = template.pattern(lambda field: forms.get(field, ".+"))
    fitting = [event for event in events if wanted.fullmatch(event)]
    if not fitting:
        return "the script has no event of the form %r" % template.source
    for field in (field for field in template.fields if field in found.places):
        for number in range(found.places[field].size):
            one = template.pattern(lambda other: str(number) if other == field else forms.get(other, ".+"))
            if not any(one.fullmatch(event) for event in fitting):
                return "the script has no event of the form %r for place %d of %s" % (template.source, number, field)
    return None
