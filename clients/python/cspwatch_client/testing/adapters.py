"""Adapters: how the test does inputs to the system, and sees its outputs."""
from __future__ import annotations

import importlib.machinery
import importlib.util
import inspect
import os
import re
import sys
import traceback
from dataclasses import dataclass
from functools import partial
from typing import Callable, Dict, List, Mapping, Sequence, Tuple, TypeVar, Union

from ..client import LINE_LIMIT
from ..logs.templates import Template
from .durations import seconds_of

Value = Union[int, str]
Function = TypeVar("Function", bound=Callable[..., object])

FORMS = "_cspwatch_does"
"""The attribute of a function that has the forms of the inputs which it does."""

QUIET = "200ms"
"""After how long without an output the system counts as quiet, where the adapter doesn't say."""

INTEGER = re.compile(r"-?(?:0|[1-9][0-9]*)")

TERMINATION = "_tick"


class Refused(Exception):
    """Raised by a function of an adapter where the system refuses the input: it hasn't happened."""


class AdapterFault(Exception):
    """What is wrong with an adapter, or what it raised; the text is for the user."""


def does(form: str) -> Callable[[Function], Function]:
    """Says that the function does these inputs: an event such as `coin`, or events with fields such as `put.{x}`.

    The function is called with the value of each field by its name: an integer where the script has one, else a text. It
    returns once the system has taken the input, and raises `Refused` where the system refuses it. It may be a coroutine.
    """

    def mark(function: Function) -> Function:
        setattr(function, FORMS, (*getattr(function, FORMS, ()), form))
        return function

    return mark


@dataclass(frozen=True)
class Input:
    """An event that the test can do."""

    event: str
    call: Callable[[], object]
    """Does it."""


class Adapter:
    """What an adapter says, held against the events of the script.

    `inputs` and `outputs` are the events that the test does and sees, in the order of the script.
    """

    def __init__(self, source: object, events: Sequence[str], name: str) -> None:
        """Reads the adapter; `AdapterFault` where it doesn't fit the script.

        source -- a module or another object with functions that `does` marks, `reset`, and where there are outputs
            `outputs` (names of channels), `observe` and `quiet`.
        events -- all events of the script.
        name -- what messages call it.
        """
        self.name = name
        channels = {channel_of(event) for event in events}
        self.inputs = self._inputs(source, events, channels)
        output_channels = self._output_channels(source, channels)
        both = sorted(output_channels & {channel_of(event) for event in self.inputs})
        if both:
            raise AdapterFault("%s: the channel %r is an output, and an input by does()" % (name, both[0]))
        self.outputs: Tuple[str, ...] = tuple(event for event in events if channel_of(event) in output_channels)
        self.channels = output_channels | {channel_of(event) for event in self.inputs}
        """The channels that the adapter names."""
        self.rest = "R " + " ".join(self.outputs)
        """The report that all outputs are refused."""
        longest = max(len(event) for event in self.inputs)
        if len(self.rest) + 1 + longest > LINE_LIMIT:
            raise AdapterFault("%s: the names of all outputs together are longer than a report (%d bytes)" % (name, LINE_LIMIT))
        self.reset = self._function(source, "reset")
        self.observe: Callable[..., object] = nothing_seen
        if self.outputs:
            self.observe = self._function(source, "observe", 0.0)
        try:
            self.quiet = seconds_of(getattr(source, "quiet", QUIET))
        except ValueError as error:
            raise AdapterFault("%s: quiet: %s" % (name, error)) from None

    def _inputs(self, source: object, events: Sequence[str], channels: set[str]) -> Dict[str, Input]:
        found: Dict[str, Input] = {}
        for function in marked(source):
            for form in getattr(function, FORMS):
                for one in self._inputs_of(form, function, events, channels):
                    if one.event in found:
                        raise AdapterFault("%s: two functions do %s" % (self.name, one.event))
                    found[one.event] = one
        if not found:
            raise AdapterFault("%s: there is no input: does() marks no function" % self.name)
        return {event: found[event] for event in events if event in found}

    def _inputs_of(self, form: str, function: Callable[..., object], events: Sequence[str], channels: set[str]) -> List[Input]:
        try:
            template = Template(form)
        except ValueError as error:
            raise AdapterFault("%s: does(%r): %s" % (self.name, form, error)) from None
        self._check_channel(channel_of(form), channels)
        named = re.compile(template.pattern(lambda field: "(?P<%s>[^.]+)" % field).pattern)
        found = {event: values_of(match.groupdict()) for event in events if (match := named.fullmatch(event))}
        if not found:
            raise AdapterFault("%s: does(%r): the script has no such event" % (self.name, form))
        self._check_call("does(%r): the function" % form, function, **dict.fromkeys(template.fields, 0))
        return [Input(event, partial(function, **values)) for event, values in found.items()]

    def _output_channels(self, source: object, channels: set[str]) -> set[str]:
        named = getattr(source, "outputs", ())
        if isinstance(named, str) or not all(isinstance(one, str) for one in named):
            raise AdapterFault("%s: outputs is a list of channels, not %r" % (self.name, named))
        for channel in named:
            self._check_channel(channel, channels)
        return set(named)

    def _check_channel(self, channel: str, channels: set[str]) -> None:
        if channel not in channels:
            raise AdapterFault("%s: the script has no channel %r" % (self.name, channel))

    def _function(self, source: object, name: str, *values: object) -> Callable[..., object]:
        found: Callable[..., object] = getattr(source, name, None)  # type: ignore[assignment]
        if not callable(found):
            raise AdapterFault("%s: the function %s() is missing" % (self.name, name))
        self._check_call(name + "()", found, *values)
        return found

    def _check_call(self, what: str, function: Callable[..., object], *values: object, **named: object) -> None:
        try:
            inspect.signature(function).bind(*values, **named)
        except TypeError as error:
            raise AdapterFault("%s: %s doesn't take what it is called with: %s" % (self.name, what, error)) from None


def nothing_seen(wait: float) -> object:
    """What is observed of a system without outputs."""
    return ()


def channel_of(event: str) -> str:
    """The channel of an event, or of the form of events."""
    return event.split(".")[0]


def marked(source: object) -> List[Callable[..., object]]:
    """The functions of the adapter that `does` marks, each once."""
    members = (getattr(source, name, None) for name in dir(source))
    found = {id(getattr(one, "__func__", one)): one for one in members if callable(one) and hasattr(one, FORMS)}
    return list(found.values())


def values_of(groups: Mapping[str, str]) -> Dict[str, Value]:
    """The values of fields, as a function gets them."""
    return {field: int(text) if INTEGER.fullmatch(text) else text for field, text in groups.items()}


def loaded(path: str) -> object:
    """The module in this file. `OSError` where it can't be read, `AdapterFault` where it raises an exception."""
    with open(path, "rb"):
        pass
    folder = os.path.dirname(os.path.abspath(path))
    if folder not in sys.path:
        sys.path.insert(0, folder)
    name = os.path.splitext(os.path.basename(path))[0]
    described = importlib.util.spec_from_file_location(name, path, loader=importlib.machinery.SourceFileLoader(name, path))
    assert described is not None and described.loader is not None
    module = importlib.util.module_from_spec(described)
    sys.modules[name] = module
    try:
        described.loader.exec_module(module)
    except KeyboardInterrupt:
        raise
    except BaseException:
        raise AdapterFault("%s%s: the adapter can't be loaded" % (traceback.format_exc(), path)) from None
    return module
