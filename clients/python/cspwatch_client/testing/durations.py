"""Times as they are written: `200ms`, `10s`, `5m`, `1h`, or a number of seconds."""
from __future__ import annotations

import re
from typing import Union

DURATION = re.compile(r"([0-9]+(?:\.[0-9]+)?)(ms|s|m|h|)")

SECONDS = {"ms": 0.001, "s": 1.0, "": 1.0, "m": 60.0, "h": 3600.0}
"""How many seconds a unit has."""


def seconds_of(text: Union[str, int, float]) -> float:
    """How many seconds this is; a `ValueError` where it is no time."""
    found = DURATION.fullmatch(str(text).strip())
    if found is None or isinstance(text, bool):
        raise ValueError("a time is a number with ms, s, m or h, such as 200ms, not %r" % text)
    return float(found[1]) * SECONDS[found[2]]
