"""Where failing runs are kept."""
from __future__ import annotations

import hashlib
import os
from typing import Iterable, Sequence

from hypothesis.database import DirectoryBasedExampleDatabase

OTHERS = (b".pareto", b".secondary")
"""How the keys end of examples that pass, and of failing ones that became shorter: neither is worth keeping."""


class FailingRuns(DirectoryBasedExampleDatabase):
    """A folder with the failing runs of one campaign, in hypothesis's form."""

    def __init__(self, folder: str, parts: Sequence[str]) -> None:
        """parts -- what has to be the same, so that a kept run asks for the same inputs: it has a folder of its own."""
        known = hashlib.sha256("\0".join(parts).encode("utf-8", "surrogateescape")).hexdigest()
        super().__init__(os.path.join(folder, "cspwatch-" + known[:16]))

    def save(self, key: bytes, value: bytes) -> None:
        if not key.endswith(OTHERS):
            super().save(key, value)

    def fetch(self, key: bytes) -> Iterable[bytes]:
        return () if key.endswith(OTHERS) else super().fetch(key)

    def move(self, src: bytes, dest: bytes, value: bytes) -> None:
        self.delete(src, value)
        self.save(dest, value)
