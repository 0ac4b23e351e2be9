#!/usr/bin/env python3
"""Plants wrong bodies that no contract refuses, or none can, and wants the rows of a crate to fail with each.

    tests/planted.py [NAME ..]

Each file of tests/planted names what it would hide (`shows`), the crate whose rows show it (`rows`) or the case (`case`, a file of
tests/cases and a name), how long they may take where the wrong body waits without end (`seconds`), and its changes: a file, what
stands there once, and what comes in its place. It is made in a copy of the
repository, and the rows or the case are run there without proofs (`rt try`). As they stand, they have to pass. It needs the kit's `rt`.
The last line is `N passed, M failed`.
"""
import glob
import json
import os
import subprocess
import sys
import tempfile

sys.dont_write_bytecode = True

from first_turns import copied, played  # noqa: E402

HERE = os.path.dirname(os.path.abspath(__file__))
SECONDS = 600
"""How long the rows of a crate, or a case, may take where a plant doesn't say it."""


class Plant:
    """A wrong body: what it hides, the crate whose rows show it or the case, and its changes."""

    def __init__(self, path):
        self.name = os.path.basename(path)[: -len(".edit")]
        self.rows = self.case = self.shows = ""
        self.seconds = str(SECONDS)
        self.changes = []
        at = old = None
        with open(path, encoding="utf-8") as file:
            for line in file.read().split("\n"):
                word, _, rest = line.partition(":")
                if word in ("rows", "case", "shows", "seconds"):
                    setattr(self, word, rest.strip())
                at = rest.strip() if word == "file" else at
                old = rest[1:] if word == "old" else old
                if word == "new":
                    self.changes.append((at, old, rest[1:]))

    def put(self, folder):
        """Makes the changes in the copy; why that can't be done."""
        for at, old, new in self.changes:
            path = os.path.join(folder, at)
            with open(path, encoding="utf-8") as file:
                text = file.read()
            if text.count(old) != 1:
                return "%s has '%s' %d times" % (at, old, text.count(old))
            with open(path, "w", encoding="utf-8") as file:
                file.write(text.replace(old, new))
        return None


def played_rows(folder, crate, seconds):
    """What comes of the rows of this crate, within so many seconds: whether they were run at all, whether they pass, and the end of what was said."""
    ran, wanted = played(folder, crate, seconds)
    said = (ran.stdout + ran.stderr).decode(errors="replace")
    return ": error" not in said, ran.returncode == 0 and ran.stdout == wanted, said[-600:]


def played_case(folder, named, seconds):
    """The same of a case of the program: whether its lines on standard output come, and its files are left as it says. `rt try` runs the
    program in a folder of its own, so the files are named by their whole paths."""
    name, _, title = named.partition(": ")
    with open(os.path.join(HERE, "cases", name), encoding="utf-8") as file:
        (case,) = [one for one in json.load(file) if one["name"] == title]
    places = {path: os.path.join(folder, path) for path in case["files"]}
    for path, text in case["files"].items():
        with open(places[path], "w", encoding="latin-1", newline="") as file:
            file.write(text)
    words = ["rt", "try", "--seconds", seconds, "--"] + [places.get(word, word) for word in case["args"]]
    at = os.path.join(folder, "crates", "cspwatch")
    ran = subprocess.run(words, cwd=at, stdin=subprocess.DEVNULL, capture_output=True, check=False)
    passes = ran.stdout.decode().splitlines() == case["stdout"]
    for path, text in case["files_after"].items():
        with open(places[path], encoding="latin-1", newline="") as file:
            passes = passes and file.read() == text
    said = (ran.stdout + ran.stderr).decode(errors="replace")
    return ": error" not in said, passes, said[-600:]


def why_not(plant, rows, case):
    """Why the rows of the crate, or the case, don't do with the plant, or without one, what they have to."""
    with tempfile.TemporaryDirectory(prefix="planted-") as folder:
        copied(folder)
        if plant and (why := plant.put(folder)):
            return why
        seconds = plant.seconds if plant else str(SECONDS)
        was_run, passes, said = played_rows(folder, rows, seconds) if rows else played_case(folder, case, seconds)
    if not was_run:
        return "they aren't built: " + said
    if passes and plant:
        return "they pass all the same"
    return None if plant or passes else "they fail: " + said


def main():
    plants = [Plant(path) for path in sorted(glob.glob(os.path.join(HERE, "planted", "*.edit")))]
    plants = [plant for plant in plants if plant.name in sys.argv[1:] or len(sys.argv) == 1]
    checks = [(None, *shown) for shown in sorted({(plant.rows, plant.case) for plant in plants})]
    checks += [(plant, plant.rows, plant.case) for plant in plants]
    failed = 0
    for plant, rows, case in checks:
        why = why_not(plant, rows, case)
        failed += why is not None
        by = "the rows of %s" % rows if rows else "the case `%s`" % case
        what = "%s (%s), by %s" % (plant.name, plant.shows, by) if plant else "%s, without a plant" % by
        print("%s: %s" % (what, why or ("seen" if plant else "pass")), flush=True)
    print("%d passed, %d failed" % (len(checks) - failed, failed))
    return 1 if failed else 0


if __name__ == "__main__":
    sys.exit(main())
