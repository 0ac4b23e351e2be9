#!/usr/bin/env python3
"""Shows that the first turn ends each loop of `board`, `locked` and `shared` that would try again.

    tests/first_turns.py

A loop `for _ in rt.forever()` there only repeats what can't fail in fact (its comment says why), but no contract says so. Here each
of these loops is given one turn in a copy of the repository, so that a second one would reach `unreachable!()`, which stops a program
that was not proved. The loop of `await_len`, which waits for other threads, keeps its turns. The rows of `shared_rows` have to give the
same answers as ever. It needs the kit's `rt` (`rt try`, two minutes of processor time). The last line is `N passed, M failed`.
"""
import os
import shutil
import subprocess
import sys
import tempfile

ROOT = os.path.dirname(os.path.dirname(os.path.abspath(__file__)))
PARTS = ("src", "specs", "proofs", "stdin", "stdout")
LOOP = "for _ in rt.forever() {"
TURN = "for _ in 0..1u8 {"
# The function whose loop waits for others.
WAITS = "\nfn await_len<"
# How many such loops there are: one more has to be looked at.
LOOPS = {"board": 1, "locked": 1, "shared": 5}
# How long the rows may take, compiled and run beside other tests at a lower priority.
SECONDS = 1800


def copied(folder):
    """Copies all crates without what was built."""
    for name in ("crates.txt", "HANDLES"):
        shutil.copy(os.path.join(ROOT, name), folder)
    for crate in os.listdir(os.path.join(ROOT, "crates")):
        for part in PARTS:
            source, target = (os.path.join(top, "crates", crate, part) for top in (ROOT, folder))
            if os.path.isdir(source):
                shutil.copytree(source, target)
            elif os.path.isfile(source):
                os.makedirs(os.path.dirname(target), exist_ok=True)
                shutil.copy(source, target)


def change(crate):
    """Gives each loop of the crate one turn. How many there were."""
    found = 0
    for at, _, files in os.walk(os.path.join(crate, "src")):
        for name in files:
            path = os.path.join(at, name)
            with open(path, encoding="utf-8") as file:
                text = file.read()
            before, waits, after = text.partition(WAITS)
            loop, end, after = after.partition("\n}\n")
            found += before.count(LOOP) + after.count(LOOP)
            with open(path, "w", encoding="utf-8") as file:
                file.write(before.replace(LOOP, TURN) + waits + loop + end + after.replace(LOOP, TURN))
    return found


def played(folder, crate, seconds):
    """How the rows of this crate go in the copy, without a proof, and what they are to write."""
    player = os.path.join(folder, "crates", "scenarios")
    with open(os.path.join(player, "stdin"), "rb") as rows, open(os.path.join(player, "stdout"), "rb") as answers:
        pairs = [(row, answer) for row, answer in zip(rows, answers) if row.startswith(crate.encode() + b" ")]
    given, wanted = (b"".join(lines) for lines in zip(*pairs))
    return subprocess.run(["rt", "try", "--seconds", str(seconds)], cwd=player, input=given, capture_output=True, check=False), wanted


def main():
    with tempfile.TemporaryDirectory(prefix="turns-") as folder:
        copied(folder)
        found = {crate: change(os.path.join(folder, "crates", crate)) for crate in LOOPS}
        ran, wanted = played(folder, "shared_rows", SECONDS)
    checks = [
        ("the loops that would try again are those that were looked at", found == LOOPS, found),
        ("each of them ends with its first turn", ran.returncode == 0 and ran.stdout == wanted, ran.stderr.decode(errors="replace")[-400:]),
    ]
    for name, passes, shown in checks:
        print("%s: %s" % (name, "passed" if passes else "FAILED: %s" % shown))
    passed = sum(1 for _, passes, _ in checks if passes)
    print("%d passed, %d failed" % (passed, len(checks) - passed))
    return 0 if passed == len(checks) else 1


if __name__ == "__main__":
    sys.exit(main())
