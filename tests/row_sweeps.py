"""The sweeps among the rows over the libraries, played by the program that the gate has built: `tests/run_cases.py` calls `play`.

A group of rows begins with a line `# NAME: ..`, and ends with an empty line; a row begins with the crate that plays it. Of the rows of
`crates/scenarios` the groups with the names below are played, and each row's line is compared with that of `stdout`. The rows of
`refused_memory.json` are played with requests for memory refused, and what came is held against the rules of `refused_rows.py`. How
many points each sweep tried is printed: those that the program writes on standard error, the reads and writes that a row names, and
each row that plays one point.
"""
import functools
import json
import os
import re
import subprocess
import sys
import tempfile

sys.dont_write_bytecode = True

import refused_rows  # noqa: E402
import rows  # noqa: E402

HERE = os.path.dirname(os.path.abspath(__file__))
CRATES = os.path.join(os.path.dirname(HERE), "crates")
PLAYER = "scenarios"
REFUSED = "refused_memory"
SWEEPS = ["fault_rows", "crash_rows", REFUSED, "no_request"]
# Which requests are refused: one; all from it on until an answer says so, or until the conversation is over; all from it on.
WAYS = ["once", "until", "always"]
SECONDS = 120
POINTS = re.compile(r"^(.*): ([0-9]+) points$", re.MULTILINE)
ENDS = re.compile(r"([0-9]+) reads, ([0-9]+) writes$")
# Rows that play one point each, of which the program counts none.
SINGLE = ("talk_fault ", "refusing ", "pieces ", "no_request ")


def text_of(*path):
    with open(os.path.join(CRATES, *path), encoding="utf-8") as file:
        return file.read()


def sweeps():
    """The groups of the sweeps: the name, the rows and the lines that are wanted."""
    groups = []
    for lines, wanted in zip(*(text_of(PLAYER, name).split("\n\n") for name in ("stdin", "stdout"))):
        name = lines.split("\n")[0][2:].split(":")[0]
        if name in SWEEPS:
            groups.append((name, lines.strip("\n").split("\n"), wanted.strip("\n").split("\n")))
    return groups


def is_built():
    """Whether the program is there, and not older than what it is made from."""
    path = os.path.join(CRATES, PLAYER, "out", PLAYER)
    folders = [os.path.join(CRATES, crate, "src") for crate in rows.CRATES]
    newest = max(os.path.getmtime(os.path.join(folder, name)) for folder in folders for name in os.listdir(folder))
    return os.access(path, os.X_OK) and os.path.getmtime(path) >= newest


def run(program, words, given):
    """What the program writes, what it writes on standard error, and its status."""
    with tempfile.TemporaryDirectory(prefix="rows-") as folder:
        path = os.path.join(CRATES, program, "out", program)
        done = subprocess.run([path, *words], cwd=folder, input=given.encode(), capture_output=True, timeout=SECONDS)
    return done.stdout.decode(), done.stderr.decode(), done.returncode


def played(groups):
    """The lines that the program writes to these groups, group by group, and what it writes on standard error."""
    out, errors, _ = run(PLAYER, [], "".join("\n".join(lines) + "\n\n" for _, lines, _ in groups))
    return [lines.strip("\n").split("\n") for lines in out.split("\n\n")], errors


@functools.lru_cache(maxsize=None)
def checked(begin, lines):
    """The replies of the built program to these lines, and its status."""
    root, _, script = begin.partition(" ")
    with tempfile.NamedTemporaryFile("w", suffix=".csp", encoding="utf-8") as file:
        file.write(script.replace("$", "\n"))
        file.flush()
        out, _, status = run("cspwatch", ["check", file.name, root], "".join(line + "\n" for line in lines))
    return out.splitlines(), status


@functools.lru_cache(maxsize=None)
def talked(begin, inputs):
    """What comes of these conversations."""
    return run(PLAYER, [], "shared_rows talk %s # %s\n" % (begin, " # ".join(inputs)))[0].rstrip("\n")


def points_of(lines, came):
    """How many points these rows name, or are."""
    points = 0
    for row, line in zip(lines, came):
        ends = ENDS.search(line)
        points += int(ends[1]) + int(ends[2]) if ends else row.partition(" ")[2].startswith(SINGLE)
    return points


def play_sweeps(counts):
    """What is wrong with the rows. For each sweep the counts get its rows and its points."""
    groups = sweeps()
    came, errors = played(groups)
    problems, name_of = [], {row: name for name, lines, _ in groups for row in lines}
    for (name, lines, wanted), got in zip(groups, came + [[]] * len(groups)):
        count = counts.setdefault(name, [0, 0])
        count[0] += len(lines) - 1
        count[1] += points_of(lines, got)
        problems += ["%s: `%s` gives `%s`, wanted `%s`" % (name, row, line, want) for row, line, want in zip(lines, got, wanted) if line != want]
        if len(got) != len(wanted):
            problems.append("%s: %d lines, wanted %d" % (name, len(got), len(wanted)))
    for row, points in POINTS.findall(errors):
        counts[name_of[row]][1] += int(points)
    return problems


def play_refused(counts):
    """What is wrong with the rows whose requests for memory are refused. The counts get the rows and the points."""
    with open(os.path.join(HERE, "refused_memory.json"), encoding="utf-8") as file:
        refused = [(way, row["crate"], row["row"], row["full"]) for row in json.load(file) for way in WAYS]
    out, errors, _ = run(PLAYER, [], "".join("%s memory %s %s\n" % (crate, way, row) for way, crate, row, _ in refused))
    lines = out.split("\n")[: len(refused)]
    count = counts.setdefault(REFUSED, [0, 0])
    count[0] += len(refused)
    count[1] += sum(int(points) for _, points in POINTS.findall(errors))
    problems = ["%d lines for %d rows" % (len(lines), len(refused))] if len(lines) < len(refused) else []
    for (way, _, row, full), line in zip(refused, lines):
        problems += refused_rows.problems(way, row, full, line, lambda begin, asked: checked(begin, tuple(asked)),
                                          lambda begin, asked: talked(begin, tuple(asked)))
    return problems


def play():
    """Plays the sweeps, where the program is built, and prints how many points each tried. What is wrong, and how many rows passed."""
    counts, problems = {}, []
    if is_built():
        problems = play_sweeps(counts) + play_refused(counts)
    else:
        print("the rows were not played: there is no program, or an old one")
    for name in SWEEPS:
        if name in counts:
            print("%s: %d points, in %d rows" % (name, counts[name][1], counts[name][0]))
    return problems, sum(count for count, _ in counts.values()) - len(problems)
