#!/usr/bin/env python3
"""Runs the commands of the pages as they are written, and compares what they print with what the pages show.

    tests/documents.py [--program FILE] [PAGE ..]
    tests/documents.py --facts

Without a PAGE all pages (*.md) are taken, and what they say is compared with what other files of the repository know: the words
of each page with its budget, kit and version of the release, how many wrong bodies there are, the numbers and words of faults
in pages, clients and manual, and the tables of measurements (tests/page_facts.py says how). With --facts that alone is done,
which needs no program. Without --program the program is crates/cspwatch/out/cspwatch. Each page has a copy of the repository's
own files to itself, with `cspwatch` on the PATH and no kit. Of its blocks

- one of `sh` is run as a whole, from the top of the copy. A block of `text` that follows at once shows what it prints; where
  none does, its last command has to end with status 0;
- in one of `text`, the lines after `$ ` are commands, each with what it prints below it. The lines before the first `$ ` are
  the next ones of the page's server;
- one of `text` after a line that ends with a file's name and a colon, as `p.csp`:, is that file;
- one of `python` is a session where it has `>>>`, else a program that has to end with status 0.

A shown line may have a note to its right, after two blanks. `cspwatch serve` runs beside the commands that come after it, as
in a terminal of its own, and has to end by itself before the page does. A block of `sh` is passed over, and named, where a
command in it proves, is a form with a word to be filled in, is a test of its own, is for root, or needs what there is none of
(pytest, hypothesis, Redis). Any other block is only to be read. The last line is `N passed, M failed`.
"""
import argparse
import collections
import functools
import itertools
import os
import queue
import re
import shutil
import socket
import subprocess
import sys
import tempfile
import threading

import page_facts

ROOT = os.path.dirname(os.path.dirname(os.path.abspath(__file__)))
PROGRAM = os.path.join("crates", "cspwatch", "out", "cspwatch")
SECONDS = 240

PROVES = re.compile(r"(?:^|[;&|] *)(rt|\.ci/run)\b", re.MULTILINE)
"""A command that needs the kit."""

FORM = re.compile(r"\b(?:SPEC|PROCESS|JOURNAL|ADDR|COMMIT|VERSION|NAME|FILE)\b")
"""A word that the reader is to fill in."""

TESTS = re.compile(r"\b(?:tests/\w+\.py|clients/run_tests\.py|dist/make_release\.py|make (?:quick|lint|test|rows|gate|needs)\b)")
"""A test, which isn't called a second time."""

ROOTS = re.compile(r"^install .* /(?:usr|etc)/", re.MULTILINE)
"""A command that only root can run."""

REDIS = re.compile(r"testing/redis|failed\.reports")
"""A command that needs a server of Redis, or what was made by one that does."""

PACKAGES = {"pytest": re.compile(r"\bpython3 -m pytest\b"), "hypothesis": re.compile(r"\bcspwatch-test\b"), "redis": REDIS}
"""Packages of Python, and the commands that need them."""

FILE = re.compile(r"`([\w.-]+\.\w+)`:$")
"""The end of a line that names the file below it."""

NC = """#!%s
# What `nc HOST PORT` does, for a machine that has none: sends its input, and prints what comes.
import shutil, socket, sys
with socket.create_connection((sys.argv[1], int(sys.argv[2]))) as connection:
    connection.sendall(sys.stdin.buffer.read())
    connection.shutdown(socket.SHUT_WR)
    shutil.copyfileobj(connection.makefile("rb"), sys.stdout.buffer)
""" % sys.executable

Block = collections.namedtuple("Block", "line kind lines before")
"""A block of a page: its line, its kind, its lines, and the line of prose above it, which is "" right after another block."""

Step = collections.namedtuple("Step", "block does shown")
"""What is done with a block: it is a `file`, `commands`, a `session` or `python`; and what its commands have to print."""


class Wrong(Exception):
    """What a page shows, and isn't so."""


def blocks_of(text):
    """The blocks of a page, in order."""
    found, kind, before = [], None, None
    for number, line in enumerate(text.splitlines(), 1):
        fence = re.match(r"\s*```(\w*)\s*$", line)
        if fence and kind is None:
            begin, kind, inside = number, fence[1], []
        elif fence:
            found.append(Block(begin, kind, inside, before))
            kind, before = None, ""
        elif kind is not None:
            inside.append(line)
        elif line.strip():
            before = line.rstrip()
    return found


def why_not(step):
    """Why the step is passed over; None where it can run."""
    text = "\n".join(step.block.lines)
    if step.does == "file":
        return None
    for package, pattern in PACKAGES.items():
        if pattern.search(text) and not has_package(package):
            return "there is no " + package
    if REDIS.search(text) and shutil.which("redis-server") is None:
        return "there is no redis-server"
    reasons = (PROVES, "proves"), (FORM, "a form"), (TESTS, "a test of its own"), (ROOTS, "for root")
    return next((reason for pattern, reason in reasons if pattern.search(text)), None)


@functools.lru_cache(maxsize=None)
def has_package(name):
    """Whether the Python that the pages' commands call has this package."""
    return subprocess.run(["python3", "-c", "import " + name], stderr=subprocess.DEVNULL).returncode == 0


def is_as_shown(printed, shown):
    return len(printed) == len(shown) and all(
        line == wanted.rstrip() or wanted.startswith(line + "  ") for line, wanted in zip(printed, shown)
    )


def compare(printed, shown, command):
    if not is_as_shown(printed, shown):
        raise Wrong("`%s` prints\n%s\nand not\n%s" % (command, "\n".join(printed), "\n".join(shown)))


class Server:
    """A run of `cspwatch serve` beside the page's other commands."""

    def __init__(self, command, environment):
        self.command = command
        self.process = subprocess.Popen(
            ["bash", "-c", "exec " + command],
            cwd=environment["PWD"],
            env=environment,
            stdin=subprocess.DEVNULL,
            stdout=subprocess.PIPE,
            stderr=subprocess.STDOUT,
        )
        self.printed = queue.Queue()
        threading.Thread(target=self.listen, daemon=True).start()

    def listen(self):
        for line in self.process.stdout:
            self.printed.put(line.decode("utf-8", "replace").rstrip("\n"))
        self.printed.put(None)

    def lines(self, count):
        """So many lines more, or fewer where it ends or is silent before."""
        found = []
        while len(found) < count:
            try:
                line = self.printed.get(timeout=SECONDS)
            except queue.Empty:
                break
            if line is None:
                break
            found.append(line)
        return found

    def end(self):
        try:
            self.process.wait(SECONDS)
        except subprocess.TimeoutExpired:
            self.process.kill()
            self.process.wait()
            raise Wrong("`%s` has not ended" % self.command) from None


class Terminal:
    """Where the commands of a page are run: a folder, what its commands have exported, and its servers."""

    def __init__(self, folder, paths, scratch):
        self.environment = dict(os.environ, PATH=paths, PWD=folder)
        self.environment.pop("PYTHONPATH", None)
        self.scratch = scratch
        self.servers = []

    def run(self, command):
        """The lines that the command prints, and its status. What it exports, and where it goes, stays."""
        kept = os.path.join(self.scratch, "environment")
        done = subprocess.run(
            ["bash", "-c", command + '\nstatus=$?; env -0 > "$0"; exit "$status"', kept],
            cwd=self.environment["PWD"],
            env=self.environment,
            stdin=subprocess.DEVNULL,
            stdout=subprocess.PIPE,
            stderr=subprocess.STDOUT,
            timeout=SECONDS,
        )
        with open(kept, "rb") as file:
            entries = file.read().decode("utf-8").split("\0")
        self.environment = dict(entry.split("=", 1) for entry in entries if "=" in entry)
        return done.stdout.decode("utf-8", "replace").splitlines(), done.returncode

    def type(self, command, shown):
        """Runs a command that has to print these lines; None is for any, with status 0."""
        if command.startswith("cspwatch serve "):
            server = Server(command, self.environment)
            self.servers.append(server)
            first = server.lines(max(1, len(shown or [])))
            if shown is None and not " ".join(first).startswith("listening "):
                raise Wrong("`%s` prints\n%s" % (command, "\n".join(first)))
            if shown is not None:
                compare(first, shown, command)
            return
        printed, status = self.run(command)
        if shown is not None:
            compare(printed, shown, command)
        elif status != 0:
            raise Wrong("`%s` ends with status %d:\n%s" % (command, status, "\n".join(printed)))

    def session(self, lines):
        """A block of text with commands."""
        first = next(at for at, line in enumerate(lines) if line.startswith("$ "))
        if first:
            if not self.servers:
                raise Wrong("there are lines before the first command, and no server")
            compare(self.servers[-1].lines(first), lines[:first], self.servers[-1].command)
        starts = [at for at, line in enumerate(lines) if line.startswith("$ ")]
        for at, after in zip(starts, starts[1:] + [len(lines)]):
            self.type(lines[at][2:], lines[at + 1 : after])

    def python(self, lines):
        """A block of Python."""
        path = os.path.join(self.scratch, "page.txt")
        with open(path, "w", encoding="utf-8") as file:
            file.write("\n".join(lines) + "\n")
        doctest = "-m doctest " if any(line.startswith(">>> ") for line in lines) else ""
        self.type("python3 -B %s%s" % (doctest, path), None)

    def file(self, name, lines):
        """A block that is a file. A journal ends with a gate, any other with a line."""
        end = "" if name.endswith(".journal") else "\n"
        with open(os.path.join(self.environment["PWD"], name), "w", encoding="utf-8") as file:
            file.write("\n".join(lines) + end)

    def play(self, step):
        """Does what the step asks for."""
        lines = step.block.lines
        if step.does == "file":
            self.file(file_of(step.block), lines)
        elif step.does == "commands":
            self.type("\n".join(lines), step.shown)
        elif step.does == "python":
            self.python(lines)
        else:
            self.session(lines)

    def close(self):
        """Waits for the servers, and answers what is wrong with them."""
        problems = []
        for server in self.servers:
            try:
                server.end()
            except Wrong as wrong:
                problems.append(str(wrong))
        return problems


def file_of(block):
    """The name of the file that the block shows, or None."""
    found = FILE.search(block.before or "") if block.kind == "text" else None
    return found[1] if found else None


def shown_below(blocks, at):
    """The lines that the block of commands at this place prints, as the page shows them; None where it doesn't."""
    below = blocks[at + 1] if at + 1 < len(blocks) else None
    return below.lines if below and below.kind == "text" and below.before == "" else None


def step_of(blocks, at):
    """What is done with the block at this place; None where it is only to be read."""
    block = blocks[at]
    if file_of(block):
        return Step(block, "file", None)
    if block.kind == "sh":
        return Step(block, "commands", shown_below(blocks, at))
    if block.kind == "python":
        return Step(block, "python", None)
    if block.kind == "text" and any(line.startswith("$ ") for line in block.lines):
        return Step(block, "session", None)
    return None


def free_port():
    with socket.socket() as one:
        one.bind(("127.0.0.1", 0))
        return one.getsockname()[1]


def is_taken(port):
    with socket.socket() as one:
        one.setsockopt(socket.SOL_SOCKET, socket.SO_REUSEADDR, 1)
        try:
            one.bind(("127.0.0.1", port))
        except OSError:
            return True
    return False


def with_free_ports(name, text):
    """The page, in which a port that somebody else has is another one."""
    for port in sorted(set(re.findall(r"127\.0\.0\.1[: ]([1-9]\d{3,4})\b", text))):
        if is_taken(int(port)):
            other = str(free_port())
            print("%s: port %s is taken, %s is used" % (name, port, other))
            text = re.sub(r"\b%s\b" % port, other, text)
    return text


def run_page(name, template, paths):
    """Of each block that does something its place, what is wrong (or None) or why it is passed over, and whether it is."""
    with open(os.path.join(ROOT, name), encoding="utf-8") as file:
        text = with_free_ports(name, file.read())
    if re.search(r"^cc ", text, re.MULTILINE) and shutil.which("cc") is None:
        yield name, "there is no C compiler", True
        return
    blocks = blocks_of(text)
    steps = [step for step in (step_of(blocks, at) for at in range(len(blocks))) if step]
    with tempfile.TemporaryDirectory() as scratch:
        folder = os.path.join(scratch, "clone")
        if any(why_not(step) is None for step in steps):
            shutil.copytree(template, folder, symlinks=True)
        terminal = Terminal(folder, paths, scratch)
        for step in steps:
            place, reason, problem = "%s:%d" % (name, step.block.line), why_not(step), None
            if reason is None:
                try:
                    terminal.play(step)
                except (Wrong, subprocess.TimeoutExpired) as wrong:
                    problem = str(wrong)
            yield place, reason or problem, reason is not None
        for problem in terminal.close():
            yield name, problem, False


def pages():
    """All pages, by their paths from the top."""
    for folder, folders, files in os.walk(ROOT):
        folders[:] = sorted(each for each in folders if each not in (".git", "out", "crates", "__pycache__"))
        for name in sorted(files):
            if name.endswith(".md"):
                yield os.path.relpath(os.path.join(folder, name), ROOT)


def copy_own(template):
    """Copies the files that belong to the repository, without what only proves: not what a user has made there."""
    listed = subprocess.run(["git", "ls-files", "-z"], cwd=ROOT, stdout=subprocess.PIPE, stderr=subprocess.DEVNULL)
    names = [os.fsdecode(name) for name in listed.stdout.split(b"\0") if name and b"/proofs/" not in name]
    if listed.returncode != 0 or not names:
        shutil.copytree(ROOT, template, symlinks=True, ignore=shutil.ignore_patterns(".git", "out", "proofs", "__pycache__"))
        return
    for name in names:
        source, target = os.path.join(ROOT, name), os.path.join(template, name)
        if os.path.lexists(source):
            os.makedirs(os.path.dirname(target), exist_ok=True)
            shutil.copy2(source, target, follow_symlinks=False)


def prepare(scratch, program):
    """A copy of the repository, and a PATH on which the program is and the kit isn't."""
    template, tools = os.path.join(scratch, "template"), os.path.join(scratch, "tools")
    copy_own(template)
    os.makedirs(os.path.join(template, os.path.dirname(PROGRAM)))
    os.symlink(program, os.path.join(template, PROGRAM))
    os.makedirs(tools)
    os.symlink(program, os.path.join(tools, "cspwatch"))
    if shutil.which("nc") is None:
        print("there is no nc: a stand-in sends and prints")
        with open(os.path.join(tools, "nc"), "w", encoding="utf-8") as file:
            file.write(NC)
        os.chmod(os.path.join(tools, "nc"), 0o755)
    folders = os.environ.get("PATH", os.defpath).split(os.pathsep)
    kept = [folder for folder in folders if not os.access(os.path.join(folder, "rt"), os.X_OK)]
    return template, os.pathsep.join([tools] + kept)


def run_pages(names, program):
    """Of each block and each server of these pages what `run_page` says of it."""
    with tempfile.TemporaryDirectory() as scratch:
        template, paths = prepare(scratch, program)
        for name in names:
            yield from run_page(name, template, paths)


def count(results):
    """Shows what is wrong or passed over; how many results are right, and how many wrong."""
    passed = failed = 0
    over = collections.Counter()
    for place, problem, is_over in results:
        if is_over:
            over[problem] += 1
            print("%s: passed over: %s" % (place, problem))
        elif problem:
            failed += 1
            print("%s: %s" % (place, problem))
        else:
            passed += 1
    if over:
        print("passed over: %s" % ", ".join("%d (%s)" % (number, reason) for reason, number in sorted(over.items())))
    return passed, failed


def main():
    parser = argparse.ArgumentParser(description=__doc__.split("\n")[0])
    parser.add_argument("--program", default=os.path.join(ROOT, PROGRAM))
    parser.add_argument("--facts", action="store_true", help="compare only what other files know, and run no command")
    parser.add_argument("pages", metavar="PAGE", nargs="*")
    options = parser.parse_args()
    program = os.path.abspath(options.program)
    if not options.facts and not os.access(program, os.X_OK):
        print("%s: there is no such program" % program)
        print("0 passed, 1 failed")
        return 1
    results = [] if options.facts else [run_pages(options.pages or pages(), program)]
    if not options.pages:
        results.append((place, problem, False) for place, problem in page_facts.checks(pages()))
    passed, failed = count(itertools.chain.from_iterable(results))
    print("%d passed, %d failed" % (passed, failed))
    return 1 if failed else 0


if __name__ == "__main__":
    sys.exit(main())
