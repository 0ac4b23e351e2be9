#!/usr/bin/env python3
"""Runs the cases of tests/cases over the built program, and compares what it wrote and its exit status.

    tests/run_cases.py [--program FILE] [--only TEXT] [--large] [FILE ..]

Without --program the program is crates/cspwatch/out/cspwatch, without a FILE all files of tests/cases are run, and then the rows of the
sweeps over the libraries, where the gate has built their programs (`tests/row_sweeps.py`). tests/README.md has the form of a case. With
--large only the cases of `check` are run, each with that word and but for those that meet `20`, `21` or `23`: what they want is the same. The
last line is `N passed, M failed`; the status is 0 where none failed.
"""
import argparse
import concurrent.futures
import json
import os
import signal
import socket
import subprocess
import sys
import tempfile

sys.dont_write_bytecode = True

import large  # noqa: E402
import row_sweeps  # noqa: E402
import serve_cases  # noqa: E402
from contents import bounded, brief, lines, octets, shallow, shown  # noqa: E402

HERE = os.path.dirname(os.path.abspath(__file__))
PROGRAM = os.path.join(os.path.dirname(HERE), "crates", "cspwatch", "out", "cspwatch")
RELEASED = os.path.join(os.path.dirname(HERE), "dist", "cspwatch")
EXAMPLES = os.path.join(os.path.dirname(HERE), "examples")
SECONDS = 120


def text_of(path):
    with open(path, "rb") as file:
        return file.read().decode("latin-1")


def filled(case):
    """The case with the files of its example, if it has one."""
    if "example" not in case:
        return case
    path = os.path.join(EXAMPLES, case["example"])
    script = case["example"] + ".csp"
    return {
        "args": ["check", script, "SYSTEM"],
        "files": {script: text_of(path + ".csp")},
        "input_bytes": text_of(path + ".reports"),
        "stdout": text_of(path + ".replies").splitlines(),
        "stderr": [],
        **case,
    }


def words(case):
    if "args" in case:
        return [os.fsdecode(octets(word)) for word in case["args"]]
    return ["check", "p.csp", os.fsdecode(octets(case.get("process", "P")))]


def written(path, content):
    with open(path, "wb") as file:
        file.write(octets(content))


def broken_off(given):
    """A socket that gives these bytes, after which a read fails, since the other end was closed with a byte unread."""
    ours, theirs = socket.socketpair()
    theirs.send(b"x")
    ours.sendall(given)
    ours.close()
    return theirs


def input_of(case):
    """The standard input of the case, as `subprocess.run` is to be given it."""
    given = octets(case["input_bytes"]) if "input_bytes" in case else lines(case.get("input", []))
    if case.get("stdin") == "failing":
        # A read of this file's front fails.
        return {"stdin": open("/proc/self/mem", "rb", buffering=0)}
    if case.get("stdin") == "broken off":
        return {"stdin": broken_off(given)}
    return {"input": given}


def output_of(case):
    """The standard output of the case, as `subprocess.run` is to be given it."""
    if case.get("output") == "full":
        return {"stdout": open("/dev/full", "wb")}
    if "output_bytes" in case:
        return {"stdout": tempfile.TemporaryFile()}
    return {"stdout": subprocess.PIPE}


def run(case, program, folder):
    """What the program wrote on its output and its errors, its status, and the files that are asked for as they stand then."""
    for name, content in case.get("files", {}).items():
        written(os.path.join(folder, name), content)
    if "script" in case:
        written(os.path.join(folder, "p.csp"), case["script"])
    command = [program] + words(case)
    if "output_bytes" in case:
        command = bounded(case["output_bytes"], command)
    if "stack_bytes" in case:
        command = shallow(case["stack_bytes"], command)
    limit = case.get("processor_seconds", case.get("seconds"))
    if limit is not None:
        command = brief(limit, command)
    ends = {**input_of(case), **output_of(case)}
    try:
        done = subprocess.run(command, cwd=folder, timeout=max(SECONDS, 10 * (limit or 0)), stderr=subprocess.PIPE, **ends)
        out = done.stdout or b""
        if "output_bytes" in case:
            ends["stdout"].seek(0)
            out = ends["stdout"].read()
    finally:
        for end in ends.values():
            if hasattr(end, "close"):
                end.close()
    after = {}
    for name in case.get("files_after", {}):
        path = os.path.join(folder, name)
        after[name] = text_of(path).encode("latin-1") if os.path.exists(path) else None
    return out, done.stderr, done.returncode, after


def problems_of(case, program):
    if "runs" in case:
        return serve_cases.problems_of(case, program)
    with tempfile.TemporaryDirectory(prefix="case-") as folder:
        try:
            out, err, status, after = run(case, program, folder)
        except subprocess.TimeoutExpired:
            return ["took more than %d seconds" % max(SECONDS, 10 * case.get("seconds", 0))]
    problems = []
    for name, got in (("stdout", out), ("stderr", err)):
        if name in case and got != lines(case[name]):
            problems.append("%s is %s, wanted %s" % (name, shown(got), shown(lines(case[name]))))
        wanted = case.get(name + "_any")
        if wanted is not None and bool(got) != wanted:
            problems.append("%s is %s" % (name, shown(got)))
    for name, content in case.get("files_after", {}).items():
        wanted = None if content is None else octets(content)
        if after[name] != wanted:
            problems.append("%s is %s, wanted %s" % (name, after[name], wanted))
    if status != case["status"]:
        problems.append("status is %s, wanted %s" % (status, case["status"]))
    return problems


def cases_of(files):
    for path in files:
        with open(path, encoding="utf-8") as file:
            for case in json.load(file):
                yield "%s: %s" % (os.path.splitext(os.path.basename(path))[0], case["name"]), filled(case)


def chosen(cases, program, with_word):
    """The cases that this program can be asked, each with `--large` where that is wanted; says how many are left out."""
    if with_word:
        cases = [(name + ", with --large", large.with_word(case)) for name, case in cases]
        cases = [(name, case) for name, case in cases if case]
    known = large.is_known(program)
    asked = [(name, case) for name, case in cases if known or not large.has_word(case)]
    if len(asked) < len(cases):
        print("left out: %d cases with --large, which this program doesn't know" % (len(cases) - len(asked)))
    if os.path.realpath(program) == os.path.realpath(RELEASED):
        later = [name for name, case in asked if case.get("unreleased")]
        asked = [(name, case) for name, case in asked if not case.get("unreleased")]
        if later:
            print("left out: %d cases of what came after the release" % len(later))
    return asked


def main():
    parser = argparse.ArgumentParser(description=__doc__.split("\n")[0])
    parser.add_argument("--program", default=PROGRAM)
    parser.add_argument("--only", default="", help="only the cases whose name has this text")
    parser.add_argument("--large", action="store_true", help="the cases of check once more, with this word")
    parser.add_argument("files", nargs="*")
    options = parser.parse_args()
    # What runs in the background may be begun with this signal ignored, and would hand that on to the programs.
    signal.signal(signal.SIGINT, signal.default_int_handler)
    program = os.path.abspath(options.program)
    if not os.access(program, os.X_OK):
        print("%s: there is no such program; `rt ci` builds it" % program)
        print("0 passed, 1 failed")
        return 1
    folder = os.path.join(HERE, "cases")
    files = options.files or [os.path.join(folder, name) for name in sorted(os.listdir(folder)) if name.endswith(".json")]
    cases = [(name, case) for name, case in cases_of(files) if options.only in name]
    cases = chosen(cases, program, options.large)
    failed = 0
    with concurrent.futures.ThreadPoolExecutor(max_workers=4) as pool:
        for (name, _), problems in zip(cases, pool.map(lambda c: problems_of(c[1], program), cases)):
            failed += bool(problems)
            for problem in problems:
                print("%s: %s" % (name, problem))
    passed = len(cases) - failed
    if not options.only and not options.files and not options.large:
        problems, rows = row_sweeps.play()
        print("".join(problem + "\n" for problem in problems), end="")
        passed, failed = passed + rows, failed + len(problems)
    print("%d passed, %d failed" % (passed, failed))
    return 1 if failed else 0


if __name__ == "__main__":
    sys.exit(main())
