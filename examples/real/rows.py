#!/usr/bin/env python3
"""Compares the recorded logs of this folder with what is kept of them, or writes that anew.

    examples/real/rows.py [--program FILE] [--write]

What is kept of a log is NAME.verdicts beside it, which is what `cspwatch-logs` prints of it, and rows of tests/cases/real_examples.json:
the reports that the map makes of it, and the replies to them. Without --program the program is crates/cspwatch/out/cspwatch. Reasons of
rejected reports are left out, since not every version gives them. The last line is `N passed, M failed`.
"""
import argparse
import glob
import json
import os
import re
import subprocess
import sys
import tempfile

HERE = os.path.dirname(os.path.abspath(__file__))
ROOT = os.path.dirname(os.path.dirname(HERE))
ROWS = os.path.join(ROOT, "tests", "cases", "real_examples.json")
COMMAND = os.path.join(ROOT, "clients", "python", "bin", "cspwatch-logs")
EXAMPLES = [(name, name, {"good": ["good.log"], "bad": ["bad.log"]}) for name in ("sqlite", "mosquitto", "redis", "smtp")]
EXAMPLES += [
    (folder, name, {"%s-%s" % (name, kind): sorted(os.path.basename(path) for path in glob.glob(os.path.join(HERE, folder, "%s-%s*.log" % (name, kind))))
                    for kind in ("good", "bad")})
    for folder, name in (("postgres", "rows"), ("postgres", "deadlock"), ("etcd", "lock"), ("etcd", "raft"))
]
"""Folders, the names of script and map, and the logs by the names of what is kept of them."""
SECONDS = 120

RECORDER = """#!/bin/sh
# The program, with a copy of what a check reads.
if [ "$1" = check ] && [ "$2" != --help ]; then tee "$RECORDS/$$" | "$RECORDED" "$@"; else exec "$RECORDED" "$@"; fi
"""


def text_of(*path):
    with open(os.path.join(*path), encoding="utf-8") as file:
        return file.read()


def without_reasons(verdicts):
    return re.sub(r"(: NO \d+(?: \([^)]*\))*), .*", r"\1", verdicts)


def run(program, folder_of, name, logs):
    """What the command prints of logs, and the reports that each check was given."""
    with tempfile.TemporaryDirectory() as folder:
        recorder, records = os.path.join(folder, "cspwatch"), os.path.join(folder, "records")
        os.mkdir(records)
        with open(recorder, "w", encoding="ascii") as file:
            file.write(RECORDER)
        os.chmod(recorder, 0o755)
        words = [sys.executable, "-B", COMMAND, "--program", recorder, name + ".toml", *logs]
        environment = {**os.environ, "RECORDED": program, "RECORDS": records}
        done = subprocess.run(words, cwd=os.path.join(HERE, folder_of), env=environment, stdout=subprocess.PIPE, stderr=subprocess.STDOUT, timeout=SECONDS)
        # Sorted, since checks that begin at once come in any order.
        reports = sorted(text_of(records, each).splitlines() for each in os.listdir(records))
    return without_reasons(done.stdout.decode("utf-8")), reports


def row_of(program, folder, name, title, reports):
    """The row of these reports, with the program's replies."""
    script = name + ".csp"
    options = ["--large"] if re.search("(?m)^large = true$", text_of(HERE, folder, name + ".toml")) else []
    words = [program, "check", *options, os.path.join(HERE, folder, script), "SYSTEM"]
    done = subprocess.run(words, input="".join(line + "\n" for line in reports).encode(), stdout=subprocess.PIPE, timeout=SECONDS)
    return {
        "name": title,
        "args": ["check", *options, script, "SYSTEM"],
        "files": {script: text_of(HERE, folder, script)},
        "input": reports,
        "stdout": done.stdout.decode("ascii").splitlines(),
        "stderr": [],
        "status": done.returncode,
    }


def written(rows):
    return "[\n" + ",\n".join(" " + json.dumps(row) for row in rows) + "\n]\n"


def main():
    parser = argparse.ArgumentParser(description=__doc__.split("\n")[0])
    parser.add_argument("--program", default=os.path.join(ROOT, "crates", "cspwatch", "out", "cspwatch"))
    parser.add_argument("--write", action="store_true", help="write what is kept anew")
    options = parser.parse_args()
    program = os.path.abspath(options.program)
    kept, rows = {}, []
    for folder, name, logs in EXAMPLES:
        for kind, files in logs.items():
            verdicts, sessions = run(program, folder, name, files)
            kept[os.path.join(HERE, folder, kind + ".verdicts")] = verdicts
            for number, reports in enumerate(sessions, 1):
                title = "%s, %s log" % (name, kind.rpartition("-")[2]) + (", session %d" % number if len(sessions) > 1 else "")
                rows.append(row_of(program, folder, name, title, reports))
    kept[ROWS] = written(rows)
    failed = 0
    for path, text in kept.items():
        if options.write:
            with open(path, "w", encoding="utf-8") as file:
                file.write(text)
        elif not os.path.exists(path) or text_of(path) != text:
            failed += 1
            print("%s isn't what the log and the map give" % os.path.relpath(path, ROOT))
    print("%d passed, %d failed" % (len(kept) - failed, failed))
    return 1 if failed else 0


if __name__ == "__main__":
    sys.exit(main())
