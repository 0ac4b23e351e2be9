#!/usr/bin/env python3
"""Records logs of PostgreSQL and etcd anew with the real servers, in a temporary folder, and has them judged.

    examples/real/record.py [--program FILE] [NAME ..]

The good logs have to be accepted, and the bad ones to be rejected, whatever the machine did this time. A system that isn't installed is
left out. Without --program the program is crates/cspwatch/out/cspwatch. The last line is `N passed, M failed`.
"""
import argparse
import glob
import os
import shutil
import subprocess
import sys
import tempfile

from rows import COMMAND, EXAMPLES, HERE, ROOT

NEEDED = {"postgres": ["/usr/lib/postgresql/*/bin/postgres"], "etcd": ["/usr/bin/etcd", "/usr/bin/etcdctl", "/usr/bin/jq"]}
"""The files that a system needs, as patterns."""

SECONDS = 600


def judged(program, folder, name, kind):
    """Whether the logs of this kind are judged as they are to be; what is wrong is printed."""
    files = sorted(os.path.basename(path) for path in glob.glob(os.path.join(folder, "%s-%s*.log" % (name, kind))))
    words = [sys.executable, "-B", COMMAND, "--program", program, name + ".toml", *files]
    done = subprocess.run(words, cwd=folder, stdout=subprocess.PIPE, stderr=subprocess.STDOUT, timeout=SECONDS)
    is_right = done.returncode == {"good": 0, "bad": 1}[kind]
    if not is_right:
        print("%s-%s: status %d\n%s" % (name, kind, done.returncode, done.stdout.decode("utf-8", "replace")[-2000:]))
    return is_right


def main():
    parser = argparse.ArgumentParser(description=__doc__.split("\n")[0])
    parser.add_argument("--program", default=os.path.join(ROOT, "crates", "cspwatch", "out", "cspwatch"))
    parser.add_argument("names", nargs="*", default=list(NEEDED), metavar="NAME", help="the systems; all where none is named")
    options = parser.parse_args()
    program, passed, failed = os.path.abspath(options.program), 0, 0
    for system in options.names:
        if not all(glob.glob(pattern) for pattern in NEEDED[system]):
            print("left out: %s isn't installed" % system)
            continue
        with tempfile.TemporaryDirectory(prefix="record-") as scratch:
            folder = shutil.copytree(os.path.join(HERE, system), os.path.join(scratch, system), ignore=shutil.ignore_patterns("*.log", "*.verdicts"))
            subprocess.run([os.path.join(folder, "run.sh")], stdout=subprocess.DEVNULL, check=True, timeout=SECONDS)
            results = [judged(program, folder, name, kind) for each, name, _ in EXAMPLES if each == system for kind in ("good", "bad")]
        passed, failed = passed + sum(results), failed + results.count(False)
    print("%d passed, %d failed" % (passed, failed))
    return 1 if failed else 0


if __name__ == "__main__":
    sys.exit(main())
