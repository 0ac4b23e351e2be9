#!/usr/bin/env python3
"""Makes a release, and compares programs with it, in a copy of the repository (dist/make_release.py).

    tests/release.py

The released program of this repository is released once more there. The last line is `N passed, M failed`.
"""
import os
import re
import shutil
import subprocess
import sys
import tempfile

import documents

ROOT = documents.ROOT
RELEASED = os.path.join(ROOT, "dist", "cspwatch")
SOURCE = "crates/words/src/commands.rt"
INIT, HEADER = "clients/python/cspwatch_client/__init__.py", "clients/c/cspwatch_client.h"
NAMES = ["GIT_AUTHOR_NAME", "GIT_COMMITTER_NAME"]
MAILS = ["GIT_AUTHOR_EMAIL", "GIT_COMMITTER_EMAIL"]
PLACE = dict(os.environ, **{name: "Somebody" for name in NAMES}, **{name: "somebody@example.org" for name in MAILS})
SECONDS = 120


def output(words, folder):
    """What the command says, and its status."""
    done = subprocess.run(words, cwd=folder, env=PLACE, stdin=subprocess.DEVNULL, stdout=subprocess.PIPE, stderr=subprocess.STDOUT, timeout=SECONDS)
    return done.stdout.decode("utf-8", "replace"), done.returncode


class Copy:
    """A copy of the repository, in which releases are made."""

    def __init__(self, scratch):
        self.scratch, self.folder = scratch, os.path.join(scratch, "copy")
        self.passed = self.failed = 0
        documents.copy_own(self.folder)
        self.git("init", "-q")
        self.commit()

    def git(self, *words):
        said, status = output(["git", *words], self.folder)
        if status:
            raise AssertionError("git %s: %s" % (" ".join(words), said))

    def commit(self):
        self.git("add", "-A", "-f")
        self.git("commit", "-q", "--allow-empty", "-m", "A state")

    def change(self, name, old, new):
        """Replaces what fits the pattern in the file."""
        path = os.path.join(self.folder, name)
        with open(path, encoding="utf-8") as file:
            text = file.read()
        with open(path, "w", encoding="utf-8") as file:
            file.write(re.sub(old, new, text, flags=re.MULTILINE))

    def program(self, version):
        """Another program, which prints this version."""
        path = os.path.join(self.scratch, "other-" + version)
        with open(path, "w", encoding="ascii") as file:
            file.write("#!/bin/sh\necho cspwatch %s\n" % version)
        os.chmod(path, 0o755)
        return path

    def check(self, what, words, wanted, status):
        """Whether the command says this, and ends so."""
        said, ended = output(words, self.folder)
        good = wanted in said and ended == status
        self.passed += good
        self.failed += not good
        if not good:
            print("%s: status %d, and not `%s` with status %d:\n%s" % (what, ended, wanted, status, said))

    def make(self, what, wanted, status, program=RELEASED):
        self.check(what, [sys.executable, "dist/make_release.py", "--program", program], wanted, status)

    def compare(self, what, program, wanted, passes):
        self.check(what, [sys.executable, "dist/make_release.py", "--compare", "--program", program], wanted, 0 if passes else 1)


def refused(copy, version):
    """What no release is made of."""
    copy.make("a version between releases", "9.9.9-dev is no version of a release", 1, copy.program("9.9.9-dev"))
    copy.make("no version", "prints no version", 1, copy.program("of today"))
    for name, line in ((INIT, '__version__ = "%s"'), (HEADER, '#define CSPWATCH_CLIENT_VERSION "%s"')):
        copy.change(name, "^" + re.escape(line).replace("%s", ".*") + "$", line % "9.9.9")
        copy.make("another version of a client", "and %s has 9.9.9" % name, 1)
        copy.change(name, "^" + re.escape(line).replace("%s", ".*") + "$", line % version)
    copy.change("README.md", r"\A", "Changed.\n")
    copy.make("what isn't committed", "these files are not committed", 1)
    copy.commit()


def made(copy, version):
    """A release, twice: the same bytes."""
    package, wheel = "cspwatch_%s_amd64.deb" % version, "cspwatch_client-%s-py3-none-any.whl" % version
    client = "python3-cspwatch_%s_all.deb" % version
    with open(os.path.join(copy.folder, "dist", "cspwatch_0.0.1_amd64.deb"), "w", encoding="ascii"):
        pass
    copy.commit()
    copy.make("a release", "the packages are dist/%s and dist/%s, and the wheel dist/%s" % (package, client, wheel), 0)
    copy.check("the sums", ["sh", "-c", "cd dist && sha256sum -c SHA256SUMS"], "cspwatch: OK\n%s: OK\n%s: OK\n%s: OK\n" % (package, client, wheel), 0)
    copy.check("the files", ["sh", "-c", "ls dist | LC_ALL=C sort | grep '[.]deb\\|[.]whl'"], "%s\n%s\n%s\n" % (package, wheel, client), 0)
    unpacked = "dpkg-deb --fsys-tarfile dist/%s | tar -xO ./usr/bin/cspwatch | cmp - dist/cspwatch" % package
    copy.check("the program in the package", ["sh", "-c", unpacked], "", 0)
    sums = os.path.join(copy.folder, "dist", "SHA256SUMS")
    shutil.copy(sums, copy.scratch)
    shutil.rmtree(os.path.join(copy.folder, "dist", "__pycache__"), ignore_errors=True)
    copy.git("checkout", "-q", "dist/RELEASE", "dist/SHA256SUMS", "dist/cspwatch")
    copy.git("clean", "-q", "-f", "dist")
    copy.make("the release again", "the program is dist/cspwatch", 0)
    copy.check("its bytes", ["cmp", sums, os.path.join(copy.scratch, "SHA256SUMS")], "", 0)


def compared(copy, version):
    """Programs beside the release, and sources that have changed since."""
    before, patch = version.rsplit(".", 1)
    later = "%s.%d" % (before, int(patch) + 1)
    copy.compare("the released program", RELEASED, "is that of release %s, byte for byte\n1 passed, 0 failed\n" % version, True)
    copy.compare("another one of the same sources", copy.program(version), "is NOT that of release", False)
    copy.compare("no program", "nothing", "there is no such program\n0 passed, 1 failed\n", False)
    copy.change(SOURCE, r"\A", "// Changed.\n")
    copy.compare("changed sources of the released version", copy.program(version), "VERSION has to be a later one", False)
    copy.compare("a former version", copy.program("0.0.1-dev"), "VERSION has to be a later one", False)
    copy.compare("the released program of changed sources", RELEASED, "VERSION has to be a later one", False)
    copy.compare("between releases", copy.program(later + "-dev"), "its sources have changed since\n1 passed, 0 failed\n", True)
    copy.compare("before a release", copy.program(later), "version %s isn't released" % later, True)
    copy.change("dist/SHA256SUMS", r"\A.", "x")
    copy.compare("another sum", RELEASED, "SHA256SUMS is NOT what the release has", False)
    shutil.copy(os.path.join(copy.scratch, "SHA256SUMS"), os.path.join(copy.folder, "dist"))
    with open(os.path.join(copy.folder, "dist", "cspwatch_%s_amd64.deb" % version), "ab") as file:
        file.write(b"x")
    copy.compare("another package", RELEASED, "cspwatch_%s_amd64.deb is NOT what the release has" % version, False)


def main():
    if shutil.which("git") is None or shutil.which("dpkg-deb") is None or shutil.which("objdump") is None:
        print("left out: a release: there is no git, dpkg-deb or objdump")
        print("0 passed, 0 failed")
        return 0
    version = subprocess.run([RELEASED, "--version"], stdout=subprocess.PIPE, check=True).stdout.decode().split()[1]
    with tempfile.TemporaryDirectory(prefix="release-") as scratch:
        copy = Copy(scratch)
        refused(copy, version)
        made(copy, version)
        compared(copy, version)
    print("%d passed, %d failed" % (copy.passed, copy.failed))
    return 1 if copy.failed else 0


if __name__ == "__main__":
    sys.exit(main())
