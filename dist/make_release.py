#!/usr/bin/env python3
"""Makes a release of the built program, or compares the built program with the last release.

    dist/make_release.py [--program FILE] [--build]    makes the files of a release in dist
    dist/make_release.py --compare [--program FILE]    says whether the program is the released one, byte for byte

Without --program the program is crates/cspwatch/out/cspwatch, which `rt` builds; with --build it is built first. A release is the
program, its package for Debian, the wheel of the client for Python, what is known of them in RELEASE, and their sums in SHA256SUMS.
It is made from a state that is committed, whose version doesn't end in -dev, as VERSION does between releases.

Where a source of the program has changed since, be it a proof alone, the comparison passes if the version is a later one. The last line
of a comparison is `N passed, M failed`.
"""
import argparse
import hashlib
import os
import platform
import re
import shutil
import subprocess
import sys

import make_package
import make_wheel

HERE = os.path.dirname(os.path.abspath(__file__))
ROOT = os.path.dirname(HERE)
PROGRAM = os.path.join(ROOT, "crates", "cspwatch", "out", "cspwatch")
RELEASE = os.path.join(HERE, "RELEASE")
SUMS = os.path.join(HERE, "SHA256SUMS")
COPY = os.path.join(HERE, "cspwatch")
BUILD = [(["rt", "ci"], ROOT)]

UNRELEASED = "-dev"
"""What a version ends in between two releases."""

C_LIBRARY = re.compile(r"(linux-vdso|linux-gate|libc|libm|libpthread|libdl|ld-linux[\w-]*)\.so(\.\d+)*")
"""What a program that needs the C library alone is linked to."""


class Refused(Exception):
    """Why there is no release."""


def output(words, folder=ROOT):
    """What the command prints, without the last line's end."""
    return subprocess.run(words, cwd=folder, stdout=subprocess.PIPE, check=True).stdout.decode("utf-8").rstrip("\n")


def digest(path):
    with open(path, "rb") as file:
        return hashlib.sha256(file.read()).hexdigest()


def numbers_of(version):
    """The numbers of a version, to compare it with another one."""
    return [int(number) for number in version.partition("-")[0].split(".")]


def versions_of_clients():
    """By the file in which it stands, the version of each client."""
    with open(os.path.join(ROOT, "clients", "c", "cspwatch_client.h"), encoding="utf-8") as file:
        header = re.search(r'^#define CSPWATCH_CLIENT_VERSION "(.*)"$', file.read(), re.MULTILINE)
    return {"clients/python/cspwatch_client/__init__.py": make_wheel.version(), "clients/c/cspwatch_client.h": header and header[1]}


def version_of(program):
    """The version that `--version` prints: a number, and `-dev` after it between two releases."""
    found = re.fullmatch(r"\S+ (\d+\.\d+\.\d+(?:-dev)?)", output([program, "--version"]))
    if found is None:
        raise Refused("%s --version prints no version" % program)
    return found[1]


def needs(program):
    """The shared libraries that the program is linked to, by name."""
    listed = subprocess.run(["ldd", program], stdout=subprocess.PIPE, stderr=subprocess.STDOUT).stdout.decode("utf-8")
    if "statically linked" in listed or "not a dynamic executable" in listed:
        return []
    return sorted(os.path.basename(line.split()[0]) for line in listed.splitlines() if line.strip())


def oldest_c_library(program):
    """The oldest version of the GNU C library that has what the program asks for; None where that isn't known."""
    if shutil.which("objdump") is None or not needs(program):
        return None
    found = re.findall(r"GLIBC_(\d+(?:\.\d+)+)", output(["objdump", "-T", program]))
    return max(found, key=lambda text: [int(part) for part in text.split(".")], default=None)


def kit():
    """The kit that proves and builds, as it names itself."""
    return output(["rt", "version"]).splitlines()[0] if shutil.which("rt") else "unknown"


def commit():
    """The commit of this state, which has to be committed as a whole, the files of the release excepted."""
    own = [":!dist/" + name for name in ("RELEASE", "SHA256SUMS", "cspwatch", "*.deb", "*.whl")]
    changed = output(["git", "status", "--porcelain", "--", "."] + own)
    if changed:
        raise Refused("these files are not committed:\n%s" % changed)
    return output(["git", "rev-parse", "HEAD"])


def facts_of(program):
    """What a release says of the program, in order."""
    version = version_of(program)
    if version.endswith(UNRELEASED):
        raise Refused("%s is no version of a release: take %s off VERSION" % (version, UNRELEASED))
    for name, other in versions_of_clients().items():
        if other != version:
            raise Refused("the program has version %s, and %s has %s" % (version, name, other))
    libraries = needs(program)
    more = [name for name in libraries if C_LIBRARY.fullmatch(name) is None]
    if more:
        raise Refused("the program needs more than the C library: %s" % ", ".join(more))
    return [
        ("name", "cspwatch-%s-%s-%s" % (version, platform.machine(), platform.system().lower())),
        ("version", version),
        ("commit", commit()),
        ("sources", sources()),
        ("kit", kit()),
        ("bytes", str(os.path.getsize(program))),
        ("sha256", digest(program)),
        ("needs", " ".join(libraries) or "nothing"),
        ("oldest glibc", oldest_c_library(program) or "unknown"),
    ]


def make(program):
    """Writes the files of the release. What is left of the one before goes."""
    facts = facts_of(program)
    for name in os.listdir(HERE):
        if name.endswith((".deb", ".whl")):
            os.remove(os.path.join(HERE, name))
    shutil.copy(program, COPY)
    try:
        packages, wheel = make_package.make(COPY, HERE), make_wheel.make(HERE)
    except make_package.Refused as why:
        raise Refused(str(why)) from None
    with open(RELEASE, "w", encoding="utf-8") as file:
        file.writelines("%s: %s\n" % fact for fact in facts)
    with open(SUMS, "w", encoding="utf-8") as file:
        file.writelines("%s  %s\n" % (digest(path), os.path.basename(path)) for path in (COPY, *packages, wheel))
    with open(RELEASE, encoding="utf-8") as file:
        print(file.read(), end="")
    made = " and ".join("dist/" + os.path.basename(path) for path in packages)
    print("the program is dist/cspwatch, the packages are %s, and the wheel dist/%s" % (made, os.path.basename(wheel)))


def released():
    """What the last release says, by name; None where there is none."""
    if not os.path.exists(RELEASE):
        return None
    with open(RELEASE, encoding="utf-8") as file:
        return dict(line.rstrip("\n").split(": ", 1) for line in file)


def folders():
    """The folders of the crates that the program is made of."""
    with open(os.path.join(ROOT, "crates.txt"), encoding="utf-8") as file:
        lines = [line.split("#", 1)[0].partition(":") for line in file]
    named = {head.split()[0]: rest.split() for head, colon, rest in lines if colon}
    found, todo = set(), ["cspwatch"]
    while todo:
        crate = todo.pop()
        if crate in named and crate not in found:
            found.add(crate)
            todo += named[crate]
    return ["crates/%s/%s" % (crate, part) for crate in sorted(found) for part in ("src", "specs", "proofs")]


def sources():
    """The SHA-256 of the names and the bytes of all files of these folders."""
    total = hashlib.sha256()
    for folder in folders():
        for at, below, names in os.walk(os.path.join(ROOT, folder)):
            below.sort()
            for path in sorted(os.path.join(at, name) for name in names):
                total.update(("%s %s\n" % (os.path.relpath(path, ROOT), digest(path))).encode())
    return total.hexdigest()


def changed_files(release):
    """The files of the release that aren't what it says."""
    with open(SUMS, encoding="utf-8") as file:
        sums = dict(reversed(line.split()) for line in file)
    if sums.get("cspwatch") != release["sha256"]:
        return ["SHA256SUMS"]
    return [name for name, total in sums.items() if not os.path.exists(os.path.join(HERE, name)) or digest(os.path.join(HERE, name)) != total]


def judged(program, release):
    """What is to be said of the program beside the last release, and whether it passes."""
    changed = changed_files(release)
    if changed:
        return "dist/%s is NOT what the release has" % ", dist/".join(changed), False
    if not os.path.exists(program):
        return "%s: there is no such program" % program, False
    name = release["version"]
    if sources() == release["sources"]:
        if digest(program) == release["sha256"]:
            return "the built program is that of release %s, byte for byte" % name, True
        if kit() == release["kit"]:
            return "the built program is NOT that of release %s, though its sources are the same" % name, False
        return "the built program is another than that of release %s, which was built by another kit: %s" % (name, release["kit"]), True
    version = version_of(program)
    if numbers_of(version) <= numbers_of(name):
        text = "the built program says that it is version %s, and sources have changed since release %s: VERSION has to be a later one that ends in %s"
        return text % (version, name, UNRELEASED), False
    if version.endswith(UNRELEASED):
        return "the built program is another than that of release %s: its sources have changed since" % name, True
    return "version %s isn't released: make the release, or let VERSION end in %s" % (version, UNRELEASED), True


def compare(program):
    """Prints what the comparison with the last release gives; answers whether it passes."""
    release = released()
    if release is None:
        print("there is no release to compare with")
        print("0 passed, 0 failed")
        return True
    text, passes = judged(program, release)
    print(text)
    print("%d passed, %d failed" % (passes, not passes))
    return passes


def main():
    parser = argparse.ArgumentParser(description=__doc__.split("\n")[0])
    parser.add_argument("--program", default=PROGRAM)
    parser.add_argument("--build", action="store_true", help="prove and build the program first")
    parser.add_argument("--compare", action="store_true", help="compare the program with the last release")
    options = parser.parse_args()
    program = os.path.abspath(options.program)
    if options.build:
        for words, folder in BUILD:
            subprocess.run(words, cwd=folder, check=True)
    if options.compare:
        return 0 if compare(program) else 1
    if not os.access(program, os.X_OK):
        print("%s: there is no such program" % program, file=sys.stderr)
        return 1
    try:
        make(program)
    except Refused as reason:
        print("there is no release: %s" % reason, file=sys.stderr)
        return 1
    return 0


if __name__ == "__main__":
    sys.exit(main())
