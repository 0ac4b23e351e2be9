#!/usr/bin/env python3
"""Makes the Debian packages of the program and of the client for Python.

    dist/make_package.py [--program FILE] [--output FOLDER]

makes FOLDER/cspwatch_VERSION_amd64.deb and FOLDER/python3-cspwatch_VERSION_all.deb, and prints their names. Without --program the
program is the released one, dist/cspwatch; without --output the folder is dist. The versions are what the program prints and what
the client has. The first package has the program, its manual page, completions, licences, all pages, examples, and a unit for
systemd; the second one what the wheel has, its commands, and the client for C. They are made by `dpkg-deb`, and have the same bytes
each time: all their files have the date of the last commit, or SOURCE_DATE_EPOCH.
"""
import argparse
import gzip
import hashlib
import os
import re
import shutil
import subprocess
import sys
import tempfile
from email.utils import formatdate

HERE = os.path.dirname(os.path.abspath(__file__))
ROOT = os.path.dirname(HERE)
PACKAGE = os.path.join(HERE, "package")
PYTHON = os.path.join(ROOT, "clients", "python")
sys.path.append(os.path.join(PYTHON, "backend"))

import cspwatch_build  # noqa: E402

DOCUMENTS = "usr/share/doc/cspwatch"
CLIENT = "python3-cspwatch"
MODULES = "usr/lib/python3/dist-packages"

CONTROL_OF_CLIENT = """Package: python3-cspwatch
Source: cspwatch
Version: %(version)s
Architecture: all
Maintainer: %(maintainer)s
Installed-Size: %(size)d
Depends: python3 (>= 3.11)
Recommends: cspwatch
Suggests: %(suggested)s
Section: python
Priority: optional
Description: client of cspwatch, and commands for logs, tests and watching
 A typed client by which components of a running system report to cspwatch what
 happens, a plugin for pytest, and the commands of the client: among them
 cspwatch-logs, which has the lines of logs judged. The client for C is among
 the documents.
"""

SUGGESTED = [
    "python3-aiohttp", "python3-hypothesis", "python3-prometheus-client", "python3-prompt-toolkit", "python3-pytest", "python3-redis",
    "python3-zstandard",
]
"""The packages that single commands and options need."""

COMMAND = """#!/usr/bin/python3
import sys

from %(module)s import %(function)s

if __name__ == "__main__":
    sys.exit(%(function)s())
"""

COMPLETIONS = {"zsh/site-functions": "zsh/vendor-completions"}
"""Folders below `share` that Debian calls otherwise than a wheel does."""

CONTROL = """Package: cspwatch
Version: %(version)s
Architecture: amd64
Maintainer: %(maintainer)s
Installed-Size: %(size)d
Depends: libc6 (>= %(library)s)
Section: devel
Priority: optional
Description: check running systems against a CSP specification
 Components of a running system report over sockets what happens, and what they
 refuse. Each report is judged in one step against a CSPM script, by Roscoe's
 stable failures, written to a journal that survives a crash, and answered.
"""

CHANGES = """%(name)s (%(version)s) unstable; urgency=medium

  * CHANGELOG.md.gz says what has changed.

 -- %(maintainer)s  %(date)s
"""

PLAIN = [
    ("completions/cspwatch.bash", "usr/share/bash-completion/completions/cspwatch"),
    ("completions/_cspwatch", "usr/share/zsh/vendor-completions/_cspwatch"),
    ("completions/cspwatch.fish", "usr/share/fish/vendor_completions.d/cspwatch.fish"),
    ("dist/package/cspwatch@.service", "lib/systemd/system/cspwatch@.service"),
    ("dist/package/lintian-overrides", "usr/share/lintian/overrides/cspwatch"),
]
"""Files that are copied as they are, and where they go."""

SMALLER = [
    ("man/cspwatch.1", "usr/share/man/man1/cspwatch.1.gz"),
    ("CHANGELOG.md", DOCUMENTS + "/CHANGELOG.md.gz"),
    ("THIRD-PARTY.md", DOCUMENTS + "/THIRD-PARTY.md.gz"),
]
"""Files that are compressed."""

SCRIPTS = {"cspwatch": ["postinst", "prerm", "postrm"], CLIENT: ["postinst", "prerm"]}
"""What dpkg runs after an installation, before a removal and after it."""


class Refused(Exception):
    """Why there is no package."""


def output(words, **how):
    return subprocess.run(words, stdout=subprocess.PIPE, check=True, **how).stdout.decode("utf-8").strip()


def version_of(program):
    """The version that the program prints, as Debian writes it: what comes before a release sorts before it."""
    found = re.fullmatch(r"cspwatch (\d+\.\d+\.\d+)(?:-(\w+))?", output([program, "--version"]))
    if found is None:
        raise Refused("%s --version prints no version" % program)
    return found[1] + ("~" + found[2] if found[2] else "")


def oldest_library(program):
    """The oldest GNU C library that has all symbols that the program asks for."""
    versions = re.findall(r"GLIBC_(\d+)\.(\d+)", output(["objdump", "-T", program]))
    return "%d.%d" % max((int(first), int(second)) for first, second in versions)


def date():
    """The time that all files get, in seconds."""
    given = os.environ.get("SOURCE_DATE_EPOCH")
    return int(given or output(["git", "-C", ROOT, "log", "-1", "--format=%ct"]))


def maintainer():
    return output(["git", "-C", ROOT, "log", "-1", "--format=%an <%ae>"])


def copy(source, target, mode=0o644):
    os.makedirs(os.path.dirname(target), exist_ok=True)
    shutil.copyfile(source, target)
    os.chmod(target, mode)


def compress(text, target):
    os.makedirs(os.path.dirname(target), exist_ok=True)
    with open(target, "wb") as file, gzip.GzipFile("", "wb", 9, file, mtime=0) as packed:
        packed.write(text)
    os.chmod(target, 0o644)


def copyright_text():
    """Who has the rights, in the form that Debian's tools read, with the text of the MIT licence."""
    with open(os.path.join(PACKAGE, "copyright.head"), encoding="utf-8") as file:
        text = file.read()
    with open(os.path.join(ROOT, "LICENSE-MIT"), encoding="utf-8") as file:
        licence = file.read()
    return text + "".join(" " + (line.rstrip() or ".") + "\n" for line in licence.strip().splitlines())


def version_of_client():
    """The version of the client, as Debian writes it."""
    return re.sub(r"\.dev\d+$", "~dev", cspwatch_build.version())


def write(text, target, mode=0o644):
    os.makedirs(os.path.dirname(target), exist_ok=True)
    with open(target, "wb") as file:
        file.write(text)
    os.chmod(target, mode)


def copy_all(source, target):
    """Copies all that the repository has below a folder; what can be run there can be run."""
    for path in output(["git", "-C", ROOT, "ls-files", source]).splitlines():
        is_program = os.access(os.path.join(ROOT, path), os.X_OK)
        copy(os.path.join(ROOT, path), os.path.join(target, os.path.relpath(path, source)), 0o755 if is_program else 0o644)


def fill_rights(folder, documents, about):
    """The changes and the licences, as each package has them."""
    compress((CHANGES % about).encode("utf-8"), os.path.join(folder, documents, "changelog.gz"))
    write(copyright_text().encode("utf-8"), os.path.join(folder, documents, "copyright"))


def fill_client(folder, about):
    """Puts all files of the client's package below the folder."""
    for name, text in {**cspwatch_build.package(), **cspwatch_build.about()}.items():
        if not os.path.basename(name).startswith("LICENSE"):
            write(text, os.path.join(folder, MODULES, name))
    for command, place in cspwatch_build.COMMANDS.items():
        module, function = place.split(":")
        text = COMMAND % {"module": module, "function": function}
        write(text.encode("ascii"), os.path.join(folder, "usr/bin", command), 0o755)
    for name, text in cspwatch_build.shared().items():
        target = name.split("/data/share/", 1)[1]
        for wheel, debian in COMPLETIONS.items():
            target = target.replace(wheel, debian)
        if target.startswith("man/"):
            compress(text, os.path.join(folder, "usr/share", target + ".gz"))
        else:
            write(text, os.path.join(folder, "usr/share", target))
    documents = "usr/share/doc/" + CLIENT
    copy(os.path.join(PYTHON, "README.md"), os.path.join(folder, documents, "README.md"))
    copy_all("clients/python/examples", os.path.join(folder, documents, "examples"))
    copy_all("clients/c", os.path.join(folder, documents, "c"))
    fill_rights(folder, documents, about)


def fill(folder, program, about):
    """Puts all files of the program's package below the folder."""
    copy(program, os.path.join(folder, "usr/bin/cspwatch"), 0o755)
    for source, target in PLAIN:
        copy(os.path.join(ROOT, source), os.path.join(folder, target))
    for source, target in SMALLER:
        with open(os.path.join(ROOT, source), "rb") as file:
            compress(file.read(), os.path.join(folder, target))
    fill_rights(folder, DOCUMENTS, about)
    for name in ("README.md", "SECURITY.md", "CONTRIBUTING.md"):
        copy(os.path.join(ROOT, name), os.path.join(folder, DOCUMENTS, name))
    copy_all("docs", os.path.join(folder, DOCUMENTS, "docs"))
    copy_all("examples", os.path.join(folder, DOCUMENTS, "examples"))
    os.makedirs(os.path.join(folder, "etc/cspwatch"))


def sums_of(folder):
    """The sums of all files, as dpkg keeps them."""
    lines = []
    for place, _, names in os.walk(folder):
        for path in (os.path.join(place, name) for name in names):
            with open(path, "rb") as file:
                lines.append("%s  %s\n" % (hashlib.md5(file.read()).hexdigest(), os.path.relpath(path, folder)))
    return "".join(sorted(lines, key=lambda line: line.split("  ", 1)[1]))


def fill_control(folder, control, about):
    """Puts what dpkg reads below the folder, which has all other files by then."""
    texts = {"control": control % dict(about, size=size_of(folder)), "md5sums": sums_of(folder)}
    os.makedirs(os.path.join(folder, "DEBIAN"))
    for name, text in texts.items():
        with open(os.path.join(folder, "DEBIAN", name), "w", encoding="utf-8") as file:
            file.write(text)
    own = "" if about["name"] == "cspwatch" else about["name"]
    for name in SCRIPTS[about["name"]]:
        copy(os.path.join(PACKAGE, own, name), os.path.join(folder, "DEBIAN", name), 0o755)


def size_of(folder):
    """How many KiB the files take."""
    sizes = [os.path.getsize(os.path.join(place, name)) for place, _, names in os.walk(folder) for name in names]
    return sum((size + 1023) // 1024 for size in sizes)


def settle(folder, seconds):
    """Gives all files and folders their rights and the same time."""
    for place, _, names in os.walk(folder, topdown=False):
        for name in names:
            os.utime(os.path.join(place, name), (seconds, seconds))
        os.chmod(place, 0o755)
        os.utime(place, (seconds, seconds))


def make(program, target):
    """Makes both packages in the folder, and answers their files."""
    missing = [name for name in ("dpkg-deb", "objdump") if shutil.which(name) is None]
    if missing:
        raise Refused("there is no %s" % " and no ".join(missing))
    seconds = date()
    about = {"name": "cspwatch", "version": version_of(program), "maintainer": maintainer(), "date": formatdate(seconds)}
    about["library"] = oldest_library(program)
    client = dict(about, name=CLIENT, version=version_of_client(), suggested=", ".join(SUGGESTED))
    return [
        packed(target, "amd64", about, CONTROL, lambda folder: fill(folder, program, about), seconds),
        packed(target, "all", client, CONTROL_OF_CLIENT, lambda folder: fill_client(folder, client), seconds),
    ]


def packed(target, architecture, about, control, filled, seconds):
    """Makes a package in the folder, of the files that the call fills in, and answers its file."""
    with tempfile.TemporaryDirectory(prefix="package-") as folder:
        filled(folder)
        fill_control(folder, control, about)
        settle(folder, seconds)
        package = os.path.join(target, "%s_%s_%s.deb" % (about["name"], about["version"], architecture))
        words = ["dpkg-deb", "--root-owner-group", "-Zxz", "--build", folder, package]
        output(words, env=dict(os.environ, SOURCE_DATE_EPOCH=str(seconds)))
    return package


def main():
    parser = argparse.ArgumentParser(description=__doc__.split("\n")[0])
    parser.add_argument("--program", default=os.path.join(HERE, "cspwatch"), help="the program")
    parser.add_argument("--output", default=HERE, help="the folder of the package")
    options = parser.parse_args()
    try:
        print("\n".join(make(os.path.abspath(options.program), os.path.abspath(options.output))))
    except Refused as why:
        sys.exit("make_package.py: %s" % why)


if __name__ == "__main__":
    main()
