#!/usr/bin/env python3
"""Builds a variant of the program, whose journals go on in parts of few records, and prints where it is.

    tests/variant.py [--size 50] [--jobs 2] [--folder DIR]

The number of records that a part takes is one constant of `command_line`. So that crate is built anew from a changed copy, and the program
over it; all other libraries are those that `rt ci`, `rt check` or `rt lib` left. Only a proved crate is built: what changed is proved in the
copy, from what an earlier `rt check` or `rt lib` kept of the crate, or else the whole crate, which takes some minutes. A variant is kept in the
folder (the system's for temporary files) for as long as the texts and the libraries stay the same.
"""
import argparse
import contextlib
import glob
import hashlib
import os
import shutil
import subprocess
import sys
import tempfile

sys.dont_write_bytecode = True

from wrong_bodies import ROOT, below, libraries, rlib, texts_of, write  # noqa: E402

CHANGED, PROGRAM = "command_line", "cspwatch"
FILE, LINE = "src/limits.rt", "PART_SIZE: usize = %s;"
PART_SIZE = "1_000_000"


class Unbuilt(Exception):
    """There is no variant; the text says why."""


def kit():
    return os.path.dirname(os.path.dirname(os.path.realpath(shutil.which("rt") or "rt")))


def texts_with(size):
    """The texts of the changed crate."""
    texts = texts_of(CHANGED)
    if texts.get(FILE, "").count(LINE % PART_SIZE) != 1:
        raise Unbuilt("%s doesn't have '%s' once" % (FILE, LINE % PART_SIZE))
    return {**texts, FILE: texts[FILE].replace(LINE % PART_SIZE, LINE % size)}


def key_of(size, crates):
    """A sum over all that the variant comes from."""
    names = sorted(below(CHANGED, crates))
    stamps = [read(os.path.join(os.path.dirname(rlib(name)), "stamp")) for name in names]
    whole = repr([read(kit() + "/KIT-ID"), size, names, stamps, texts_with(size), texts_of(PROGRAM)])
    return hashlib.sha256(whole.encode()).hexdigest()[:16]


def read(path):
    with contextlib.suppress(FileNotFoundError), open(path, encoding="utf-8") as file:
        return file.read()
    return ""


def words_of(crate, root, crates, own, jobs):
    """The words by which `rattle` builds the crate; `own` are the libraries that stand elsewhere than in the repository."""
    words = [kit() + "/bin/rattle", "build", "--crate-name", crate, root, "-L", "dependency=%s/rlibs" % kit()]
    for name in ["std", *crates[crate]]:
        path = own.get(name) or (rlib(name) if name in crates else "%s/rlibs/%s.rlib" % (kit(), name))
        words += ["--extern", "%s=%s" % (name, path)]
    for name in sorted(below(crate, crates) - {*own}):
        words += ["-L", "dependency=" + os.path.dirname(rlib(name))]
    words += ["--antt-project", kit() + "/rattle/logic/antt-project.json", "--logic-built", kit() + "/logic_built"]
    return words + ["--links", crate + "=", "--jobs", str(jobs)]


def call(words, folder):
    """Runs a command, which has to end well."""
    ran = subprocess.run(words, cwd=folder, stdin=subprocess.DEVNULL, stdout=subprocess.PIPE, stderr=subprocess.STDOUT, errors="replace", check=False)
    if ran.returncode:
        raise Unbuilt("%s: status %d: %s" % (" ".join(words[:4]), ran.returncode, ran.stdout[-2000:]))


def build(size, crates, jobs, folder):
    """Builds the variant in this folder."""
    crate = os.path.join(folder, CHANGED)
    os.mkdir(crate)
    write(crate, texts_with(size))
    kept = "%s/crates/%s/out/incremental" % (ROOT, CHANGED)
    if os.path.isdir(kept):
        shutil.copytree(kept, os.path.join(crate, "kept"))
    library = os.path.join(folder, "rlib", CHANGED + ".rlib")
    os.mkdir(os.path.dirname(library))
    call([*words_of(CHANGED, "src/lib.rt", crates, {}, jobs), "--incremental", "kept", "-o", library], crate)
    program = os.path.join(folder, PROGRAM)
    words = [*words_of(PROGRAM, "src/main.rt", crates, {CHANGED: library}, jobs), "--toolchain", kit() + "/toolchain", "-o", program + ".o"]
    call(words, "%s/crates/%s" % (ROOT, PROGRAM))
    libraries_in_c = ["%s/c/%s" % (kit(), name) for name in ("libos_c.a", "liblibc_c.a")]
    link = [kit() + "/bin/rattle-link", "--target", "x86_64-unknown-linux-gnu", "--toolchain", kit() + "/toolchain", "-o", program, program + ".o"]
    call(link + libraries_in_c, folder)
    return program


def built(size, jobs=2, folder=None):
    """The path of the variant, which is built where it isn't there yet."""
    crates = libraries()
    missing = [name for name in sorted(below(CHANGED, crates)) if not os.path.isdir(rlib(name))]
    if missing:
        raise Unbuilt("not built (`rt lib` in crates/NAME does it, `rt ci` all): " + " ".join(missing))
    top = os.path.join(folder or tempfile.gettempdir(), "cspwatch-variants")
    os.makedirs(top, mode=0o700, exist_ok=True)
    kept = os.path.join(top, "%s-%d-%s" % (PROGRAM, size, key_of(size, crates)))
    if os.access(kept, os.X_OK):
        return kept
    for older in glob.glob(os.path.join(top, "%s-%d-*" % (PROGRAM, size))):
        os.remove(older)
    with tempfile.TemporaryDirectory(prefix="variant-", dir=top) as work:
        os.replace(build(size, crates, jobs, work), kept)
    return kept


def main():
    parser = argparse.ArgumentParser(description=__doc__.split("\n")[0])
    parser.add_argument("--size", type=int, default=50, help="how many records a part takes")
    parser.add_argument("--jobs", type=int, default=2)
    parser.add_argument("--folder", help="where variants are kept")
    options = parser.parse_args()
    try:
        print(built(options.size, options.jobs, options.folder))
    except Unbuilt as why:
        print("there is no variant: %s" % why)
        return 1
    return 0


if __name__ == "__main__":
    sys.exit(main())
