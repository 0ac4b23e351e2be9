#!/usr/bin/env python3
"""Tries the wrong bodies of crates/*/wrong: the prover has to refuse each at the function that its edit names.

    tests/wrong_bodies.py [--rules] [--must-fail] [--jobs N] [--beside FILE] [NAME ..]

A NAME is a crate, or one edit as `tokens/lines_from_zero`; without one, all are tried. With --rules, only those are that break
a rule of the project, which they name: the gate tries these. With --must-fail, so are the edits of must-fail/ that name a
function. The libraries below have to be built, which `rt ci`, `rt check` and `rt lib` do. With --beside, an `rt ci` runs at the
same time, which writes what it says to this file: the edits of a crate wait until that has built the libraries below the crate.
tests/README.md has the form of an edit. The last line is `N passed, M failed`; the status is 0 where none failed.
"""
import argparse
import concurrent.futures
import glob
import os
import re
import resource
import shutil
import subprocess
import sys
import tempfile
import threading
import time

ROOT = os.path.dirname(os.path.dirname(os.path.abspath(__file__)))
PARTS = ("src", "specs", "proofs")
# What the prover says of a function that it did not check, since one that it calls is not proved.
CALLS = "no proof: it calls"


def libraries():
    """The libraries that each crate names, by crates.txt."""
    with open(ROOT + "/crates.txt", encoding="utf-8") as file:
        lines = [line.split("#")[0].partition(":") for line in file]
    return {name.strip(): named.split() for name, colon, named in lines if colon}


def below(crate, crates):
    """The repository's crates that this one is built over."""
    return {it for name in crates[crate] if name in crates for it in (name, *below(name, crates))}


def rlib(crate):
    return "%s/crates/%s/out/rlib/%s.rlib" % (ROOT, crate, crate)


def is_newer(crate):
    """Whether a file of the crate is newer than its library, which then may be that of another text."""
    files = [it for part in PARTS for it in glob.glob("%s/crates/%s/%s/**" % (ROOT, crate, part), recursive=True)]
    return any(os.path.isfile(it) and os.path.getmtime(it) > os.path.getmtime(rlib(crate)) for it in files)


def check(crate, crates, functions, folder):
    """Checks these functions and what they call in the folder's copy of the crate, and keeps there what later checks of other texts of it can take.
    The call is that of `rt check --only`: what depends on the kit stands here."""
    kit = os.path.dirname(os.path.dirname(os.path.realpath(shutil.which("rt") or "rt")))
    root = "src/main.rt" if os.path.isfile(folder + "/src/main.rt") else "src/lib.rt"
    words = [kit + "/bin/rattle", "check", "--crate-name", crate, root, "-L", "dependency=%s/rlibs" % kit]
    for name in ["std", *crates[crate]]:
        words += ["--extern", "%s=%s" % (name, rlib(name) if name in crates else "%s/rlibs/%s.rlib" % (kit, name))]
    for name in sorted(below(crate, crates)):
        words += ["-L", "dependency=" + os.path.dirname(rlib(name))]
    words += ["--antt-project", kit + "/rattle/logic/antt-project.json", "--logic-built", kit + "/logic_built"]
    words += ["--incremental", "kept", "--links", crate + "=", "--jobs", "1"]
    words += [word for function in functions for word in ("--only", function)]
    how = {"stdin": subprocess.DEVNULL, "stdout": subprocess.PIPE, "stderr": subprocess.STDOUT, "errors": "replace"}
    return subprocess.run(words, cwd=folder, **how)


class Gate:
    """What an `rt ci` that runs at the same time has built, by what it says."""

    def __init__(self, path):
        self.path = path

    def built(self):
        """The crates that it has built, or None once it is over."""
        with open(self.path, encoding="utf-8", errors="replace") as file:
            said = file.read()
        if re.search(r"^\d+ passed, \d+ failed$", said, re.MULTILINE):
            return None
        return set(re.findall(r"^rt: (\w+) (?:proved|is kept)", said, re.MULTILINE))

    def wait(self, groups, crates):
        """Takes the first group of edits of a crate over libraries that are built, or any where the gate is over. It waits for one."""
        while True:
            built = self.built()
            for group in groups:
                if built is None or below(group[0].crate, crates) <= built:
                    return group
            time.sleep(2)


class Edit:
    """A wrong body: the rule that it breaks, if it names one, the function that has to refuse it, and its changes: a file, what stands there, and
    what comes in its place."""

    def __init__(self, path):
        self.path, self.crate, self.name = path, path.split("/")[-3], os.path.basename(path)[: -len(".edit")]
        self.rule = self.function = at = old = None
        self.changes = []
        # Whether it has to be tried without others.
        self.is_alone = False
        with open(path, encoding="utf-8") as file:
            for line in file.read().split("\n"):
                word, _, rest = line.partition(":")
                self.rule = rest.strip() if word == "rule" else self.rule
                self.function = rest.strip() if word == "function" else self.function
                at = rest.strip() if word == "file" else at
                old = rest[1:] if word == "old" else old
                if word == "new":
                    self.changes.append((at, old, rest[1:]))

    def told(self, why, seconds):
        broken = " (%s)" % self.rule if self.rule else ""
        return "%s%s: %s, %.0f s" % (os.path.relpath(self.path, ROOT), broken, why or "refused", seconds)


def texts_of(crate):
    """The crate's files, each with its text."""
    texts = {}
    for path in sorted(it for part in PARTS for it in glob.glob("%s/crates/%s/%s/**" % (ROOT, crate, part), recursive=True)):
        if os.path.isfile(path):
            with open(path, encoding="utf-8") as file:
                texts[os.path.relpath(path, "%s/crates/%s" % (ROOT, crate))] = file.read()
    return texts


def changed(texts, edit):
    """The texts with the edit's changes, or None where it has none, or one whose old text does not stand once in its file."""
    for path, old, new in edit.changes:
        if not old or texts.get(path, "").count(old) != 1:
            return None
        texts = {**texts, path: texts[path].replace(old, new)}
    return texts if edit.changes else None


def is_in_body(text, old):
    """Whether the old text is in a function's body, so that no check of another function sees what comes in its place."""
    lines = text[: text.index(old)].split("\n")
    for number in range(len(lines) - 1, -1, -1):
        item = re.match(r"( *)(pub(\(\w+\))? )?fn ", lines[number])
        if item:
            opening = re.compile(item[1] + r"(\{|(pub|fn|\)).* \{)$")
            return any(opening.match(line) for line in lines[number:-1])
    return False


def may_share(texts, edit):
    """Whether the edit may be tried together with others."""
    return not edit.is_alone and all(path.endswith(".rt") and is_in_body(texts[path], old) for path, old, _ in edit.changes)


def together(texts, edits):
    """The first edit and those after it that can be tried in one text, each of another function; and that text."""
    made, text = edits[:1], changed(texts, edits[0])
    for edit in edits[1:] if text and may_share(texts, edits[0]) else []:
        if changed(texts, edit) and may_share(texts, edit) and edit.function not in [it.function for it in made]:
            more = changed(text, edit)
            made, text = ([*made, edit], more) if more else (made, text)
    return made, text


def write(folder, texts):
    for part in PARTS:
        shutil.rmtree("%s/%s" % (folder, part), ignore_errors=True)
    for path, text in texts.items():
        os.makedirs(os.path.dirname("%s/%s" % (folder, path)), exist_ok=True)
        with open("%s/%s" % (folder, path), "w", encoding="utf-8") as file:
            file.write(text)


def fault(edit, ran):
    """What is wrong with the edit by the prover's answer, or an empty text where the function was read and refused."""
    lines = ran.stdout.rstrip("\n").split("\n")
    unread = [line for line in lines if re.match(r"(\./)?(src|specs)/\S+: error", line) or "Run the lower steps again" in line]
    if unread:
        return "does not read: " + unread[0][:200]
    answer = "fn %s::%s: " % (edit.crate, edit.function)
    if ran.returncode == 1 and any(re.match(re.escape(answer) + "(not proved|no proof: expected answers)", line) for line in lines):
        return ""
    said = [line for line in lines if line.startswith(answer)] or lines[-1:]
    return "NOT REFUSED at %s (status %d): %s" % (edit.function, ran.returncode, said[0][:200])


def attempt(crate, crates, edits):
    """Tries the crate's edits, and prints of each whether it was refused, or why not. The result is how many were.

    Edits of bodies of several functions are tried in one text: each function is refused there for its own body alone, since it is checked against
    the contracts of those that it calls. One that isn't checked there, since it calls one that was refused, is tried again.
    """
    passed, texts = 0, texts_of(crate)
    with tempfile.TemporaryDirectory(prefix="wrong-") as folder:
        while edits:
            began = time.monotonic()
            made, text = together(texts, edits)
            if made[0].function and text:
                write(folder, text)
                ran = check(crate, crates, [it.function for it in made], folder)
                faults = [(it, fault(it, ran)) for it in made]
            else:
                faults = [(made[0], "does not read: it names no function, changes nothing, or an 'old:' text does not stand once in its file")]
            for edit, why in faults:
                # What calls one that was refused is tried without that one, and all else that isn't refused by itself.
                if why and made[1:]:
                    edit.is_alone = CALLS not in why or all(it for _, it in faults)
                    continue
                edits = [it for it in edits if it is not edit]
                passed += not why
                print(edit.told(why, (time.monotonic() - began) / len(made)), flush=True)
    return passed


def missing_below(edits, crates):
    """The crates below those of the edits that are not built."""
    return [it for it in sorted({it for edit in edits for it in below(edit.crate, crates)}) if not os.path.isdir(rlib(it))]


def attempt_all(groups, crates, jobs, gate):
    """Tries groups of edits of a crate each, some side by side. The result is how many were refused."""
    lock = threading.Lock()

    def work(_):
        passed = 0
        while True:
            with lock:
                if not groups:
                    return passed
                edits = gate.wait(groups, crates) if gate else groups[0]
                groups.remove(edits)
            missing = missing_below(edits, crates)
            if missing:
                print("%s: not tried, since these are not built: %s" % (edits[0].crate, " ".join(missing)), flush=True)
            else:
                passed += attempt(edits[0].crate, crates, edits)

    with concurrent.futures.ThreadPoolExecutor(jobs) as pool:
        return sum(pool.map(work, range(jobs)))


def main():
    parser = argparse.ArgumentParser(description=__doc__.split("\n")[0])
    parser.add_argument("--rules", action="store_true", help="only those that break a rule of the project")
    parser.add_argument("--must-fail", action="store_true", help="also the edits of must-fail/ that name a function")
    parser.add_argument("--jobs", type=int, default=2, help="how many are tried side by side")
    parser.add_argument("--beside", help="the file of what an `rt ci` says that runs at the same time")
    parser.add_argument("names", nargs="*", help="crates, or edits as CRATE/EDIT")
    options = parser.parse_args()
    crates = libraries()
    edits = [Edit(it) for it in sorted(glob.glob(ROOT + "/crates/*/wrong/*.edit"))]
    if options.must_fail:
        edits += [it for it in map(Edit, sorted(glob.glob(ROOT + "/crates/*/must-fail/*.edit"))) if it.function]
    edits = [it for it in edits if it.rule or not options.rules]
    edits = [it for it in edits if not options.names or {it.crate, it.crate + "/" + it.name} & {*options.names}]
    missing = [] if options.beside else missing_below(edits, crates)
    if missing or not edits:
        print("not built (`rt lib` in crates/NAME does it, `rt ci` all): " + " ".join(missing) if missing else "there is no such edit")
        print("0 passed, 1 failed")
        return 1
    older = [] if options.beside else sorted({it for edit in edits for it in below(edit.crate, crates) if is_newer(it)})
    if older:
        print("note: files of these crates are newer than their libraries, which `rt lib` builds anew: " + " ".join(older))
    groups = [[it for it in edits if it.crate == crate] for crate in sorted({it.crate for it in edits})]
    groups.sort(key=len, reverse=True)
    passed = attempt_all(groups, crates, options.jobs, Gate(options.beside) if options.beside else None)
    spent = resource.getrusage(resource.RUSAGE_CHILDREN)
    cost = (len(edits), spent.ru_utime + spent.ru_stime, spent.ru_maxrss / 1e6)
    print("%d wrong bodies: %.0f seconds of processor time, at most %.1f GB each" % cost)
    print("%d passed, %d failed" % (passed, len(edits) - passed))
    return 1 if passed < len(edits) else 0


if __name__ == "__main__":
    sys.exit(main())
