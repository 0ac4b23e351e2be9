"""What the pages say that other files of the repository know: words, files, release, wrong bodies, codes of faults, tables.

`checks()` gives, for each comparison, where it is made and what is wrong there; None where nothing is.

**Words of a page.** A word is a run of characters without a blank that has a letter or a digit. Those of headings, prose, lists and
tables count; those of blocks of code and of comments (`<!-- .. -->`) don't. A page fails where it has a tenth more than its budget.
"""
import glob
import os
import re
import sys

ROOT = os.path.dirname(os.path.dirname(os.path.abspath(__file__)))
sys.path.insert(0, os.path.join(ROOT, "bench"))

import tables  # noqa: E402 (bench/tables.py)

BUDGETS = {
    "README.md": 800,
    "CONTRIBUTING.md": 900,
    "SECURITY.md": 550,
    "bench/README.md": 750,
    "docs/ADDING-AN-OPERATOR.md": 600,
    "docs/ARCHITECTURE.md": 1600,
    "docs/DECISIONS.md": 2500,
    "docs/GATE.md": 900,
    "docs/JOURNAL.md": 2900,
    "docs/LANGUAGE.md": 2100,
    "docs/PERFORMANCE.md": 1200,
    "docs/PROTOCOL.md": 2800,
    "docs/PROVED.md": 2500,
    "docs/SEMANTICS.md": 2750,
    "tests/README.md": 1800,
}
"""How many words a page is to have. A page that isn't here may have any number."""

COMING = {"docs/MONITOR-YOUR-SYSTEM.md", "docs/SCALING.md"}
"""Pages that may be named before they are there."""

PATH = re.compile(r"`((?:[\w.-]+/)+[\w.-]+\.(?:rt|antt|md|py|json|sh|rs|c|h|csp|txt|edit))`")
"""A file's name on a page."""

OF_ANY_CRATE = re.compile(r"^(?:src|specs|proofs)/|\b(?:NAME|CRATE|FILE|DATE)\b")
"""A file that is named as one of any crate, or with a word to be filled in."""

FAULT_ENUMS = {
    "crates/tokens/src/error.rt": "ScriptErrorKind",
    "crates/journal/src/error.rt": "JournalError",
    "crates/session/src/fault.rt": "SessionError",
    "crates/answers/src/fault.rt": "Fault",
}
"""The types that have the numbers and words of faults."""

CLIENT_LISTS = {
    "clients/python/cspwatch_client/replies.py": r"^    ([A-Z]+) = (\d+)$",
    "clients/c/cspwatch_client.h": r"^    CSPWATCH_FAULT_([A-Z]+) = (\d+),?$",
}
"""Where the clients list the faults of the line protocol, and the form of a line of such a list."""


def text_of(name):
    """The text of a file of the repository; empty where there is none."""
    path = os.path.join(ROOT, name)
    if not os.path.exists(path):
        return ""
    with open(path, encoding="utf-8") as file:
        return file.read()


# ---- words


def words(text):
    """How many words a page has."""
    text = re.sub(r"^\s*```.*?^\s*```\s*$", "", text, flags=re.DOTALL | re.MULTILINE)
    text = re.sub(r"<!--.*?-->", "", text, flags=re.DOTALL)
    return sum(1 for word in text.split() if re.search(r"\w", word))


def check_words():
    for name, budget in BUDGETS.items():
        count = words(text_of(name))
        problem = "%d words, where %d are to be enough" % (count, budget)
        yield name, problem if count * 10 > budget * 11 else None


# ---- files


def check_files(pages):
    """The files that the pages name are there, from the top, from crates/ or from the page's folder."""
    for name in pages:
        found = set(PATH.findall(text_of(name))) - COMING
        found = {path for path in found if not OF_ANY_CRATE.search(path)}
        folders = "", "crates", os.path.dirname(name)
        gone = [path for path in found if not any(os.path.exists(os.path.join(ROOT, folder, path)) for folder in folders)]
        yield name, "names %s, and there is no such file" % ", ".join(sorted(gone)) if gone else None


def check_map():
    """docs/ARCHITECTURE.md has each crate."""
    named = set(re.findall(r"`(\w+)`", text_of("docs/ARCHITECTURE.md")))
    crates = re.findall(r"^(\w+)[^:\n#]*:", text_of("crates.txt"), re.MULTILINE)
    gone = [crate for crate in crates if crate not in named]
    yield "docs/ARCHITECTURE.md", "hasn't the crates %s" % ", ".join(gone) if gone else None


# ---- the release


def release():
    """By name, what dist/RELEASE says."""
    return dict(re.findall(r"^([\w ]+): (.*)$", text_of("dist/RELEASE"), re.MULTILINE))


def check_release(pages):
    said = release()
    kit = said["kit"].split()[0]
    for name in "docs/PROVED.md", "THIRD-PARTY.md":
        yield name, None if kit in text_of(name) else "dist/RELEASE was proved by %s, which the page doesn't name" % kit
    for name in pages:
        others = set(re.findall(r"rattle-kit-\w+", text_of(name))) - {kit}
        yield name, "names %s, and dist/RELEASE %s" % (", ".join(sorted(others)), kit) if others else None
    heading = "## %s, " % said["version"]
    yield "CHANGELOG.md", None if heading in text_of("CHANGELOG.md") else "has no entry of version %s" % said["version"]
    library = "%s or later" % said["oldest glibc"]
    yield "README.md", None if library in text_of("README.md") else "dist/RELEASE needs the GNU C library %s" % library


# ---- the version

VERSIONS = {
    "man/cspwatch.1": r'^\.TH CSPWATCH 1 \S+ "cspwatch (.*?)"',
    "tests/cases/program.json": r'"cspwatch (\d.*?)"',
    "clients/c/cspwatch_client.h": r'^#define CSPWATCH_CLIENT_VERSION "(.*)"$',
}
"""Where the version of the program stands too, and how: a release has one version."""

PYTHON_VERSIONS = {
    "man/cspwatch-explore.1": r'^\.TH CSPWATCH-EXPLORE 1 \S+ "cspwatch-client (.*?)"',
    "man/cspwatch-logs.1": r'^\.TH CSPWATCH-LOGS 1 \S+ "cspwatch-client (.*?)"',
    "man/cspwatch-metrics.1": r'^\.TH CSPWATCH-METRICS 1 \S+ "cspwatch-client (.*?)"',
    "man/cspwatch-test.1": r'^\.TH CSPWATCH-TEST 1 \S+ "cspwatch-client (.*?)"',
    "man/cspwatch-web.1": r'^\.TH CSPWATCH-WEB 1 \S+ "cspwatch-client (.*?)"',
    "clients/python/cspwatch_client/__init__.py": r'^__version__ = "(.*)"$',
}
"""The same where the client for Python has it, which writes `.dev0` for `-dev`."""


def check_versions():
    wanted = re.search(r'^const VERSION: &str = "(.*)";$', text_of("crates/words/src/commands.rt"), re.MULTILINE)[1]
    for places, version in (VERSIONS, wanted), (PYTHON_VERSIONS, wanted.replace("-dev", ".dev0")):
        for name, form in places.items():
            found = {one.replace("\\-", "-") for one in re.findall(form, text_of(name), re.MULTILINE)}
            yield name, None if found == {version} else "has version %s in place of %s" % (", ".join(sorted(found)) or "none", version)


# ---- ports


def check_ports():
    """THIRD-PARTY.md says of each port which crates name it, unless it says so in words."""
    names = dict(re.findall(r"^(\w+)[^:\n#]*:(.*)$", text_of("crates.txt"), re.MULTILINE))
    for port, used_by in re.findall(r"^\| `(\w+)` \| [^|]*\|[^|]*\| ([^|]*) \|$", text_of("THIRD-PARTY.md"), re.MULTILINE):
        users = {crate for crate, below in names.items() if port in below.split()}
        named = {crate for crate in re.findall(r"`(\w+)`", used_by) if crate in names}
        wrong = named - users if re.search(r"\bthe \w", used_by) else named ^ users
        yield "THIRD-PARTY.md", "%s: not so of %s" % (port, ", ".join(sorted(wrong))) if wrong else None


# ---- wrong bodies


def wrong_body_counts():
    """How many wrong bodies there are: in wrong/, of these with a rule, in must-fail/."""
    paths = glob.glob(os.path.join(ROOT, "crates", "*", "wrong", "*.edit"))
    ruled = sum(1 for path in paths if re.search(r"^rule:", text_of(os.path.relpath(path, ROOT)), re.MULTILINE))
    return len(paths), ruled, len(glob.glob(os.path.join(ROOT, "crates", "*", "must-fail", "*.edit")))


def check_wrong_bodies(pages):
    all_of_them, ruled, must_fail = wrong_body_counts()
    right = {all_of_them, ruled, must_fail, all_of_them + must_fail}
    forms = r"\b(\d+) (?:wrong bodies|edits)\b", r"\bthe (\d+) that have a line `rule:`", r"\b(\d+) in `must-fail/`"
    for name in pages:
        named = {int(count) for form in forms for count in re.findall(form, " ".join(text_of(name).split()))}
        problem = "names %s wrong bodies; there are %d in wrong/, %d of them with a rule, and %d in must-fail/"
        wrong = ", ".join(map(str, sorted(named - right)))
        yield name, problem % (wrong, all_of_them, ruled, must_fail) if wrong else None


# ---- codes of faults


def faults_of(name, enum):
    """The numbers and words of a type of faults, by its calls `code` and `word`."""
    block = re.search(r"^impl(?:<[^>]*>)? %s(?:<\w+>)? \{.*?^\}" % enum, text_of(name), re.DOTALL | re.MULTILINE)[0]
    codes = dict(re.findall(r"%s::(\w+)(?:\(_\))? => (\d+)," % enum, block))
    named = dict(re.findall(r'%s::(\w+)(?:\(_\))? => "(\w+)",' % enum, block))
    return {(int(codes[variant]), named[variant]) for variant in codes}


def protocol_faults():
    """The numbers and words that the server and `check` can answer after `ERR`.

    A report isn't answered with a fault that `Explained` calls impossible, unless a connection without a seat is refused with it, or one
    that gives a name.
    """
    never = set(re.findall(r"^Explained .* (\w+) = ⊥$", text_of("crates/locked/specs/Faults.antt"), re.MULTILINE))
    refusing = set(re.findall(r"^ *IsNoSeat \(?(\w+).* = Unit", text_of("crates/answers/specs/Faults.antt"), re.MULTILINE))
    naming = set(re.findall(r"^Identifies .*\(fault ≡ (\w+)\)", text_of("crates/seats/specs/Judges.antt"), re.MULTILINE))
    never = {word.lower() for word in never - refusing - naming}
    lines = set(re.findall(r'b"ERR (\d+) (\w+)\\n"', text_of("crates/wire/src/answer.rt")))
    lines |= set(re.findall(r'b"ERR (\d+) (\w+)\\n"', text_of("crates/wire/src/replies.rt")))
    lines |= set(re.findall(r'b"ERR (\d+) (\w+)\\n"', text_of("crates/wire/src/engine.rt")))
    return {(int(code), word) for code, word in lines if word not in never}


def all_faults():
    """All numbers and words of faults that the program can print."""
    found = protocol_faults() | {(54, "specification")}
    for name, enum in FAULT_ENUMS.items():
        if enum != "Fault":
            found |= faults_of(name, enum)
    return found


def listed(text, form):
    """The numbers and words that a list has in this form."""
    return {(int(code), word.lower()) for code, word in re.findall(form, text, re.MULTILINE)}


def difference(found, wanted, optional=frozenset()):
    """What a list has too much or too little of; None where it is right."""
    more, less = sorted(found - wanted - optional), sorted(wanted - found)
    parts = ["lists %s, which nothing answers" % (more,)] if more else []
    parts += ["doesn't list %s" % (less,)] if less else []
    return "; ".join(parts) or None


def check_codes(pages):
    protocol, every = protocol_faults(), all_faults()
    text = text_of("docs/PROTOCOL.md")
    found = listed(text, r"^\| `(?:ERR )?(\d\d) (\w+)` \|")
    yield "docs/PROTOCOL.md", difference(found, protocol)
    found = listed(text_of("docs/LANGUAGE.md"), r"^\| (\d+) \| (\w+) \|")
    yield "docs/LANGUAGE.md", difference(found, faults_of("crates/tokens/src/error.rt", "ScriptErrorKind"))
    found = listed(text_of("docs/JOURNAL.md"), r"^\| `(\d\d) (\w+)(?: n)?` \|")
    yield "docs/JOURNAL.md", difference(found, faults_of("crates/journal/src/error.rt", "JournalError"))
    # The lists of clients and manual may have a fault that the sources have and no server answers.
    unanswered = faults_of("crates/answers/src/fault.rt", "Fault") - protocol
    for name, form in CLIENT_LISTS.items():
        found = {(int(code), word.lower()) for word, code in re.findall(form, text_of(name), re.MULTILINE)}
        yield name, difference(found, protocol, unanswered)
    manual = re.sub(r"\s+", " ", text_of("man/cspwatch.1"))
    found = listed(manual, r"\b(\d{1,2}) ([a-z]+)(?=[,;.:])")
    yield "man/cspwatch.1", difference({each for each in found if each[0] < 60}, every, unanswered)
    for name in pages:
        named = listed(text_of(name), r"`(?:ERR |[\w.]+: |[\w.]+:\w+: )?([1-9]\d?) ([a-z]+)(?: \w+)?`")
        wrong = sorted(named - every - unanswered)
        yield name, "names %s, which no source has" % (wrong,) if wrong else None


# ---- tables of measurements


def check_tables():
    for name in tables.PAGES:
        text = text_of(name)
        right = tables.with_tables(text) == text
        yield name, None if right else "its tables aren't those of bench/results: run bench/tables.py --write"
        former = sorted(set(re.findall(r"\b0\.\d\.\d\b|\b20\d\d-\d\d-\d\d\b", text)))
        yield name, "names %s; CHANGELOG.md has former figures" % ", ".join(former) if former else None
    text = text_of("docs/PERFORMANCE.md")
    unmarked = len(re.findall(r"^\|---", text, re.MULTILINE)) - len(tables.MARK.findall(text))
    yield "docs/PERFORMANCE.md", "has %d tables that no script makes" % unmarked if unmarked else None


LIMITS = [
    ("README.md", r"a script; its events \| ([\d,]+) bytes; ", "crates/tokens/src/script.rt", "MAX_SCRIPT_LEN"),
    ("README.md", r"a script; its events \| [\d,]+ bytes; ([\d,]+) ", "crates/alphabet/src/table.rt", "SIGMA_LIMIT"),
    ("README.md", r"their depth \| ([\d,]+); ", "crates/transitions/src/transitions.rt", "MOST_STATES"),
    ("README.md", r"their depth \| [\d,]+; ([\d,]+) ", "crates/targets/src/labels.rt", "DEEPEST_STATE"),
    ("README.md", r"reports of one history \| ([\d,]+) ", "crates/history/src/history.rt", "HISTORY_LIMIT"),
    ("README.md", r"connections of one server at one time \| ([\d,]+) ", "crates/serving/src/services.rt", "PLACES"),
    ("SECURITY.md", r"([\d,]+) entries of a journal", "crates/history/src/history.rt", "HISTORY_LIMIT"),
    ("SECURITY.md", r"all that a run has, ([\d,]+) at most", "crates/connections/src/number.rt", "MOST"),
    ("SECURITY.md", r"A line has at most ([\d,]+) bytes", "crates/wire/src/engine.rt", "LINE"),
    ("SECURITY.md", r"A script\*\* of ([\d,]+) bytes", "crates/tokens/src/script.rt", "MAX_SCRIPT_LEN"),
]
"""Where a page states a limit, and the constant that has it."""

OF_OTHERS = {"--jobs", "--must-fail", "--only", "--rules", "--user", "--write", "--facts", "--program", "--output", "--all", "--tool"}
"""Options of tools of the repository and of others, which pages name too."""


def check_limits():
    """The limits that pages state are those of the program."""
    for name, statement, source, constant in LIMITS:
        stated = re.search(statement, text_of(name))
        has = re.search(r"\bconst %s: \w+ = ([\d_]+);" % constant, text_of(source))
        same = stated and has and stated[1].replace(",", "") == has[1].replace("_", "")
        yield name, None if same else "doesn't state %s of %s as it is" % (constant, source)


def check_options():
    """Each option that these pages name is one of a manual page, which is compared with its command's help."""
    known = set(OF_OTHERS)
    for path in glob.glob(os.path.join(ROOT, "man", "*.1")):
        known |= set(re.findall(r"--[a-z][a-z-]*", re.sub(r"\\f.", "", text_of(os.path.relpath(path, ROOT))).replace("\\-", "-")))
    for name in ("README.md", "SECURITY.md", "docs/ARCHITECTURE.md", "docs/PERFORMANCE.md"):
        gone = set(re.findall(r"(?<![\w-])--[a-z][a-z-]*", text_of(name))) - known
        yield name, "names %s, which no command has" % ", ".join(sorted(gone)) if gone else None


def checks(pages):
    """Of each comparison its place, and what is wrong there or None."""
    pages = list(pages)
    of_today = [name for name in pages if name != "CHANGELOG.md"]
    yield from check_words()
    yield from check_files(pages)
    yield from check_map()
    yield from check_release(of_today)
    yield from check_versions()
    yield from check_ports()
    yield from check_wrong_bodies(of_today)
    yield from check_codes(pages)
    yield from check_tables()
    yield from check_limits()
    yield from check_options()
