"""The public calls of the product's libraries, as crates/*/src has them."""
import collections
import os
import re

from definition_graph import CRATES, ROOT, sources

FOR_TESTS = ("part_scenarios", "rows", "scenarios", "server_rows", "shared_rows")
"""Libraries that only tests use."""

Call = collections.namedtuple("Call", "crate name comment signature clauses file_text public")
"""A call: its crate, its name there (`Monitor::judge`), its docstring, its signature, its clauses, the text of its file, and
whether it is public."""

CLAUSE = re.compile(r"^\s*(requires|ensures)\b ?(\w*) ?\{", re.MULTILINE)
"""The beginning of a clause, with its name."""


def crates():
    """The product's libraries, in the order of crates.txt."""
    with open(os.path.join(ROOT, "crates.txt"), encoding="utf-8") as file:
        names = [line.partition(":")[0].split()[0] for line in file if ":" in line and not line.startswith("#")]
    return [name for name in names if name not in FOR_TESTS and os.path.exists(os.path.join(CRATES, name, "src", "lib.rt"))]


def scope_of(line):
    """The type or the trait whose calls come after this line; None where the line begins no such block."""
    trait = re.match(r"pub trait (\w+)", line)
    if trait:
        return trait[1]
    if not re.match(r"impl\b", line):
        return None
    head = re.sub(r"^impl\s*(?:<(?:[^<>]|<[^<>]*>)*>)?\s*", "", line)
    head = head.rpartition(" for ")[2] if " for " in head else head
    found = re.match(r"(?:\w+::)*(\w+)", head)
    return found[1] if found else None


def is_of_trait(line):
    """Whether the block that begins here has what a trait of another place asks for."""
    return bool(re.match(r"impl\b", line)) and " for " in line


def end_of_head(lines, at):
    """The place after the last line of the head of a call that begins here: its body's `{`, or a `;`."""
    depth = 0
    for place in range(at, len(lines)):
        line = re.sub(r"//.*", "", lines[place])
        if depth == 0 and re.fullmatch(r"\s*\{(\})?", line) and place > at:
            return place
        opened = depth
        depth += line.count("{") - line.count("}")
        if opened == 0 and depth == 1 and line.rstrip().endswith("{") and not CLAUSE.match(line):
            return place + 1
        if depth == 0 and line.rstrip().endswith(";"):
            return place + 1
    return len(lines)


def comment_above(lines, at):
    """The docstring above a line, without its marks."""
    begin = at
    while begin and re.match(r"\s*(///|#\[)", lines[begin - 1]):
        begin -= 1
    return [re.sub(r"^\s*/// ?", "", line) for line in lines[begin:at] if line.strip().startswith("///")]


def parts_of(head):
    """The signature and the clauses of a call's head."""
    first = CLAUSE.search(head)
    cut = first.start() if first else len(head)
    signature, clauses = head[:cut], head[cut:]
    note = re.search(r"(\n\s*//[^\n]*)+\s*$", signature)
    if note:
        signature, clauses = signature[: note.start()], signature[note.start() :] + clauses
    return re.sub(r"\s*[{;]\s*$", "", signature.rstrip()), clauses.rstrip().rstrip(";")


def calls_in(crate, text):
    """The calls of a file."""
    lines = text.split("\n")
    scope, foreign, public_scope = None, False, False
    for at, line in enumerate(lines):
        if line.startswith(("impl", "pub trait")):
            scope, foreign, public_scope = scope_of(line), is_of_trait(line), line.startswith("pub trait")
        elif line.startswith("}"):
            scope, foreign, public_scope = None, False, False
        begun = re.match(r"\s*(pub )?fn (\w+)", line)
        if not begun or (scope and foreign):
            continue
        head = "\n".join(lines[at : end_of_head(lines, at)])
        signature, clauses = parts_of(head)
        name = "%s::%s" % (scope, begun[2]) if scope else begun[2]
        yield Call(crate, name, comment_above(lines, at), signature, clauses, text, bool(begun[1]) or public_scope)


def calls_of(crate):
    """All calls of a crate, those of each file in its order."""
    return [call for text in sources(crate).values() for call in calls_in(crate, text)]


def find(path):
    """The call `CRATE::NAME`, as `monitor::Monitor::judge`."""
    crate, _, name = path.partition("::")
    found = [call for call in calls_of(crate) if call.name == name and call.public]
    if len(found) != 1:
        raise SystemExit("%s: there are %d public calls of this name" % (path, len(found)))
    return found[0]


def clause_names(call, kind="ensures"):
    """The names of a call's clauses of this kind; `""` for one without a name."""
    return [name for found, name in CLAUSE.findall(call.clauses) if found == kind]


def first_sentence(comment):
    """The first sentence of a docstring."""
    text = " ".join(comment).strip()
    found = re.match(r"(.*?\.)(?:\s+[A-Z`]|\s*$)", text)
    return found[1] if found else text
