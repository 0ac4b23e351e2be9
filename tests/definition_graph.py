"""What the definitions of crates/*/specs and the contracts of crates/*/src name of one another.

A definition is named `CRATE/FILE:NAME`. A call's definitions are those that its clauses name, that the types and traits of its
signature show to contracts (`impl Model`, the clauses of a trait), and all that these are made of. Names are looked up by the
`use` lines of their file; a variable that is called as a definition that its file knows counts as that definition.
"""
import collections
import functools
import glob
import os
import re

ROOT = os.path.dirname(os.path.dirname(os.path.abspath(__file__)))
CRATES = os.path.join(ROOT, "crates")

HEADER = re.compile(r"^(\s*)((?:abbrev |unfoldable )?)pub (data |record )?([^\s:({]+)(?=[\s:({]|$)")
"""The first line of a definition, or a member of a record."""

USE = re.compile(r"^\s*(?:ghost |pub )*use ([\w.]+?)(?:\.\{([^}]*)\}|\.?([^\s\w.{};]+))?(?: as (\w+))?;?$")
"""A line that brings in names of a file of definitions, or the file under another name."""

WORD = re.compile(r"[^\s(){},;.:]+")
"""A word of a definition or a clause."""

Definition = collections.namedtuple("Definition", "path text")
"""A definition: where it stands, as `CRATE/FILE:NAME`, and its lines."""


def text_of(path):
    """The text of a file; empty where there is none."""
    if not os.path.exists(path):
        return ""
    with open(path, encoding="utf-8") as file:
        return file.read()


def spec_text(crate, name):
    return text_of(os.path.join(CRATES, crate, "specs", name + ".antt"))


@functools.lru_cache(maxsize=None)
def definitions_of(crate, name):
    """By name, the definitions of a file in their order; a constructor or a member is its definition's."""
    found, current, indent = {}, None, 0
    for line in spec_text(crate, name).split("\n"):
        header = HEADER.match(line)
        inner = header and current and found[current][0] == "record " and len(header[1]) > indent and not header[2]
        if header and not inner and header[4] != "mod":
            current, indent = header[4], len(header[1])
            found[current] = (header[3], [line])
        elif current and not line.startswith(("--", "use ", "pub use ")):
            found[current][1].append(line)
    return {key: Definition("%s/%s:%s" % (crate, name, key), "\n".join(lines)) for key, (_, lines) in found.items()}


@functools.lru_cache(maxsize=None)
def passed_on(crate):
    """By name, the files of the layers below that a crate passes on."""
    found = {}
    for line in spec_text(crate, "Lib").split("\n"):
        passed = re.match(r"pub use Rattle\.(\w+)\.specs\.([\w.]+?)(?: as (\w+))?$", line)
        if passed:
            found[passed[3] or passed[2].split(".")[-1]] = (passed[1], passed[2])
    return found


def file_at(crate, rest):
    """The crate and the file, or the declared type, that `Rattle.CRATE.specs.REST` names, through the layers that pass it on."""
    parts = rest.split(".")
    if parts[0] in ("declared", "contracts"):
        return crate, parts[0], parts[2] if len(parts) > 2 else parts[-1]
    if parts[0] in passed_on(crate) and not spec_text(crate, parts[0]):
        below, name = passed_on(crate)[parts[0]]
        return file_at(below, name)
    return crate, "file", parts[0]


def names_known(text):
    """By the word that a text may use, the file or the declared type that it is of, with its name there (None: all of it)."""
    found = {}
    for line in text.split("\n"):
        use = USE.match(line)
        path = re.match(r"Rattle\.(\w+)\.specs\.([\w.]+)$", use[1]) if use else None
        if not path:
            continue
        place = file_at(path[1], path[2].rstrip("."))
        for name in [part.strip() for part in (use[2] or "").split(",") if part.strip()]:
            own, _, other = name.partition(" as ")
            found[other or own] = (place, own)
        if not use[2]:
            found[use[4] or path[2].rstrip(".").split(".")[-1]] = (place, None)
    return found


def holder(crate, name, word):
    """The definition of a file in which the word is defined: itself, or as a constructor or a member; None where it isn't."""
    inside = definitions_of(crate, name)
    if word in inside:
        return inside[word]
    within = re.compile(r"^\s+(?:pub )?%s\s*:" % re.escape(word), re.MULTILINE)
    return next((each for each in inside.values() if within.search(each.text)), None)


def named_in(text, known, own):
    """The definitions and the declared types that a text names, by what its file knows and defines itself."""
    plain = re.sub(r"--.*|//.*", "", text)
    for word in dict.fromkeys(WORD.findall(plain)):
        if word in own:
            yield own[word]
        if word in known and known[word][1] is not None:
            yield from named_at(*known[word])
    for alias, word in dict.fromkeys(re.findall(r"(?<![\w.])(\w+)\.(\w+)", plain)):
        if alias in known and known[alias][1] is None:
            yield from named_at(known[alias][0], word)


def named_at(place, word):
    """What a word of this file, or of this declared type, is."""
    crate, kind, name = place
    if kind == "declared":
        yield (crate, name)
    found = holder(crate, name, word) if kind == "file" else None
    if found:
        yield found


@functools.lru_cache(maxsize=None)
def sources(crate):
    """The source files of a crate, by their paths."""
    paths = sorted(glob.glob(os.path.join(CRATES, crate, "src", "**", "*.rt"), recursive=True))
    return {path: text_of(path) for path in paths}


@functools.lru_cache(maxsize=None)
def shown_by(crate, name):
    """What a type or a trait of a crate shows to contracts: a text, and the text of the file that it stands in."""
    found = []
    for text in sources(crate).values():
        model = re.search(r"^impl\b[^\n]* Model for %s\b.*?^}" % re.escape(name), text, re.MULTILINE | re.DOTALL)
        trait = re.search(r"^pub trait %s\b.*?^}" % re.escape(name), text, re.MULTILINE | re.DOTALL)
        found += [(without_inside(model[0]), text)] if model else []
        found += [(trait[0], text)] if trait else []
    return tuple(found)


def without_inside(model):
    """What an `impl Model` shows: what its value is, without how that is made of the fields, its invariant and its code."""
    return re.sub(r"^    ghost (?:view|invariant|coded|inverse) = .*?};$", "", model, flags=re.MULTILINE | re.DOTALL)


def without_uses(text):
    """A text without its lines `use`."""
    return re.sub(r"^\s*(?:ghost |pub )*use .*$", "", text, flags=re.MULTILINE)


@functools.lru_cache(maxsize=None)
def crate_of(crate, name):
    """The crate that declares a type or a trait which this crate has or passes on; None where it isn't one of ours."""
    declared = re.compile(r"^pub (?:struct|enum|trait|type) %s\b" % re.escape(name), re.MULTILINE)
    if any(declared.search(text) for text in sources(crate).values()):
        return crate
    for text in sources(crate).values():
        for below, names in re.findall(r"^(?:pub )?use (\w+)::(?:\{([^}]*)\}|%s;)" % re.escape(name), text, re.MULTILINE):
            listed = not names or re.search(r"\b%s\b" % re.escape(name), names)
            if listed and below not in ("crate", crate) and os.path.isdir(os.path.join(CRATES, below)):
                found = crate_of(below, name)
                if found:
                    return found
    return None


def shown_names(crate, name):
    """The definitions and types that a type or a trait of a crate shows to contracts."""
    for shown, text in shown_by(crate, name):
        yield from named_in(without_uses(shown), {**names_known(text), **names_known(shown)}, {})
        yield from types_in(shown, crate)


def types_in(text, crate):
    """The types and traits of our crates that a text of this crate names."""
    for name in dict.fromkeys(re.findall(r"\b[A-Z]\w+", text)):
        found = crate_of(crate, name)
        if found:
            yield (found, name)


def named_by_call(call):
    """The definitions and types that the contract of a call names."""
    yield from named_in(call.clauses, names_known(call.file_text), {})
    yield from types_in(call.name.rpartition("::")[0] + " " + call.signature, call.crate)


def reached(calls):
    """By path, in the order bottom up: each definition that the calls' contracts are made of, with the paths of those it names."""
    found, order = {}, []

    def below(item):
        if isinstance(item, Definition):
            crate, _, rest = item.path.partition("/")
            name = rest.partition(":")[0]
            return list(named_in(item.text, names_known(spec_text(crate, name)), definitions_of(crate, name)))
        return list(shown_names(*item))

    def visit(first):
        stack = [(first, iter(below(first)))]
        found[first] = True
        while stack:
            item, rest = stack[-1]
            step = next((each for each in rest if each not in found), None)
            if step is None:
                order.append(item)
                stack.pop()
            else:
                found[step] = True
                stack.append((step, iter(below(step))))

    for call in calls:
        for item in named_by_call(call):
            if item not in found:
                visit(item)
    return [item for item in order if isinstance(item, Definition)]


def files_reached(calls):
    """The files of definitions that the calls' contracts are made of, as `CRATE/FILE`, each before those that need it."""
    definitions = reached(calls)
    paths = {each.path for each in definitions}
    needs = collections.defaultdict(set)
    for each in definitions:
        crate, _, rest = each.path.partition("/")
        name = rest.partition(":")[0]
        for named in named_in(each.text, names_known(spec_text(crate, name)), definitions_of(crate, name)):
            if isinstance(named, Definition) and named.path in paths:
                needs[each.path.partition(":")[0]].add(named.path.partition(":")[0])
    order = []

    def visit(name, open_files):
        if name in order or name in open_files:
            return
        for below in sorted(needs[name]):
            visit(below, open_files | {name})
        order.append(name)

    for each in definitions:
        visit(each.path.partition(":")[0], frozenset())
    return order
