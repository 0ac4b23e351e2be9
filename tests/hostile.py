#!/usr/bin/env python3
"""Scripts, lines and journals that were damaged at random, and each limit: the built program has to answer as the documents say.

    tests/hostile.py [--program FILE] [--each 2000] [--seed 1] [--jobs 4] [--only KIND ..] [--keep DIR] [--folder DIR] [--plain]

The kinds are
- `scripts`: `print` tells a fault of docs/LANGUAGE.md, or prints a script that prints the same again; `check` tells the same fault, or
  answers a few lines, each by a reply of docs/PROTOCOL.md;
- `lines`: `check` answers each byte of damaged input as a few lines of Python do, for a process of two states; for the examples each reply
  is of the right form, and a line that is asked alone, after the events that were accepted before it, gets the same reply;
- `connections`: the same lines go to `serve`, and the journal has to hold the reports (a tenth as many lines);
- `journals`: `replay` tells the fault that the file has or the counts that it holds, cuts what stands past the first closed gate and
  nothing else, and says the same of the file that it leaves; every twentieth journal is given to `serve` too;
- `cuts`: some journals, cut to each length;
- `limits`: what stands at a limit, and one beyond.

No run may end by a signal, take more than ten seconds (--seconds), or end with another status than the one that its output calls for. An input that
fails is kept (--keep). Where hypothesis is installed it makes some further inputs of each kind, and makes one that fails
small. The last line is `N passed, M failed`, over the inputs.
"""
import argparse
import concurrent.futures
import json
import os
import random
import re
import sys
import tempfile

sys.dont_write_bytecode = True

import generated  # noqa: E402
from contents import octets  # noqa: E402
from reference.tokens import REFUSED_WORDS, WORDS  # noqa: E402
from sweeping import (  # noqa: E402
    HERE, NAMES, REPLY, SCRIPT, SCRIPT_WORDS, Book, History, Link, Run, Server, add_options, begin, journal_bytes, journal_of,
    read_file, report_of, run, shown, status_of_check, summary_of, write_file)

EXAMPLES = os.path.join(os.path.dirname(HERE), "examples")
KINDS = ["scripts", "lines", "connections", "journals", "cuts", "limits"]
LINES_OF_A_RUN = 100
LONGEST_BASE = 3000


# --- Damage ---

def part(rng, data):
    at = rng.randint(0, len(data))
    return at, min(len(data), at + rng.choice((1, 1, 2, 5, 10, 40)))


def flip(rng, data, _):
    if not data:
        return data
    at = rng.randrange(len(data))
    byte = data[at] ^ 1 << rng.randrange(8) if rng.random() < 0.5 else rng.randrange(256)
    return data[:at] + bytes([byte]) + data[at + 1:]


def cut(rng, data, _):
    at, end = part(rng, data)
    return data[:at] + data[end:]


def insert(rng, data, words):
    at = rng.randint(0, len(data))
    new = rng.choice(words) if rng.random() < 0.8 else rng.randbytes(rng.randint(1, 8))
    return data[:at] + new + data[at:]


def repeat(rng, data, _):
    at, end = part(rng, data)
    return data[:end] + data[at:end] * rng.choice((1, 1, 1, 2, 3, 10, 100, 300)) + data[end:]


def swap(rng, data, _):
    (at, end), (other, other_end) = sorted((part(rng, data), part(rng, data)))
    if end > other:
        return data
    return data[:at] + data[other:other_end] + data[end:other] + data[at:end] + data[other_end:]


DAMAGES = [flip, cut, insert, repeat, swap]


def damaged(rng, data, words):
    for _ in range(rng.choice((1, 1, 1, 2, 3, 6))):
        data = rng.choice(DAMAGES)(rng, data, words)
    return data


# --- Scripts ---

TOKENS = [
    b"channel ", b"datatype ", b"STOP", b"SKIP", b"Events", b"union(", b"inter(", b"diff(", b"if ", b" then ", b" else ", b" and ", b" or ", b"not ", b"true",
    b"false", b" -> ", b" <- ", b" [] ", b" |~| ", b" ||| ", b" ; ", b" /\\ ", b" \\ ", b" [| ", b" |] ", b"[", b" || ", b"]", b"[[", b"]]", b"{", b"}", b"{| ",
    b" |}", b"(", b")", b"..", b".", b"?", b"!", b", ", b":", b" = ", b"|", b"@", b"&", b"+", b"-", b"*", b"%", b"==", b"!=", b"<", b"<=", b">", b">=",
    b"[>", b"/",
    b"_", b"let ", b"within ", b"assert ", b"--", b"{-", b"-}", b"\n", b" ", b"\t", b"\r", b"\0", b"\x80", b"a", b"b", b"c", b"P", b"Q", b"x",
    b"CHAOS", b"0", b"1", b"2",
    b"-1", b"1000000", b"1000001", b"{0..255}", b"{0..65536}", b"P = P\n", b"channel a\n",
]


class Maker:
    """Scripts that are made at random, most of them without a fault."""

    def __init__(self, rng):
        self.rng = rng

    def event(self, bound):
        forms = ["a", "b", "c.%d" % self.rng.randint(0, 2), "c!%d" % self.rng.randint(0, 2), "c?x", "c?x:{0..1}", "d.0.1", "d?x?y", "d.1?y", "e.u", "e?z"]
        return self.rng.choice(forms + ["c!%s" % name for name in bound] + ["c!(%s %% 3)" % name for name in bound])

    def events(self):
        return self.rng.choice(["{}", "{a}", "{a, b}", "{| c |}", "{c.0, b}", "{| d.0, a |}", "Events", "union({a}, {| e |})", "diff(Events, {b})", "{e.v}"])

    def pairs(self):
        pairs = ["a <- b", "b <- a", "c <- c", "c.0 <- c.1", "a <- c.2", "d.0 <- d.1", "e.u <- a"]
        return ", ".join(self.rng.choice(pairs) for _ in range(self.rng.randint(1, 3)))

    def condition(self, bound):
        numbers = ["0", "1", "2", "N"] + list(bound)
        pair = "%s %s %s" % (self.rng.choice(numbers), self.rng.choice(["==", "!=", "<", "<=", ">", ">="]), self.rng.choice(numbers))
        return self.rng.choice(["%s", "not (%s)", "(%s and 1 < 2)", "(0 == 1 or %s)"]) % pair

    def replicated(self):
        return self.rng.choice([("[]", "{0..2}"), ("|~|", "{0..1}"), ("|||", "{0..1}"), ("[]", "{}"), ("|||", "{u}"), ("|~|", "{v, u}")])

    def phrase(self, depth, bound=()):
        rng = self.rng
        if depth == 0 or rng.random() < 0.1:
            return rng.choice(["STOP", "SKIP", "P", "Q", "R", "W(%d)" % rng.randint(0, 4)])
        if rng.random() < 0.45:
            event = self.event(bound)
            inner = bound + tuple(name for name in "xyz" if "?" + name in event and event[0] != "e")
            return "(%s -> %s)" % (event, self.phrase(depth - 1, inner))
        if rng.random() < 0.2:
            return rng.choice(["(%s & %%s)" % self.condition(bound), "(%s v:%s @ %%s)" % self.replicated()]) % self.phrase(depth - 1, bound)
        left, right = self.phrase(depth - 1, bound), self.phrase(depth - 1, bound)
        form = rng.choice([
            "(if %s then %%s else %%s)" % self.condition(bound).replace("%", "%%"),
            "(%s [] %s)", "(%s |~| %s)", "(%s ; %s)", "(%s ||| %s)", "(%s /\\ %s)", "(%s [| " + self.events() + " |] %s)",
            "(%s [ " + self.events() + " || " + self.events() + " ] %s)", "(%s [] %s) \\ " + self.events(), "(%s |~| %s)[[" + self.pairs() + "]]"])
        return form % (left, right)

    def text(self):
        lines = ["datatype D = u | v", "channel a, b", "channel c : {0..2}", "channel d : {0..1}.{0..1}", "channel e : D"]
        lines += ["N = 1", "W(n) = n < 3 & (c.(n % 3) -> W(n+1)) [] n > 0 & (b -> W(n-1))"]
        lines += ["%s = %s" % (name, self.phrase(self.rng.randint(1, 4))) for name in "PQR"]
        return ("\n".join(lines) + "\n").encode()


def bases_of_scripts():
    """Scripts with their process: the examples, and those of the cases."""
    bases = []
    for name in sorted(os.listdir(EXAMPLES)):
        if name.endswith(".csp"):
            bases.append((read_file(os.path.join(EXAMPLES, name)), b"SYSTEM"))
    cases = os.path.join(HERE, "cases")
    for name in sorted(os.listdir(cases)):
        with open(os.path.join(cases, name), encoding="utf-8") as file:
            for case in json.load(file):
                if "script" in case and isinstance(case.get("process", "P"), str):
                    bases.append((octets(case["script"]), case.get("process", "P").encode("latin-1")))
    return [(text, process) for text, process in bases if len(text) <= LONGEST_BASE and b"\0" not in process]


FAULT = re.compile(rb"p\.csp:([1-9][0-9]*): ([0-9]+) ([a-z]+)\n")
OPENING = (b"p.csp: 20 depth\n", b"p.csp: 21 states\n")


def is_fault(err, text):
    """Whether it is one line that tells a fault of the script, other than 40."""
    found = FAULT.fullmatch(err)
    if not found or int(found[1]) > text.count(b"\n") + 1 or found[2] == b"40":
        return False
    return SCRIPT_WORDS.get(int(found[2])) == found[3].decode()


def lines_about(printed):
    """Lines that ask a process, with an event of its printed form."""
    found = re.search(rb"\(([A-Za-z][A-Za-z0-9_'.-]*) -> ", printed)
    name = found[1] if found else b"a"
    return [b"N", b"S", b"R", b"R _tick", b"R " + name, b"E " + name, b"N", b"R " + name, b"E _tick", b"S"]


def places_fault(replies):
    """Whether places don't count from 1, or a status tells another number of reports."""
    place = 0
    for reply in replies:
        words = reply.split(b" ")
        place += words[0] in (b"OK", b"NO")
        if words[0] in (b"OK", b"NO", b"S") and int(words[1]) != place:
            return True
    return False


def check_problems(done, lines):
    """What is wrong with a `check` of a script that reads."""
    if done.err in OPENING:
        return [] if (done.out, done.status) == (b"", 6) else ["check: %s" % (done,)]
    replies = done.out.split(b"\n")[:-1]
    if done.err or len(replies) != len(lines) or not all(REPLY.fullmatch(reply) for reply in replies) or not done.out.endswith(b"\n"):
        return ["check of %s: %s" % (lines, done)]
    if done.status != status_of_check(replies) or places_fault(replies):
        return ["check of %s: %s" % (lines, done)]
    return []


def script_problems(program, folder, text, process, look_twice):
    """What is wrong with what is answered to this script, and its outcome in a word or two."""
    write_file(os.path.join(folder, "p.csp"), text)
    word = os.fsdecode(process)
    printed = run([program, "print", "p.csp", word], folder)
    if printed.status == 3:
        problems = [] if is_fault(printed.err, text) and not printed.out else ["print: %s" % (printed,)]
        if look_twice:
            again = run([program, "check", "p.csp", word], folder)
            problems += [] if again == printed else ["print: %s, check: %s" % (printed, again)]
        return problems, printed.err.split(b": ")[-1].strip().decode("latin-1")
    if printed.status != 0 or printed.err or not printed.out.endswith(b"\n"):
        return ["print: %s" % (printed,)], "bad"
    problems = again_problems(program, folder, printed.out)
    lines = lines_about(printed.out)
    done = run([program, "check", "p.csp", word], folder, b"".join(line + b"\n" for line in lines))
    return problems + check_problems(done, lines), done.err.split(b": ")[-1].strip().decode() if done.err in OPENING else "read"


def again_problems(program, folder, text):
    """What is wrong where a printed script is printed."""
    root = re.search(rb"^(P0'*) = ", text, re.MULTILINE)
    if not root:
        return ["the printed text has no P0: %s" % shown(text)]
    write_file(os.path.join(folder, "q.csp"), text)
    again = run([program, "print", "q.csp", root[1].decode()], folder)
    if len(text) > 65_536:
        return [] if again == Run(b"", b"q.csp:1: 10 large\n", 3) else ["print of a printed text over the limit: %s" % (again,)]
    return [] if again == Run(text, b"", 0) else ["print of a printed text: %s" % (again,)]


def try_script(options, number, rng):
    text, process = (Maker(rng).text(), b"P") if rng.random() < 0.4 else rng.choice(options.bases)
    if rng.random() < 0.95:
        text = damaged(rng, text, TOKENS)
    with tempfile.TemporaryDirectory(prefix="hostile-", dir=options.folder) as folder:
        problems, outcome = script_problems(options.program, folder, text, process, number % 10 == 0)
    return problems, {outcome: 1}, {"p.csp": text, "process": process}


# --- Lines ---

PIECES = [b"E ", b"R ", b"S", b"N", b"E", b"R", b"\n", b" ", b"  ", b"\r", b"\0", b"\xff", b"a", b"b", b"c.0", b"c.1", b"c.2", b"c",
          b"c.3", b"c.01", b"_tick", b"\t", b"e a", b"x" * 4100]


def a_line(rng):
    kind = rng.random()
    if kind < 0.45:
        return b"E " + rng.choice(NAMES)
    if kind < 0.75:
        return b" ".join([b"R"] + [rng.choice(NAMES) for _ in range(rng.randint(0, 6))])
    return b"S" if kind < 0.87 else b"N"


def some_lines(rng, count):
    """Bytes of so many lines, half of them damaged."""
    lines = [a_line(rng) for _ in range(count)]
    lines = [damaged(rng, line, PIECES) if rng.random() < 0.5 else line for line in lines]
    return b"\n".join(lines) + rng.choice((b"\n", b"\n", b"\nE a", b"\nQ\nE a\n", b"\n" + b"x" * 4097, b"\n" + b"x" * 4096 + b"\nE a\n"))


def counts_of(replies):
    counts = {}
    for reply in replies:
        text = reply.decode("latin-1")
        word = text if text.startswith("ERR ") else text.split(" ")[0]
        counts[word] = counts.get(word, 0) + 1
    return counts


def try_lines(options, number, rng):
    """Lines to the process of two states."""
    given = some_lines(rng, LINES_OF_A_RUN)
    replies = History().answers(given)
    with tempfile.TemporaryDirectory(prefix="hostile-", dir=options.folder) as folder:
        write_file(os.path.join(folder, "p.csp"), SCRIPT)
        done = run([options.program, "check", "p.csp", "P"], folder, given)
    wanted = Run(b"".join(reply + b"\n" for reply in replies), b"", status_of_check(replies))
    problems = [] if done == wanted else ["check: %s, wanted %s" % (done, wanted)]
    return problems, counts_of(replies), {"p.csp": SCRIPT, "input": given}


def answered(program, folder, example, lines):
    """The replies to lines of an example."""
    done = run([program, "check", os.path.join(EXAMPLES, example + ".csp"), "SYSTEM"], folder, b"".join(line + b"\n" for line in lines))
    return done, done.out.split(b"\n")[:-1]


def without_place(reply):
    return reply[:2] if reply[:3] in (b"OK ", b"NO ") else reply


def alone_problems(program, folder, example, lines, replies, at):
    """What is wrong where the line at this place is asked alone, after the events that were accepted before it."""
    before = [line for line, reply in zip(lines[:at], replies) if line.startswith(b"E ") and reply.startswith(b"OK ")]
    _, alone = answered(program, folder, example, before + [lines[at]])
    if len(alone) == len(before) + 1 and without_place(alone[-1]) == without_place(replies[at]):
        return []
    return ["%s after %s: %s, wanted %s" % (lines[at], before, alone[-1:], replies[at])]


def try_example(options, number, rng):
    """Lines to an example."""
    example = rng.choice(options.examples)
    base = [line for line in read_file(os.path.join(EXAMPLES, example + ".reports")).split(b"\n") if line and line != b"Q"]
    names = [word for line in base for word in line.split(b" ")[1:]]
    words = PIECES[:-1] + names
    made = [rng.choice(base) if rng.random() < 0.6 else damaged(rng, rng.choice(base), words) for _ in range(LINES_OF_A_RUN)]
    lines = b"\n".join(made).split(b"\n")
    lines = [line for line in lines if line != b"Q" and len(line) <= 4096]
    with tempfile.TemporaryDirectory(prefix="hostile-", dir=options.folder) as folder:
        done, replies = answered(options.program, folder, example, lines)
        problems = check_problems(done, lines)
        asked = [at for at, line in enumerate(lines) if line != b"S"]
        for at in rng.sample(asked, min(2, len(asked))) if not problems else []:
            problems += alone_problems(options.program, folder, example, lines, replies, at)
    return problems, counts_of(replies), {"input": b"\n".join(lines) + b"\n", "example": example.encode()}


def told_over(program, folder, given):
    """What `serve` answers to these bytes over one connection, and how it ends."""
    server = Server(program, folder)
    replies = []
    if server.listening():
        link = Link(server.port)
        link.send(given)
        try:
            link.socket.shutdown(1)
        except OSError:
            pass
        replies = link.rest()
        link.close()
    return replies, server.end()


def try_connection(options, number, rng):
    given = some_lines(rng, LINES_OF_A_RUN)
    history = History()
    wanted = history.answers(given)
    with tempfile.TemporaryDirectory(prefix="hostile-", dir=options.folder) as folder:
        write_file(os.path.join(folder, "p.csp"), SCRIPT)
        replies, end = told_over(options.program, folder, given)
        journal = read_file(os.path.join(folder, "j"))
    problems = [] if replies == wanted else ["serve: %s, wanted %s" % (replies, wanted)]
    if end != Run(history.summary() + b"\n", b"", int(history.rejected > 0)):
        problems.append("serve ended with %s, wanted %s" % (end, history.summary()))
    if journal != journal_bytes(history.entries):
        problems.append("the journal is %s, wanted %s" % (shown(journal or b""), shown(journal_bytes(history.entries))))
    return problems, counts_of(wanted), {"p.csp": SCRIPT, "input": given}


# --- Journals ---

JOURNAL_PIECES = [b"+", b".", b"\n", b" ", b"x", b"E+", b"E-", b"R+", b"R-", b"1", b"0", b"65535", b"65536", b"1000001", b" a", b" b", b" c.1",
                  b" _tick", b" 1", b" 4", b" 6", b" 7", b" 01", b"root ", b"script ",
                  b"\n+1 1 E+ a\n.", b"\n+1 1 E+ 1\n.", b"cspwatch journal 1\n", b"cspwatch journal 2\n", b"cspwatch journal 3\n", b"\xff", b"\0"]
NAME = re.compile(rb"[A-Za-z][A-Za-z0-9_]*'*")
REFUSED = re.compile(rb"j: ((?:script|root) [1-9][0-9]*: ([0-9]+) ([a-z]+)|(20 depth|21 states)|52 record ([1-9][0-9]*)|53 verdict ([1-9][0-9]*))\n")


def a_journal(rng):
    """A journal of either version, of some reports by several seats, sometimes with bytes past its last gate."""
    history = History()
    for _ in range(rng.randint(0, 12)):
        kind, names = report_of(rng.choice([b"E a", b"E b", b"E c.1", b"E c.2", b"R", b"R a b", b"R a c.0 _tick", b"E _tick"]))
        history.add(rng.choice((1, 1, 2, 3, 65_535)), kind, names)
    return journal_bytes(history.entries, version=rng.choice((1, 2))) + (b"" if rng.random() < 0.7 else rng.randbytes(rng.randint(1, 30)))


def is_judged(held):
    """Whether the journal is one of SCRIPT and of a process by its name."""
    return held.script == SCRIPT and NAME.fullmatch(held.root) and held.root.decode() not in WORDS | REFUSED_WORDS | {"assert"}


def judged(held):
    """What `replay` answers to such a journal."""
    if held.root not in (b"P", b"Q"):
        return Run(b"", b"j: script 1: 12 process\n", 4)
    history = History(held.root.decode())
    for place, (seat, number, kind, names, verdict) in enumerate(held.records, 1):
        in_order = list(names) == [name for name in NAMES if name in names]
        if not in_order or number != history.numbers.get(seat, 0) + 1:
            return Run(b"", b"j: 52 record %d\n" % place, 4)
        if history.verdict(kind, names) != verdict:
            return Run(b"", b"j: 53 verdict %d\n" % place, 4)
        history.add(seat, kind, names)
    summary, status = summary_of(held.records)
    return Run(summary, b"", status)


def is_possible(done, held):
    """Whether `replay` may answer so to a journal of another script, or of another phrase."""
    if not done.err:
        return (done.out, done.status) == summary_of(held.records)
    found = REFUSED.fullmatch(done.err)
    if not found or done.out:
        return False
    if found[2] and (SCRIPT_WORDS.get(int(found[2])) != found[3].decode() or found[2] == b"40"):
        return False
    record = int(found[5] or found[6] or 0)
    return record <= len(held.records) and done.status == (6 if found[4] else 4)


def replay_problems(program, folder, data):
    """What is wrong with a replay of these bytes, and the run."""
    path = os.path.join(folder, "j")
    write_file(path, data)
    done = run([program, "replay", "j"], folder)
    held = journal_of(data)
    if isinstance(held, str):
        wanted, after = Run(b"", b"j: %s\n" % held.encode(), 4), data
    else:
        wanted, after = judged(held) if is_judged(held) else None, data[:held.length]
    problems = []
    if wanted is not None and done != wanted or wanted is None and not is_possible(done, held):
        problems.append("replay: %s, wanted %s" % (done, wanted))
    if read_file(path) != after:
        problems.append("the file is %s after the replay, wanted %s" % (shown(read_file(path)), shown(after)))
    if not isinstance(held, str):
        again = run([program, "replay", "j"], folder)
        if again != done or read_file(path) != after:
            problems.append("replay: %s, and then %s" % (done, again))
    return problems, done


def serve_problems(program, folder, data, replayed):
    """What is wrong with a server on these bytes, of which `replay` says this."""
    path = os.path.join(folder, "j")
    write_file(path, data)
    write_file(os.path.join(folder, "p.csp"), SCRIPT)
    replies, end = told_over(program, folder, b"S\nQ\n")
    held = journal_of(data)
    if not data:
        replayed, held = Run(b"S 0 0 0 0 open\n", b"", 0), journal_of(journal_bytes([]))
    if replayed.err:
        good = (replies, end) == ([], replayed)
    elif (held.script, held.root) != (SCRIPT, b"P"):
        good = (replies, end) == ([], Run(b"", b"j: 54 specification\n", 4))
    elif max([record[0] for record in held.records], default=0) == 65_535:
        good = (replies, end) == ([b"ERR 22 seats"], Run(replayed.out, b"", 6))
    else:
        good = (replies, end) == ([replayed.out[:-1], b"BYE"], Run(replayed.out, b"", 0))
    return [] if good else ["serve: %s, %s, where replay says %s" % (replies, end, replayed)]


def try_journal(options, number, rng):
    data = a_journal(rng)
    if rng.random() < 0.95:
        data = damaged(rng, data, JOURNAL_PIECES)
    with tempfile.TemporaryDirectory(prefix="hostile-", dir=options.folder) as folder:
        problems, done = replay_problems(options.program, folder, data)
        if number % 20 == 0:
            problems += serve_problems(options.program, folder, data, done)
    outcome = re.sub(rb"[0-9]+$", b"n", done.err[3:-1]).decode("latin-1") if done.err else "opened"
    return problems, {re.sub("(script|root) [0-9]+: .*", r"fault of the \1", outcome): 1}, {"j": data, "p.csp": SCRIPT}


def journals_to_cut(seed):
    """Journals with few and many records, one with bytes past its last gate, one with a closed gate in its middle, one of a long script."""
    rng = random.Random("%d cuts" % seed)
    plain = [journal_bytes([]), journal_bytes([], version=1), a_journal(rng), a_journal(rng), a_journal(rng) + b"+9 1 E+ a\n."]
    history = History()
    for line in (b"E a", b"E a", b"R a c.0", b"E b", b"E c.2", b"R"):
        history.add(1, *report_of(line))
    whole = journal_bytes(history.entries)
    return plain + [whole, whole.replace(b"\n+1 4", b"\nx1 4"), journal_bytes(history.entries, SCRIPT + b"-- " + b"x" * 500 + b"\n")]


def try_cut(options, number, _):
    data = options.cut_journals[number]
    with tempfile.TemporaryDirectory(prefix="hostile-", dir=options.folder) as folder:
        problems, done = replay_problems(options.program, folder, data)
    return problems, {done.err[3:-1].decode("latin-1") or "opened": 1}, {"j": data}


# --- Limits ---

READS = (0, "")


def fault(text):
    return 3, "p.csp:" + text


def script_limits():
    """The name of each limit, a script at it or beyond it, and the status and the line that `check` gives it without input."""
    states = "channel a, b, c, d, e, f, g\nP = %s\n"

    def choice(count):
        return "(" + " |~| ".join("%s -> STOP" % name for name in "abcdefg"[:count]) + ")"

    product = " ||| ".join(choice(count) for count in (2, 2, 3, 4, 7))
    return [
        ("65,536 bytes", "channel a\nP = STOP\n--" + "x" * (65_536 - 21), READS),
        ("65,537 bytes", "channel a\nP = STOP\n--" + "x" * (65_537 - 21), fault("1: 10 large")),
        ("256 events", "channel c : {0..255}\nP = c?x -> P\n", READS),
        ("257 events", "channel c : {0..256}\nP = c?x -> P\n", fault("1: 8 events")),
        ("256 events of two channels", "channel c : {0..254}\nchannel a\nP = c?x -> P\n", READS),
        ("257 events of two channels", "channel c : {0..255}\nchannel a\nP = c?x -> P\n", fault("2: 8 events")),
        ("65,536 values", "channel c : {0..65535}.{}\nP = STOP\n", READS),
        ("65,537 values", "channel c : {0..65536}.{}\nP = STOP\n", fault("1: 10 large")),
        ("65,536 nodes", "channel c : {0..255}\nP = (c?x -> c?y:{0..84} -> STOP) \\ {}\n", READS),
        ("65,537 nodes", "channel c : {0..255}\nP = (c?x -> c?y:{0..84} -> STOP) \\ {} \\ {}\n", fault("2: 10 large")),
        ("a body of depth 200", "channel a\nP = " + "a -> " * 199 + "STOP\n", READS),
        ("a body of depth 201", "channel a\nP = " + "a -> " * 200 + "STOP\n", fault("2: 9 depth")),
        ("a tree of height 250", "channel a\nN = 0" + " + 1" * 249 + "\nP = STOP\n", READS),
        ("a tree of height 251", "channel a\nN = 0" + " + 1" * 250 + "\nP = STOP\n", fault("2: 9 depth")),
        ("250 brackets", "channel a\nP = " + "(" * 250 + "STOP" + ")" * 250 + "\n", READS),
        ("251 brackets", "channel a\nP = " + "(" * 251 + "STOP" + ")" * 251 + "\n", fault("2: 9 depth")),
        ("65,536 nodes by a parameter", "channel a\nQ(n) = if n < 32767 then a -> Q(n+1) else STOP\nP = Q(0)\n", READS),
        ("65,538 nodes by a parameter", "channel a\nQ(n) = if n < 32768 then a -> Q(n+1) else STOP\nP = Q(0)\n", fault("2: 10 large")),
        ("a parameter without an end", "channel a\nQ(n) = a -> Q(n+1)\nP = Q(0)\n", fault("2: 10 large")),
        ("65,535 nodes by a replicated choice", "channel a\nP = [] x:{0..32767} @ STOP\n", READS),
        ("9,000 generators", "channel a\nP = [] " + ", ".join(["x:{0}"] * 9_000) + " @ STOP\n", READS),
        ("65,537 nodes by a replicated choice", "channel a\nP = [] x:{0..32768} @ STOP\n", fault("2: 10 large")),
        ("a condition in a tree of height 250", "channel a\nP = if " + " and ".join(["0 == 0"] * 248) + " then STOP else STOP\n", READS),
        ("a condition in a tree of height 251", "channel a\nP = if " + " and ".join(["0 == 0"] * 249) + " then STOP else STOP\n", fault("2: 9 depth")),
        ("248 conditions", "channel a\nP = " + "if 0 == 0 then " * 248 + "STOP" + " else STOP" * 248 + "\n", READS),
        ("249 conditions", "channel a\nP = " + "if 0 == 0 then " * 249 + "STOP" + " else STOP" * 249 + "\n", fault("2: 9 depth")),
        ("248 guards", "channel a\nP = " + "0 == 0 & " * 248 + "STOP\n", READS),
        ("249 guards", "channel a\nP = " + "0 == 0 & " * 249 + "STOP\n", fault("2: 9 depth")),
        ("1,000,000", "channel c : {1000000..1000000}\nP = c.1000000 -> P\n", READS),
        ("1,000,001", "channel c : {1000001..1000001}\nP = STOP\n", fault("1: 7 range")),
        ("-1,000,000", "channel c : { -1000000..-1000000}\nP = c.-1000000 -> P\n", READS),
        ("-1,000,000 less 1", "channel c : { -1000000 - 1..0}\nP = STOP\n", fault("1: 7 range")),
        ("4,096 states", states % product, READS),
        ("4,097 states", "channel a, b\nQ = a -> STOP |~| b -> STOP\nP = Q ||| Q ||| Q ||| Q ||| Q ||| Q\n", (6, "p.csp: 21 states")),
        ("a state of depth 1,000", deep_states(3), READS),
        ("a state of depth 1,001", deep_states(4), (6, "p.csp: 20 depth")),
    ]


def deep_states(count):
    """A process whose deepest state has depth 997 and so many more: five definitions of 199 operators round a name, and one of `count`."""
    lines = ["channel a", "P = Q1" + " \\ {}" * 199]
    lines += ["Q%d = Q%d" % (number, number + 1) + " \\ {}" * 199 for number in range(1, 5)]
    return "\n".join(lines + ["Q5 = R" + " \\ {}" * count, "R = a -> STOP"]) + "\n"


def words_limits():
    """Words of `serve`, and the status that they give."""
    serve = ["serve", "p.csp", "P", "j", "--listen"]
    return [
        ("no connection", serve + ["127.0.0.1:0", "--connections", "0"], 2),
        ("65 connections", serve + ["127.0.0.1:0", "--connections", "65"], 2),
        ("256 connections", serve + ["127.0.0.1:0", "--connections", "256"], 2),
        ("a port of 65,536", serve + ["127.0.0.1:65536", "--connections", "1"], 2),
        ("128.0.0.0", serve + ["128.0.0.0:0", "--connections", "1"], 2),
        ("126.255.255.255", serve + ["126.255.255.255:0", "--connections", "1"], 2),
    ]


def journal_limits():
    """Journals at a limit and beyond it, with what `replay` answers."""
    def replayed(error, status):
        return Run(b"", error, status)

    long_script = SCRIPT + b"--" + b"x" * (65_536 - len(SCRIPT) - 3) + b"\n"
    one = [(1, 1, "E", (b"a",), True)]
    opened = Run(b"S 1 1 0 0 open\n", b"", 0)
    return [
        ("seat 65,535", journal_bytes([(65_535, 1, "E", (b"a",), True)]), opened),
        ("seat 65,536", journal_bytes([(65_536, 1, "E", (b"a",), True)]), replayed(b"j: 52 record 1\n", 4)),
        ("number 1,000,001", journal_bytes([(1, 1_000_001, "E", (b"a",), True)]), replayed(b"j: 52 record 1\n", 4)),
        ("a journal's script of 65,536 bytes", journal_bytes(one, long_script), opened),
        ("a journal's script of 65,537 bytes", journal_bytes(one, long_script + b"\n"), replayed(b"j: 50 header\n", 4)),
    ]


def try_limit(options, number, _):
    """A limit by its place in the three lists, one after the other."""
    scripts, words, journals = script_limits(), words_limits(), journal_limits()
    with tempfile.TemporaryDirectory(prefix="hostile-", dir=options.folder) as folder:
        if number < len(scripts):
            name, text, (status, err) = scripts[number]
            files = {"p.csp": text.encode()}
            write_file(os.path.join(folder, "p.csp"), files["p.csp"])
            done = run([options.program, "check", "p.csp", "P"], folder)
            wanted = Run(b"", err.encode() + b"\n" if err else b"", status)
        elif number < len(scripts) + len(words):
            name, call, status = words[number - len(scripts)]
            files = {"p.csp": SCRIPT, "words": " ".join(call).encode()}
            write_file(os.path.join(folder, "p.csp"), SCRIPT)
            done = run([options.program] + call, folder)
            wanted = Run(b"", done.err or b"a message", status)
        else:
            name, data, wanted = journals[number - len(scripts) - len(words)]
            files = {"j": data}
            write_file(os.path.join(folder, "j"), data)
            done = run([options.program, "replay", "j"], folder)
    return [] if done == wanted else ["%s: %s, wanted %s" % (name, done, wanted)], {"inputs at a limit or beyond": 1}, files


# --- All ---

def tasks_of(options, kind):
    """The function that tries an input of the kind, and how many inputs there are."""
    runs_of_lines = max(1, options.each // LINES_OF_A_RUN)
    if kind == "cuts":
        options.cut_journals = [data[:length] for data in journals_to_cut(options.seed) for length in range(len(data) + 1)]
        return [(try_cut, len(options.cut_journals))]
    if kind == "limits":
        return [(try_limit, len(script_limits()) + len(words_limits()) + len(journal_limits()))]
    return {
        "scripts": [(try_script, options.each)],
        "lines": [(try_lines, runs_of_lines), (try_example, max(1, runs_of_lines // 4))],
        "connections": [(try_connection, max(1, runs_of_lines // 10))],
        "journals": [(try_journal, options.each)],
    }[kind]


def tried(attempt, options, number):
    """What came of an input that the seed alone makes."""
    return attempt(options, number, random.Random("%d %s %d" % (options.seed, attempt.__name__, number)))


def by_hypothesis(attempt, options, kind, count, book):
    """Tries some more inputs, made by hypothesis where it is installed, and makes one that fails as small as it can."""
    if options.plain or generated.hypothesis is None:
        return

    def outcome(rng):
        problems, _, files = attempt(options, 1, rng)
        return generated.Outcome("made by hypothesis", "%s\n%r" % ("; ".join(problems[:3]), files) if problems else "")

    found = generated.by_hypothesis(outcome, generated.Chunk("%d %s" % (options.seed, attempt.__name__), min(100, max(5, count // 20))))
    for problem in found.problems:
        book.note(kind, [problem], {})
    for what, times in found.counts.items():
        book.passed += 0 if what.startswith("failed") else times
        book.count(kind, what, times)


def main():
    parser = argparse.ArgumentParser(description=__doc__.split("\n")[0])
    add_options(parser, "hostile")
    parser.add_argument("--each", type=int, default=2000, help="how many scripts, lines and journals")
    parser.add_argument("--jobs", type=int, default=4)
    parser.add_argument("--only", nargs="+", choices=KINDS, default=KINDS)
    parser.add_argument("--plain", action="store_true", help="without hypothesis, also where it is installed")
    options = parser.parse_args()
    if not begin(options):
        return 1
    options.bases = bases_of_scripts()
    options.examples = sorted(name[:-8] for name in os.listdir(EXAMPLES) if name.endswith(".reports"))
    print("seed %d, %d of each kind" % (options.seed, options.each), flush=True)
    book = Book(options.keep)
    with concurrent.futures.ThreadPoolExecutor(max_workers=options.jobs) as pool:
        for kind in options.only:
            for attempt, count in tasks_of(options, kind):
                for problems, counts, files in pool.map(lambda number, attempt=attempt: tried(attempt, options, number), range(count)):
                    book.note(kind, problems, files)
                    for what, times in counts.items():
                        book.count(kind, what, times)
                if attempt not in (try_cut, try_limit):
                    by_hypothesis(attempt, options, kind, count, book)
            book.tell(kind)
    return book.end()


if __name__ == "__main__":
    sys.exit(main())
