#!/usr/bin/env python3
"""A program with the words of `cspwatch` and the newer options of `check`, for the tests of `cspwatch-logs`. It judges nothing.

The script is a list of lines: `channel ..` as `print` writes them, `no|REPORT|REASON` for a report that is rejected, with the reason
that `--explain` gives (none where it is empty), `fault|REPORT|CODE WORD` for one that is answered by `ERR`, and
`end|REPORT|STATUS TEXT` for one at which the program ends. The variable STAND_IN_OPTIONS has the options that its `check` has.
"""
import os
import sys

OPTIONS = os.environ.get("STAND_IN_OPTIONS", "--explain --large").split()


def words_of(spec):
    with open(spec, encoding="ascii") as file:
        return [line.rstrip("\n").split("|") for line in file]


def check(spec, explains):
    answers = {words[1]: (words[0], words[2]) for words in words_of(spec) if len(words) == 3}
    place = 0
    for number, line in enumerate(sys.stdin, 1):
        line = line.rstrip("\n")
        kind, text = answers.get(line, ("ok", ""))
        place += kind in ("ok", "no")
        if kind == "end":
            status, _, text = text.partition(" ")
            print(text, file=sys.stderr)
            return int(status)
        print({"ok": "OK %d" % place, "no": "NO %d" % place}.get(kind, "ERR " + text), flush=True)
        if kind == "no" and text and explains:
            print("line %d: %s: NO %d, %s" % (number, line, place, text), file=sys.stderr, flush=True)
    return 0


def main(words):
    if words == ["--version"]:
        print("cspwatch 0.0.0")
    elif words == ["check", "--help"]:
        print("\n".join("      %s  what it does" % option for option in OPTIONS))
    elif words[0] == "print":
        print("\n".join(line[0] for line in words_of(words[1]) if len(line) == 1))
    elif words[0] == "check" and all(word in OPTIONS for word in words[1:-2]):
        return check(words[-2], "--explain" in words)
    else:
        return 2
    return 0


if __name__ == "__main__":
    sys.exit(main(sys.argv[1:]))
