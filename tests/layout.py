#!/usr/bin/env python3
"""Says which pages have prose that isn't laid out in filled lines of at most 120 columns, or lays it out.

    tests/layout.py [--write] [PAGE ..]

Without a PAGE all pages (*.md) are taken. A paragraph, and an item of a list, is filled: each line has as many words as
fit. Headings, tables and blocks of code stay as they are. A span of code or a link isn't broken, and no line begins with
what would make it an item, a heading or a quotation. The last line is `N passed, M failed`.
"""
import argparse
import os
import re
import sys

from documents import ROOT, pages

COLUMNS = 120

FENCE = re.compile(r"\s*```")
"""The first or the last line of a block of code."""

KEPT = re.compile(r"\s*(\||#|>|<!--)|\s*$")
"""A line that stays as it is: of a table, a heading, a quotation, or empty."""

ITEM = re.compile(r"(\s*)(?:[-*+]|\d+[.)]) +")
"""What an item of a list begins with."""

WORD = re.compile(r"(?:``.+?``|`[^`]+`|\[[^\]]+\]\([^)]+\)|[^\s`\[]+|[`\[])+")
"""A word: spans of code and links in it are whole."""

BEGINS_ITEM = re.compile(r"([-*+#>|]|#+|\d+[.)])$|\||>|```")
"""A word with which no line may begin."""


def kept_together(words):
    """The words, each with those after it that can't begin a line."""
    found = []
    for word in words:
        if found and BEGINS_ITEM.match(word):
            found[-1] += " " + word
        else:
            found.append(word)
    return found


def filled(words, first, later):
    """The words in lines, the first with this beginning and the others with that one."""
    lines, line = [], first + words[0]
    for word in words[1:]:
        if len(line) + 1 + len(word) > COLUMNS:
            lines.append(line)
            line = later + word
        else:
            line += " " + word
    return lines + [line]


def laid_out(text):
    """The page, with its prose in filled lines."""
    found, paragraph, begin, inside = [], [], "", False

    def end():
        if paragraph:
            words = WORD.findall("\n".join(paragraph).replace("\n", " "))
            found.extend(filled(kept_together(words), begin, " " * len(begin)))
            paragraph.clear()

    for line in text.split("\n"):
        if FENCE.match(line):
            end()
            inside = not inside
            found.append(line)
        elif inside or KEPT.match(line):
            end()
            found.append(line)
        else:
            item = ITEM.match(line)
            if item:
                end()
                begin, line = item[0], line[item.end() :]
            elif not paragraph:
                begin = re.match(r"\s*", line)[0]
            paragraph.append(line.strip())
    end()
    return "\n".join(found)


def main():
    parser = argparse.ArgumentParser(description=__doc__.split("\n")[0])
    parser.add_argument("--write", action="store_true", help="lay the pages out")
    parser.add_argument("pages", metavar="PAGE", nargs="*")
    options = parser.parse_args()
    passed = failed = 0
    for name in options.pages or pages():
        path = os.path.join(ROOT, name)
        with open(path, encoding="utf-8") as file:
            text = file.read()
        wanted = laid_out(text)
        if wanted == text:
            passed += 1
        elif options.write:
            with open(path, "w", encoding="utf-8") as file:
                file.write(wanted)
            passed += 1
            print("%s: laid out" % name)
        else:
            failed += 1
            print("%s: not laid out" % name)
    print("%d passed, %d failed" % (passed, failed))
    return 1 if failed else 0


if __name__ == "__main__":
    sys.exit(main())
