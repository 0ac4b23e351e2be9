#!/usr/bin/env python3
"""Runs the tests of all clients, and prints `N passed, M failed` last.

    clients/run_tests.py [--program FILE] [--all]

Without --program the program is the one that the project built. Tests that need what isn't there (the program, its command
`serve`, a compiler for C) are passed over, and the reasons printed; with --all each of them counts as failed.
"""
import argparse
import collections
import os
import sys
import unittest

HERE = os.path.dirname(os.path.abspath(__file__))


class Counts(unittest.TextTestResult):
    """A result that counts the tests which passed."""

    passed = 0

    def addSuccess(self, test):
        super().addSuccess(test)
        self.passed += 1


def run(client):
    """The result of all tests of a client."""
    # The folders have modules of the same name, so each is found by a loader of its own.
    sys.modules.pop("test_client", None)
    folder = os.path.join(HERE, client, "tests")
    tests = unittest.TestLoader().discover(folder, top_level_dir=folder)
    sys.path.remove(folder)
    return unittest.TextTestRunner(stream=sys.stdout, resultclass=Counts).run(tests)


def main():
    parser = argparse.ArgumentParser(description=__doc__.split("\n")[0])
    parser.add_argument("--program", help="the program cspwatch")
    parser.add_argument("--all", action="store_true", help="a test that is passed over counts as failed")
    options = parser.parse_args()
    if options.program:
        os.environ["CSPWATCH"] = os.path.abspath(options.program)
    passed = failed = 0
    for client in ("python", "c"):
        done = run(client)
        for reason, count in sorted(collections.Counter(reason for _, reason in done.skipped).items()):
            print("%s: %d passed over: %s" % (client, count, reason))
        passed += done.passed
        failed += len(done.failures) + len(done.errors) + len(done.unexpectedSuccesses)
        failed += len(done.skipped) if options.all else 0
    print("%d passed, %d failed" % (passed, failed))
    return 1 if failed else 0


if __name__ == "__main__":
    sys.exit(main())
