#!/usr/bin/env python3
"""Makes a wheel of the client for Python, with `cspwatch-logs`. It needs no network, and no other package.

    dist/make_wheel.py [--output FOLDER]    makes FOLDER/cspwatch_client-VERSION-py3-none-any.whl

Without --output the folder is dist. The version is the package's `__version__`. The wheel has the same bytes each time: all its files
have the date of the last commit, or SOURCE_DATE_EPOCH.
"""
import argparse
import os
import subprocess
import sys

HERE = os.path.dirname(os.path.abspath(__file__))
ROOT = os.path.dirname(HERE)
sys.path.insert(0, os.path.join(ROOT, "clients", "python", "backend"))

import cspwatch_build  # noqa: E402 (clients/python/backend)


def version():
    """The version of the package for Python, as the program would print it: `0.7.0.dev0` is `0.7.0-dev`."""
    return cspwatch_build.version().replace(".dev0", "-dev")


def make(target):
    """Makes the wheel in the folder, and answers its file."""
    if "SOURCE_DATE_EPOCH" not in os.environ:
        words = ["git", "-C", ROOT, "log", "-1", "--format=%ct"]
        os.environ["SOURCE_DATE_EPOCH"] = subprocess.run(words, stdout=subprocess.PIPE, check=True).stdout.decode().strip()
    return os.path.join(target, cspwatch_build.build_wheel(target))


def main():
    parser = argparse.ArgumentParser(description=__doc__.split("\n")[0])
    parser.add_argument("--output", default=HERE, help="the folder of the wheel")
    print(make(os.path.abspath(parser.parse_args().output)))


if __name__ == "__main__":
    main()
