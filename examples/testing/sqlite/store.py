"""The adapter of a value in SQLite, with two connections. STORE=dirty lets them read what the other hasn't committed."""
import os
import sqlite3
import tempfile

from cspwatch_client.testing import Refused, does

outputs = ["value"]
quiet = "0"  # The answer is there when a call returns.

IS_DIRTY = os.environ.get("STORE") == "dirty"

folder = tempfile.TemporaryDirectory()
seen = []


def connected():
    """A connection that doesn't wait for the other one, and begins no transaction by itself."""
    address = "file:%s/store.db%s" % (folder.name, "?cache=shared" if IS_DIRTY else "")
    found = sqlite3.connect(address, uri=True, timeout=0, isolation_level=None)
    found.execute("PRAGMA journal_mode = WAL")
    found.execute("PRAGMA synchronous = OFF")  # No run crashes.
    found.execute("PRAGMA read_uncommitted = %d" % IS_DIRTY)
    return found


connections = [connected(), connected()]
connections[0].execute("CREATE TABLE store (value INTEGER)")
connections[0].execute("INSERT INTO store VALUES (0)")


def reset():
    for connection in connections:
        if connection.in_transaction:
            connection.execute("ROLLBACK")
    connections[0].execute("UPDATE store SET value = 0")
    seen.clear()


def execute(c, text, *values):
    try:
        return connections[c].execute(text, values).fetchall()
    except sqlite3.OperationalError as error:
        raise Refused from error


@does("begin.{c}")
def begin(c):
    execute(c, "BEGIN IMMEDIATE")


@does("commit.{c}")
def commit(c):
    execute(c, "COMMIT")


@does("rollback.{c}")
def rollback(c):
    execute(c, "ROLLBACK")


@does("write.{c}.{x}")
def write(c, x):
    if not connections[c].in_transaction:
        raise Refused
    execute(c, "UPDATE store SET value = ?", x)


@does("read.{c}")
def read(c):
    seen.append("value.%d.%d" % (c, execute(c, "SELECT value FROM store")[0][0]))


def observe(wait):
    values = list(seen)
    seen.clear()
    return values
