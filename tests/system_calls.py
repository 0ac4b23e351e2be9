#!/usr/bin/env python3
"""Looks at the system calls of `cspwatch serve` by `strace`: that each report is on the device before it is answered, and the reply goes out at once.

    python3 -m pytest tests/system_calls.py [--program FILE]

No contract can say that a sync reaches the system, since a real file claims nothing. Here it is seen: a new journal is
synced before the server listens; for each report the record is written and synced, then its gate is written and synced,
and only then the reply is sent. The connection was asked to send without delay (`TCP_NODELAY`) before. Where there is no `strace`, or it may not be used,
nothing is tested, and that is said.
"""
import os
import re
import shutil
import socket
import subprocess

import pytest

SCRIPT = "channel a, b\nP = a -> b -> P\n"
TALK = [("E a", "OK 1"), ("E a", "NO 2"), ("R a", "OK 3"), ("E b", "OK 4")]
CALLS = "openat,pwrite64,fsync,fdatasync,write,sendto,close,accept4,setsockopt"
SECONDS = 120

CALL = re.compile(r"\d+\s+(\w+)\((.*)\)\s+= (-?\d+)")
"""A line of the trace: the call, its arguments, its result."""


def has_strace():
    """Whether `strace` is there and may be used."""
    if shutil.which("strace") is None:
        return False
    return subprocess.run(["strace", "-f", "true"], stdout=subprocess.DEVNULL, stderr=subprocess.DEVNULL).returncode == 0


def talk(port, lines):
    """Sends each line after the reply to the one before it; the replies."""
    replies = []
    with socket.create_connection(("127.0.0.1", port), timeout=SECONDS) as connection:
        stream = connection.makefile("rw", encoding="utf-8", newline="\n")
        for line in lines:
            stream.write(line + "\n")
            stream.flush()
            replies.append(stream.readline().rstrip("\n"))
    return replies


def traced(program, folder):
    """Serves one connection under `strace`: the replies, and the lines of the trace."""
    log = os.path.join(folder, "trace")
    with open(os.path.join(folder, "p.csp"), "w", encoding="utf-8") as file:
        file.write(SCRIPT)
    words = [program, "serve", "p.csp", "P", "journal", "--listen", "127.0.0.1:0", "--connections", "1"]
    with subprocess.Popen(
        ["strace", "-f", "-s", "64", "-e", "trace=" + CALLS, "-o", log] + words, cwd=folder, stdout=subprocess.PIPE, text=True
    ) as server:
        port = int(server.stdout.readline().rpartition(":")[2])
        replies = talk(port, [line for line, _ in TALK])
        server.communicate(timeout=SECONDS)
    # a call that another thread interrupts stands in two lines, the second with the result
    begun, lines = {}, []
    for line in open(log, encoding="utf-8", errors="replace"):
        number, _, rest = line.rstrip("\n").partition(" ")
        rest = rest.strip()
        if rest.endswith("<unfinished ...>"):
            begun[number] = rest[: -len("<unfinished ...>")].rstrip()
        else:
            resumed = re.match(r"<\.\.\. \w+ resumed>(.*)", rest)
            lines.append("%s %s" % (number, begun.pop(number, "") + resumed[1] if resumed else rest))
    return replies, lines


def happenings(lines):
    """What happened, in order: `written`, `gate`, `synced` of the journal's file, `folder`, `listening`, and each reply."""
    found, journals, folders = [], set(), set()
    for line in lines:
        match = CALL.match(line)
        if match is None or int(match[3]) < 0:
            continue
        call, arguments, result = match.groups()
        first = arguments.split(",")[0].strip()
        if call == "openat":
            journals.discard(result)
            folders.discard(result)
            if '"journal"' in arguments and "O_RDWR" in arguments:
                journals.add(result)
            elif '"."' in arguments:
                folders.add(result)
        elif call == "pwrite64" and first in journals:
            found.append("gate" if '"+"' in arguments else "written")
        elif call in ("fsync", "fdatasync") and first in journals:
            found.append("synced")
        elif call in ("fsync", "fdatasync") and first in folders:
            found.append("folder")
        elif call in ("write", "sendto"):
            text = re.search(r'"((?:listening|OK|NO|ERR) ?[^\\"]*)', arguments)
            if text:
                found.append(text[1].split()[0] if text[1].startswith("listening") else text[1])
    return found


def sends_at_once(lines):
    """Whether the connection that was taken is one without delay before a reply is sent over it."""
    taken = None
    for line in lines:
        match = CALL.match(line)
        if match is None or int(match[3]) < 0:
            continue
        call, arguments, result = match.groups()
        if call == "accept4":
            taken = result
        elif call == "setsockopt" and arguments.startswith("%s, SOL_TCP, TCP_NODELAY, [1]" % taken):
            return True
        elif call == "sendto":
            return False
    return False


@pytest.fixture(scope="module")
def served(program, tmp_path_factory):
    """The replies, the lines of the trace, what happened before the server listened, and after it."""
    if not has_strace():
        pytest.skip("strace is not there, or may not be used")
    replies, lines = traced(program, str(tmp_path_factory.mktemp("served")))
    happened = happenings(lines)
    listens = happened.index("listening")
    return replies, lines, happened[:listens], happened[listens + 1:]


def test_replies(served):
    assert served[0] == [reply for _, reply in TALK]


def test_a_new_journal_is_synced_before_the_server_listens(served):
    assert "synced" in served[2]


def test_the_folder_is_synced_after_the_journal(served):
    assert "folder" in served[2][served[2].index("synced"):]


def test_replies_go_out_at_once(served):
    assert sends_at_once(served[1]), [line for line in served[1] if "sockopt" in line]


def test_each_report_is_synced_twice_before_it_is_answered(served):
    assert served[3] == [step for _, reply in TALK for step in ("written", "synced", "gate", "synced", reply)]
