#!/usr/bin/env python3
"""`cspwatch serve --listen unix:PATH`: connections at a socket in the file system.

    tests/unix_sockets.py [--program FILE]

Clients are answered there as at an address. Only the user who runs the server may connect. A socket that is left over is replaced; one at
which somebody listens stays, and so does a file that is no socket. The last line is `N passed, M failed`.
"""
import argparse
import os
import socket
import stat
import subprocess
import sys
import tempfile

HERE = os.path.dirname(os.path.abspath(__file__))
PROGRAM = os.path.join(os.path.dirname(HERE), "crates", "cspwatch", "out", "cspwatch")
SCRIPT = "channel a, b\nP = a -> b -> P\n"
SECONDS = 120


def words(path, journal, connections=1):
    return ["serve", "p.csp", "P", journal, "--listen", f"unix:{path}", "--connections", str(connections)]


def conversation(path, lines):
    """The replies to these lines, of a client that then ends its side."""
    with socket.socket(socket.AF_UNIX) as client:
        client.settimeout(SECONDS)
        client.connect(path)
        client.sendall("".join(line + "\n" for line in lines).encode())
        client.shutdown(socket.SHUT_WR)
        with client.makefile("r", encoding="utf-8") as replies:
            return replies.read().splitlines()


def listening(path):
    """A socket that is bound to the file, at which nobody listens yet."""
    one = socket.socket(socket.AF_UNIX)
    one.bind(path)
    return one


def served(program, folder, journal):
    """What is wrong with a run of two connections."""
    path = os.path.join(folder, "s")
    with subprocess.Popen([program, *words(path, journal, 2)], cwd=folder, stdout=subprocess.PIPE, text=True) as process:
        try:
            first = process.stdout.readline()
            if first != f"listening unix:{path}\n":
                yield f"the first line is {first!r}"
                return
            if stat.S_IMODE(os.stat(path).st_mode) != 0o600:
                yield "others may connect"
            if (replies := conversation(path, ["E a", "E a", "Q"])) != ["OK 1", "NO 2", "BYE"]:
                yield f"the first client got {replies}"
            if (replies := conversation(path, ["E b", "S"])) != ["OK 3", "S 3 2 0 1 open"]:
                yield f"the second client got {replies}"
            rest, _ = process.communicate(timeout=SECONDS)
            if (process.returncode, rest) != (1, "S 3 2 0 1 open\n"):
                yield f"it ended with {process.returncode} {rest!r}"
        finally:
            process.kill()
    if os.path.exists(path):
        yield "the socket is still there"


def refused(program, folder, journal):
    """What is wrong where it can't listen at the file `s`."""
    path = os.path.join(folder, "s")
    run = subprocess.run([program, *words(path, journal)], cwd=folder, capture_output=True, text=True, timeout=SECONDS, check=False)
    if (run.returncode, run.stdout, run.stderr) != (5, "", f"unix:{path}: cannot listen\n"):
        yield f"{run.returncode} {run.stdout!r} {run.stderr!r}"
    if os.path.exists(os.path.join(folder, journal)):
        yield "it left a journal"


def a_new_file(program, folder):
    yield from served(program, folder, "new")


def a_left_over_socket(program, folder):
    listening(os.path.join(folder, "s")).close()
    yield from served(program, folder, "again")


def a_socket_in_use(program, folder):
    path = os.path.join(folder, "s")
    with listening(path) as other:
        other.listen()
        yield from refused(program, folder, "used")
        with socket.socket(socket.AF_UNIX) as client:
            client.connect(path)
    os.remove(path)


def a_file_that_is_no_socket(program, folder):
    path = os.path.join(folder, "s")
    with open(path, "w", encoding="utf-8") as file:
        file.write("text")
    yield from refused(program, folder, "file")
    with open(path, encoding="utf-8") as file:
        if file.read() != "text":
            yield "the file was changed"
    os.remove(path)


def no_path(program, folder):
    run = subprocess.run([program, *words("", "none")], cwd=folder, capture_output=True, text=True, timeout=SECONDS, check=False)
    if run.returncode != 2 or run.stdout:
        yield f"{run.returncode} {run.stdout!r}"


def main():
    parser = argparse.ArgumentParser(description=__doc__.split("\n", 1)[0])
    parser.add_argument("--program", default=PROGRAM)
    program = os.path.abspath(parser.parse_args().program)
    passed = failed = 0
    for test in (a_new_file, a_left_over_socket, a_socket_in_use, a_file_that_is_no_socket, no_path):
        with tempfile.TemporaryDirectory() as folder:
            with open(os.path.join(folder, "p.csp"), "w", encoding="utf-8") as file:
                file.write(SCRIPT)
            problems = list(test(program, folder))
        for problem in problems:
            print(f"{test.__name__}: {problem}")
        passed, failed = passed + (not problems), failed + bool(problems)
    print(f"{passed} passed, {failed} failed")
    return 1 if failed else 0


if __name__ == "__main__":
    sys.exit(main())
