"""What the cases' programs share: the bytes of a content, and bounds on files and on the stack."""
import sys

# Runs a program whose files can't grow past a size: a write beyond it fails, and no signal comes.
BOUNDED = """
import os, resource, signal, sys
signal.signal(signal.SIGXFSZ, signal.SIG_IGN)
resource.setrlimit(resource.RLIMIT_FSIZE, (int(sys.argv[1]), int(sys.argv[1])))
os.execv(sys.argv[2], sys.argv[2:])
"""


def bounded(size, command):
    """The command, with this bound on its files."""
    return [sys.executable, "-c", BOUNDED, str(size)] + command


# Runs a program whose stack can't grow past a size.
SHALLOW = """
import os, resource, sys
resource.setrlimit(resource.RLIMIT_STACK, (int(sys.argv[1]), resource.getrlimit(resource.RLIMIT_STACK)[1]))
os.execv(sys.argv[2], sys.argv[2:])
"""


def shallow(size, command):
    """The command, with so many bytes of stack."""
    return [sys.executable, "-c", SHALLOW, str(size)] + command


# Runs a program that is ended once it has taken so much of the processor.
BRIEF = """
import os, resource, sys
resource.setrlimit(resource.RLIMIT_CPU, (int(sys.argv[1]), int(sys.argv[1])))
os.execv(sys.argv[2], sys.argv[2:])
"""


def brief(seconds, command):
    """The command, with so many seconds of the processor."""
    return [sys.executable, "-c", BRIEF, str(seconds)] + command


def numbered(text, first, last):
    """A line for each number. The first %d in the text is the number, the next one the number after it, and so on."""
    places = text.count("%d")
    return "\n".join(text % tuple(range(number, number + places)) for number in range(first, last + 1))


def octets(content):
    """The bytes of a content, whose forms are in tests/README.md."""
    if isinstance(content, str):
        return content.encode("latin-1")
    if isinstance(content, dict):
        return octets(numbered(content["lines"], content["from"], content["to"]))
    if len(content) == 2 and isinstance(content[1], int):
        return octets(content[0]) * content[1]
    return b"".join(octets(part) for part in content)


def lines(contents):
    return b"".join(octets(content) + b"\n" for content in contents)


def shown(data):
    return repr(data if len(data) <= 300 else data[:300] + b"..")
