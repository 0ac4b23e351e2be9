"""Builds the package for Python by itself: pip needs nothing else for it, and so no network.

These are the calls that pip and other tools make (PEP 517, PEP 660). A wheel has the same bytes each time: its files have one date,
that of the variable SOURCE_DATE_EPOCH, or the earliest that there can be.
"""
import base64
import gzip
import hashlib
import io
import os
import re
import tarfile
import time
import zipfile
from typing import Dict, List, Optional, Tuple

HERE = os.path.dirname(os.path.dirname(os.path.abspath(__file__)))
ROOT = os.path.dirname(os.path.dirname(HERE))
NAME = "cspwatch_client"
EARLIEST = 315532800

METADATA = """Metadata-Version: 2.1
Name: cspwatch-client
Version: %s
Summary: Reports events of a running system to cspwatch, and reads the verdicts
License: MIT OR Apache-2.0
Requires-Python: >=3.9
Classifier: Operating System :: POSIX
Classifier: Programming Language :: Python :: 3
Classifier: Typing :: Typed
Provides-Extra: watch
Requires-Dist: prometheus_client; extra == 'watch'
Requires-Dist: aiohttp; extra == 'watch'
Provides-Extra: test
Requires-Dist: hypothesis; extra == 'test'
"""

WHEEL = """Wheel-Version: 1.0
Generator: cspwatch_build
Root-Is-Purelib: true
Tag: py3-none-any
"""

COMMANDS = {
    "cspwatch-explore": "cspwatch_client.exploring.command:main",
    "cspwatch-logs": "cspwatch_client.logs.command:main",
    "cspwatch-metrics": "cspwatch_client.watching.metrics:main",
    "cspwatch-test": "cspwatch_client.testing.command:main",
    "cspwatch-web": "cspwatch_client.watching.web:main",
}
"""The commands, and the function that each calls."""

PYTEST = "[pytest11]\ncspwatch = cspwatch_client.pytest_plugin\n"
"""The plugin for pytest, which finds it where the package is installed."""

ENTRY_POINTS = "[console_scripts]\n" + "".join("%s = %s\n" % row for row in sorted(COMMANDS.items())) + "\n" + PYTEST

OF_A_COMMAND = [
    ("man/%s.1", "man/man1/%s.1"),
    ("clients/python/completions/%s.bash", "bash-completion/completions/%s"),
    ("clients/python/completions/_%s", "zsh/site-functions/_%s"),
    ("clients/python/completions/%s.fish", "fish/vendor_completions.d/%s.fish"),
]
"""What the repository has for a command, and where it goes below `share`."""

SHARED = [(source % command, target % command) for command in sorted(COMMANDS) for source, target in OF_A_COMMAND]

LICENCES = ["LICENSE-MIT", "LICENSE-APACHE"]

Files = Dict[str, bytes]


def bytes_of(*path: str) -> bytes:
    with open(os.path.join(*path), "rb") as file:
        return file.read()


def version() -> str:
    """The version, which stands in the package."""
    found = re.search(rb'^__version__ = "(.+)"$', bytes_of(HERE, NAME, "__init__.py"), re.MULTILINE)
    assert found is not None
    return found[1].decode("ascii")


def package() -> Files:
    """The files of the package, by their names in a wheel."""
    found = {}
    for folder, _, names in os.walk(os.path.join(HERE, NAME)):
        for name in names:
            if name.endswith((".py", ".css", ".js", ".html")) or name == "py.typed":
                found[os.path.relpath(os.path.join(folder, name), HERE)] = bytes_of(folder, name)
    return found


def about() -> Files:
    """What a wheel says of itself, but for the list of its files. Who has this folder alone has no licences beside it."""
    found = {"METADATA": (METADATA % version()).encode(), "WHEEL": WHEEL.encode(), "entry_points.txt": ENTRY_POINTS.encode()}
    for name in LICENCES:
        if os.path.exists(os.path.join(ROOT, name)):
            found[name] = bytes_of(ROOT, name)
    return {"%s-%s.dist-info/%s" % (NAME, version(), name): text for name, text in found.items()}


def shared() -> Files:
    """The manual pages and the completions of the commands."""
    there = [(source, target) for source, target in SHARED if os.path.exists(os.path.join(ROOT, source))]
    return {"%s-%s.data/data/share/%s" % (NAME, version(), target): bytes_of(ROOT, source) for source, target in there}


def record(files: Files, name: str) -> bytes:
    """The list of the files with their sums. It has itself too, without one."""
    lines = []
    for path, text in sorted(files.items()):
        total = base64.urlsafe_b64encode(hashlib.sha256(text).digest()).rstrip(b"=").decode("ascii")
        lines.append("%s,sha256=%s,%d\n" % (path, total, len(text)))
    return ("".join(lines) + "%s,,\n" % name).encode("utf-8")


def date() -> int:
    return max(int(os.environ.get("SOURCE_DATE_EPOCH", EARLIEST)), EARLIEST)


def write(folder: str, files: Files) -> str:
    """Writes a wheel of these files into the folder, and answers its name."""
    name = "%s-%s-py3-none-any.whl" % (NAME, version())
    listed = "%s-%s.dist-info/RECORD" % (NAME, version())
    in_order: List[Tuple[str, bytes]] = sorted(files.items()) + [(listed, record(files, listed))]
    with zipfile.ZipFile(os.path.join(folder, name), "w", zipfile.ZIP_DEFLATED) as wheel:
        for path, text in in_order:
            entry = zipfile.ZipInfo(path, time.gmtime(date())[:6])
            entry.compress_type = zipfile.ZIP_DEFLATED
            entry.create_system = 3
            entry.external_attr = 0o100644 << 16
            wheel.writestr(entry, text)
    return name


def build_wheel(wheel_directory: str, config_settings: object = None, metadata_directory: Optional[str] = None) -> str:
    return write(wheel_directory, {**package(), **about(), **shared()})


def build_editable(wheel_directory: str, config_settings: object = None, metadata_directory: Optional[str] = None) -> str:
    """A wheel that leads to this folder, so that a change of the sources is seen at once."""
    return write(wheel_directory, {**about(), NAME + ".pth": (HERE + "\n").encode("utf-8")})


def build_sdist(sdist_directory: str, config_settings: object = None) -> str:
    """The sources of this folder from which a wheel can be built."""
    base = "%s-%s" % (NAME, version())
    files = {**package(), "PKG-INFO": (METADATA % version()).encode()}
    for name in ("pyproject.toml", "README.md", os.path.join("backend", "cspwatch_build.py")):
        files[name] = bytes_of(HERE, name)
    whole = io.BytesIO()
    with tarfile.open(fileobj=whole, mode="w", format=tarfile.PAX_FORMAT) as archive:
        for path, text in sorted(files.items()):
            entry = tarfile.TarInfo("%s/%s" % (base, path))
            entry.size, entry.mtime, entry.mode = len(text), date(), 0o644
            archive.addfile(entry, io.BytesIO(text))
    with open(os.path.join(sdist_directory, base + ".tar.gz"), "wb") as file:
        file.write(gzip.compress(whole.getvalue(), 9, mtime=date()))
    return base + ".tar.gz"
