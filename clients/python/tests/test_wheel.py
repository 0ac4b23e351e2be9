"""The package for Python as a wheel: built without a network, and installed into a folder of its own without one.

Where no such folder can be made (Debian has `python3-venv` for it), what needs one is skipped.
"""
import base64
import csv
import hashlib
import io
import os
import re
import subprocess
import sys
import tempfile
import unittest
import zipfile

HERE = os.path.dirname(os.path.abspath(__file__))
PYTHON = os.path.dirname(HERE)
ROOT = os.path.dirname(os.path.dirname(PYTHON))
MAKE = os.path.join(ROOT, "dist", "make_wheel.py")
SECONDS = 300

FOLDER = tempfile.TemporaryDirectory(prefix="wheel-")
PLACE = os.path.join(FOLDER.name, "place")
BIN = os.path.join(PLACE, "bin")
DATED = dict(os.environ, SOURCE_DATE_EPOCH="1700000000")
OFFLINE = dict(os.environ, PIP_NO_INDEX="1", PIP_DISABLE_PIP_VERSION_CHECK="1", PIP_ROOT_USER_ACTION="ignore", PYTHONPATH="")


def tearDownModule():
    FOLDER.cleanup()


def told(*words, **how):
    """What the command prints, which has to end well."""
    done = subprocess.run(words, stdout=subprocess.PIPE, stderr=subprocess.STDOUT, timeout=SECONDS, cwd=FOLDER.name, **how)
    text = done.stdout.decode("utf-8", "replace")
    if done.returncode:
        raise AssertionError("%s ends with status %d:\n%s" % (" ".join(words), done.returncode, text))
    return text


def text_of(*path):
    with open(os.path.join(*path), encoding="utf-8") as file:
        return file.read()


def version():
    return re.search('^__version__ = "(.*)"$', text_of(PYTHON, "cspwatch_client", "__init__.py"), re.MULTILINE)[1]


def made(name):
    """A wheel, made in a new folder."""
    folder = os.path.join(FOLDER.name, name)
    os.mkdir(folder)
    return told(sys.executable, MAKE, "--output", folder, env=DATED).strip()


class Wheel(unittest.TestCase):
    def test_it_has_the_same_bytes_each_time(self):
        contents = []
        for name in ("one", "two"):
            with open(made(name), "rb") as file:
                contents.append(file.read())
        self.assertEqual(contents[0], contents[1])

    def test_it_lists_its_files(self):
        with zipfile.ZipFile(made("listed")) as wheel:
            base = "cspwatch_client-%s.dist-info/" % version()
            listed = {row[0]: row[1:] for row in csv.reader(io.StringIO(wheel.read(base + "RECORD").decode()))}
            self.assertEqual(sorted(listed), sorted(wheel.namelist()))
            self.assertEqual(listed.pop(base + "RECORD"), ["", ""])
            for name, (total, size) in listed.items():
                text = wheel.read(name)
                wanted = base64.urlsafe_b64encode(hashlib.sha256(text).digest()).rstrip(b"=").decode()
                self.assertEqual((total, size), ("sha256=" + wanted, str(len(text))))
        self.assertLessEqual({base + "LICENSE-MIT", base + "LICENSE-APACHE", "cspwatch_client/py.typed"}, set(listed))

    def test_it_has_the_whole_package(self):
        tracked = subprocess.run(["git", "ls-files", "cspwatch_client"], cwd=PYTHON, stdout=subprocess.PIPE, stderr=subprocess.DEVNULL)
        if tracked.returncode:
            self.skipTest("there is no repository")
        with zipfile.ZipFile(made("whole")) as wheel:
            found = [name for name in wheel.namelist() if name.startswith("cspwatch_client/")]
        self.assertEqual(sorted(found), sorted(tracked.stdout.decode().split()))


class Installed(unittest.TestCase):
    @classmethod
    def setUpClass(cls):
        done = subprocess.run([sys.executable, "-m", "venv", PLACE], stdout=subprocess.PIPE, stderr=subprocess.STDOUT, timeout=SECONDS)
        if done.returncode:
            raise unittest.SkipTest("no folder for an installation can be made (python3-venv)")

    def install(self, *words):
        told(os.path.join(BIN, "pip"), "install", "-q", "--no-index", *words, env=OFFLINE)
        self.addCleanup(told, os.path.join(BIN, "pip"), "uninstall", "-q", "-y", "cspwatch-client", env=OFFLINE)
        words = [os.path.join(BIN, "python"), "-c", "import cspwatch_client as c; print(c.__version__, c.AsyncClient.__name__, c.__file__)"]
        known, client, file = told(*words, env=OFFLINE).split()
        self.assertEqual((known, client), (version(), "AsyncClient"))
        if sys.version_info >= (3, 11):
            self.assertIn("--coverage", told(os.path.join(BIN, "cspwatch-logs"), "--help", env=OFFLINE))
        return file

    def test_the_wheel(self):
        file = self.install(made("installed"))
        self.assertTrue(file.startswith(PLACE))
        self.assertIn("cspwatch-client " + version(), text_of(PLACE, "share", "man", "man1", "cspwatch-logs.1"))
        told(os.path.join(BIN, "pip"), "check", env=OFFLINE)
        shown = told(os.path.join(BIN, "pip"), "show", "cspwatch-client", env=OFFLINE)
        self.assertIn("Version: %s\n" % version(), shown)
        self.assertIn("License: MIT OR Apache-2.0\n", shown)

    def test_the_folder(self):
        self.assertTrue(self.install(PYTHON).startswith(PLACE))

    def test_the_folder_as_it_changes(self):
        self.assertTrue(self.install("-e", PYTHON).startswith(PYTHON))

    def test_the_sources(self):
        words = "import cspwatch_build; print(cspwatch_build.build_sdist(%r))" % FOLDER.name
        name = told(sys.executable, "-c", words, env=dict(DATED, PYTHONPATH=os.path.join(PYTHON, "backend"))).strip()
        self.assertTrue(self.install(os.path.join(FOLDER.name, name)).startswith(PLACE))

    def test_nothing_is_left(self):
        def there():
            return {os.path.join(folder, name) for folder, _, names in os.walk(PLACE) for name in names if not name.endswith(".pyc")}

        before = there()
        self.install(made("to go"))
        self.doCleanups()
        self.assertEqual(there(), before)


if __name__ == "__main__":
    unittest.main()
