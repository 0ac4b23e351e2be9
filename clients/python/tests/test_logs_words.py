"""The words of `cspwatch-logs`, its manual page and its completions. Run by `python3 -m unittest discover -s clients/python/tests`."""
import os
import re
import shutil
import subprocess
import sys
import tempfile
import unittest

sys.path[:0] = [os.path.dirname(os.path.abspath(__file__))]

from logs_folder import CLIENTS, HERE, NEEDS  # noqa: E402
from stand_in import SECONDS  # noqa: E402

PYTHON = os.path.dirname(HERE)
COMMAND = os.path.join(PYTHON, "bin", "cspwatch-logs")
COMPLETIONS = os.path.join(PYTHON, "completions")
PAGE = os.path.join(os.path.dirname(CLIENTS), "man", "cspwatch-logs.1")

BASH = """
source "$0"
COMP_WORDS=(cspwatch-logs "$@")
COMP_CWORD=$#
_cspwatch_logs
printf '%s\\n' "${COMPREPLY[@]}"
"""

LINES = [
    (["--s"], {"--server", "--seat", "--state", "--strict", "--stream"}),
    ([""], {"m.toml"}),
    (["m.toml", ""], {"m.toml", "a.log"}),
    (["--server", "127.0.0.1", ":", "4050", "--seat", "3", "m.toml", "a"], {"a.log"}),
    (["--junit", ""], {"m.toml", "a.log"}),
    (["--stream", "redis", ":", "//127.0.0.1", ":", "6379/log", "--partition", "1/4", ""], {"m.toml"}),
]


def text_of(*path):
    with open(os.path.join(*path), encoding="utf-8") as file:
        return file.read()


def has_word(text, word):
    return re.search(r"(?<![\w-])%s(?![\w-])" % re.escape(word), text) is not None


@NEEDS
class Words(unittest.TestCase):
    def setUp(self):
        done = subprocess.run([sys.executable, COMMAND, "--help"], stdout=subprocess.PIPE, timeout=SECONDS, check=True)
        self.options = set(re.findall(r"(?<![\w-])--[a-z][a-z-]*", done.stdout.decode("utf-8")))
        self.assertGreater(len(self.options), 9)

    def test_the_manual_page(self):
        text = re.sub(r"\\f.", "", text_of(PAGE)).replace("\\-", "-").replace('"', " ")
        self.assertEqual([option for option in sorted(self.options) if not has_word(text, option)], [])
        other = {"--connections", "--explain", "--large", "--rejected"}
        self.assertEqual(set(re.findall(r"(?<![\w-])--[a-z][a-z-]*", text)) - other, self.options)
        version = re.search(r'^__version__ = "(.*)"', text_of(PYTHON, "cspwatch_client", "__init__.py"), re.MULTILINE)[1]
        self.assertIn("cspwatch-client " + version, text)

    def test_completions(self):
        for name in ("cspwatch-logs.bash", "_cspwatch-logs"):
            self.assertEqual(set(re.findall(r"(?<![\w-])--[a-z][a-z-]*", re.sub(r"#.*", "", text_of(COMPLETIONS, name)))), self.options)
        self.assertEqual({"--" + word for word in re.findall(r"-l ([a-z][a-z-]*)", text_of(COMPLETIONS, "cspwatch-logs.fish"))}, self.options)

    @unittest.skipUnless(shutil.which("bash"), "there is no bash")
    def test_what_bash_offers(self):
        with tempfile.TemporaryDirectory() as folder:
            for name in ("m.toml", "a.log"):
                with open(os.path.join(folder, name), "w", encoding="ascii"):
                    pass
            for words, wanted in LINES:
                command = ["bash", "-c", BASH, os.path.join(COMPLETIONS, "cspwatch-logs.bash"), *words]
                done = subprocess.run(command, cwd=folder, stdout=subprocess.PIPE, stdin=subprocess.DEVNULL, timeout=SECONDS)
                self.assertEqual(set(done.stdout.decode().split()), wanted, words)


if __name__ == "__main__":
    unittest.main()
