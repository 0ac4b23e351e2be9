"""The words of `cspwatch-metrics` and `cspwatch-web`, their manual pages and their completions."""
import os
import re
import shutil
import subprocess
import sys
import tempfile
import unittest

sys.path[:0] = [os.path.dirname(os.path.abspath(__file__))]

from watching_folder import PYTHON, ROOT, SECONDS, needs  # noqa: E402

COMPLETIONS = os.path.join(PYTHON, "completions")
COMMANDS = [name for name in ("cspwatch-metrics", "cspwatch-web") if os.path.exists(os.path.join(PYTHON, "bin", name))]
OTHER = {"--follow", "--format", "--explain", "--large"}
"""Options of `cspwatch` that the pages speak of."""

BASH = """
source "$0"
COMP_WORDS=("$@")
COMP_CWORD=$(($# - 1))
_${1//-/_}
printf '%s\\n' "${COMPREPLY[@]}"
"""

LINES = [(["--l"], {"--log", "--listen"}), ([""], {"j"}), (["--log", ""], {"j"}), (["--listen", ""], {"127.0.0.1:"})]


def text_of(*path):
    with open(os.path.join(*path), encoding="utf-8") as file:
        return file.read()


def options_in(text):
    return set(re.findall(r"(?<![\w-])--[a-z]+(?![\w-])", text))


@needs()
class Words(unittest.TestCase):
    def test_help_pages_and_completions(self):
        version = re.search(r'^__version__ = "(.*)"', text_of(PYTHON, "cspwatch_client", "__init__.py"), re.MULTILINE)[1]
        for command in COMMANDS:
            done = subprocess.run([sys.executable, os.path.join(PYTHON, "bin", command), "--help"], stdout=subprocess.PIPE, timeout=SECONDS, check=True)
            options = options_in(done.stdout.decode())
            self.assertEqual(options, {"--help", "--listen", "--log", "--program"})
            page = text_of(ROOT, "man", command + ".1").replace("\\-", "-").replace('"', " ")
            self.assertEqual(options_in(page) - OTHER, options, command)
            self.assertIn("cspwatch-client " + version, page)
            for name in (command + ".bash", "_" + command):
                self.assertEqual(options_in(re.sub("#.*", "", text_of(COMPLETIONS, name))), options, name)
            self.assertEqual({"--" + word for word in re.findall(r"-l ([a-z]+)", text_of(COMPLETIONS, command + ".fish"))}, options)

    @unittest.skipUnless(shutil.which("bash"), "there is no bash")
    def test_what_bash_offers(self):
        with tempfile.TemporaryDirectory() as folder:
            with open(os.path.join(folder, "j"), "w", encoding="ascii"):
                pass
            for command in COMMANDS:
                for words, wanted in LINES:
                    call = ["bash", "-c", BASH, os.path.join(COMPLETIONS, command + ".bash"), command, *words]
                    done = subprocess.run(call, cwd=folder, stdout=subprocess.PIPE, stdin=subprocess.DEVNULL, timeout=SECONDS)
                    self.assertEqual(set(done.stdout.decode().split()), wanted, (command, words))


if __name__ == "__main__":
    unittest.main()
