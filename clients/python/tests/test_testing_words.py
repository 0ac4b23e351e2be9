"""The words of `cspwatch-test`, its manual page and its completions."""
import os
import re
import shutil
import subprocess
import sys
import unittest

sys.path[:0] = [os.path.dirname(os.path.abspath(__file__))]

from testing_folder import CLIENTS, COMMAND, HERE, NEEDS, SECONDS, InFolder  # noqa: E402

COMPLETIONS = os.path.join(os.path.dirname(HERE), "completions")
PAGE = os.path.join(os.path.dirname(CLIENTS), "man", "cspwatch-test.1")

BASH = """
source "$0"
COMP_WORDS=(cspwatch-test "$@")
COMP_CWORD=$#
_cspwatch_test
printf '%s\\n' "${COMPREPLY[@]}"
"""

LINES = [
    (["--s"], {"--steps", "--seed", "--save"}),
    ([""], {"p.csp"}),
    (["--steps", "3", "--robust", ""], {"p.csp"}),
    (["p.csp", ""], set()),
    (["p.csp", "P", ""], {"a.py"}),
    (["--seed", ""], set()),
    (["--junit", ""], {"p.csp", "a.py"}),
]


def text_of(*path):
    with open(os.path.join(*path), encoding="utf-8") as file:
        return file.read()


def options_in(text):
    return set(re.findall(r"(?<![\w-])--[a-z]+(?![\w-])", text))


@NEEDS
class Words(InFolder):
    def setUp(self):
        super().setUp()
        done = subprocess.run([sys.executable, COMMAND, "--help"], stdout=subprocess.PIPE, timeout=SECONDS, check=True)
        self.options = options_in(done.stdout.decode("utf-8"))
        self.assertGreater(len(self.options), 13)

    def test_the_manual_page(self):
        page = re.sub(r"\\f.", "", text_of(PAGE)).replace("\\-", "-").replace('"', " ")
        self.assertEqual(options_in(page) - {"--explain"}, self.options)

    def test_completions(self):
        for name in ("cspwatch-test.bash", "_cspwatch-test"):
            text = re.sub("check --large", "", re.sub(r"#.*", "", text_of(COMPLETIONS, name)))
            self.assertEqual(options_in(text), self.options, name)
        self.assertEqual({"--" + word for word in re.findall(r"-l ([a-z]+)", text_of(COMPLETIONS, "cspwatch-test.fish"))}, self.options)

    @unittest.skipUnless(shutil.which("bash"), "there is no bash")
    def test_what_bash_offers(self):
        self.file("p.csp", "")
        self.file("a.py", "")
        for words, wanted in LINES:
            command = ["bash", "-c", BASH, os.path.join(COMPLETIONS, "cspwatch-test.bash"), *words]
            done = subprocess.run(command, cwd=self.folder, stdout=subprocess.PIPE, stdin=subprocess.DEVNULL, timeout=SECONDS)
            self.assertEqual(set(done.stdout.decode().split()), wanted, words)


if __name__ == "__main__":
    unittest.main()
