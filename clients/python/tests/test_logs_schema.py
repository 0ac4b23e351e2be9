"""The JSON Schema of maps, for editors, against what the command reads. Run by `python3 -m unittest discover -s clients/python/tests`."""
import glob
import importlib
import importlib.util
import json
import os
import sys
import unittest

sys.path[:0] = [os.path.dirname(os.path.abspath(__file__))]

from logs_folder import CLIENTS, NEEDS  # noqa: E402
from test_logs_maps import FAULTS  # noqa: E402

if sys.version_info >= (3, 11):
    import tomllib

    from cspwatch_client.logs.maps import KEYS

SCHEMA = os.path.join(CLIENTS, "python", "map.schema.json")
MAPS = sorted(glob.glob(os.path.join(os.path.dirname(CLIENTS), "examples", "real", "*", "*.toml")))

OF_MEANING = ("a.{x}", "{a", "(a", "of = '{c}'", "free = 'gone'", "[names.c]\na = 1", "P<b>", "{z}", "'{id}'", "key = 'x'", "places.p", "synced")
"""Parts of maps whose fault is what the texts mean, which no schema says."""


def schema():
    with open(SCHEMA, encoding="utf-8") as file:
        return json.load(file)


def keys_of(part):
    """The keys of a table, of each of an array's tables, or of each named one."""
    inner = part.get("items") or part.get("additionalProperties") or part
    return tuple(inner.get("properties", ()))


@NEEDS
class Keys(unittest.TestCase):
    def test_tables_and_keys_are_those_of_the_command(self):
        tables = schema()["properties"]
        self.assertEqual({name: sorted(keys_of(part)) for name, part in tables.items()}, {name: sorted(keys) for name, keys in KEYS.items()})


@NEEDS
@unittest.skipUnless(importlib.util.find_spec("jsonschema"), "there is no package jsonschema")
class Checked(unittest.TestCase):
    def is_valid(self, table):
        jsonschema = importlib.import_module("jsonschema")
        try:
            jsonschema.validate(table, schema())
        except jsonschema.ValidationError:
            return False
        return True

    def test_the_maps_of_the_examples(self):
        for path in MAPS:
            with open(path, "rb") as file, self.subTest(path):
                self.assertTrue(self.is_valid(tomllib.load(file)))

    def test_faults_of_form(self):
        for text, _, key, _ in FAULTS:
            if key and not any(part in text for part in OF_MEANING):
                with self.subTest(text=text):
                    self.assertFalse(self.is_valid(tomllib.loads(text)))


if __name__ == "__main__":
    unittest.main()
