"""The package's own table of the library's functions, its sentences and its version, held against the header."""

import os
import re
import unittest

import okubinrafo
from okubinrafo.library import FACES

HERE = os.path.dirname(os.path.abspath(__file__))
LETTERS = {"uint8_t": "b", "uint32_t": "i", "uint64_t": "q", "double": "d"}


def text_of(*path):
    with open(os.path.join(HERE, *path), encoding="utf-8") as file:
        return file.read()


def header():
    """The header without its comments."""
    return re.sub(r"/\*.*?\*/", "", text_of("..", "include", "okubinrafo.h"), flags=re.DOTALL)


def face(arguments):
    """The letters of a declaration's arguments: a pointer and its length make one slice."""
    letters = []
    for argument in arguments.split(","):
        kind, name = re.fullmatch(r"(?:const )?(\w+) (\*?\w+)", argument.strip()).groups()
        if kind != "size_t":
            letters.append(LETTERS[kind] if name.startswith("*") else "n")
    return "".join(letters)


class Header(unittest.TestCase):
    def test_every_function_has_its_face(self):
        text = re.sub(r"\\\n", " ", header())
        macros = dict(re.findall(r"#define (OKUBINRAFO_BOOK|OKUBINRAFO_BOOK_READ|OKUBINRAFO_NETWORK)\s+(.*)", text))
        declared = {}
        for name, arguments in re.findall(r"uint32_t okubinrafo_(\w+)\(([^)]*)\);", text):
            given = arguments.split(",")
            given[0] = macros.get(given[0].strip(), given[0])
            declared[name] = face(",".join(given))
        self.assertGreaterEqual(len(declared), 16)
        self.assertEqual(declared, {name: FACES.get(name) for name in declared})

    def test_every_refusal_has_a_name_and_a_sentence(self):
        refusals = re.findall(r"^ +(OKUBINRAFO_\w+) = (\d+),?", header(), re.MULTILINE)
        self.assertEqual([int(number) for _, number in refusals], list(range(1, len(refusals) + 1)))
        self.assertGreaterEqual(len(refusals), 19)
        self.assertEqual(len({name for name, _ in refusals}), len(refusals))
        sentences = {okubinrafo.Refused(int(number)).sentence for _, number in refusals}
        self.assertEqual(len(sentences - {""}), len(refusals))

    def test_one_version(self):
        version = re.search(r'#define OKUBINRAFO_VERSION "([\d.]+)"', header())[1]
        self.assertEqual(okubinrafo.__version__, version)
        for path in (("pyproject.toml",), ("..", "bindings", "Cargo.toml")):
            self.assertIn(f'\nversion = "{version}"\n', text_of(*path))


if __name__ == "__main__":
    unittest.main()
