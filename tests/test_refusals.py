"""One table has the refusals: docs/refusals.toml, from which docs/refusals.py writes where they are told."""

import collections
import ctypes
import os
import re
import sys
import unittest

TOP = os.path.dirname(os.path.dirname(os.path.abspath(__file__)))
sys.path.insert(0, os.path.join(TOP, "docs"))
import refusals  # noqa: E402  (the script stands in the folder that was just added)

LIBRARY = os.path.join(os.environ.get("TELGOVAN_LIB", os.path.join(TOP, "bindings/out")), "libtelgovan.so")

# `#[error("33: access out of the part at slot {0}")]`, and the variant below it
VARIANT = re.compile(r'#\[error\("(\d+): [^\n]*\)\]\n\s+(?:///[^\n]*\n\s+)*(\w+)')
# what a function `code` answers, but for 0
CODE = re.compile(r"^    pub(?:\(crate\))? (?:const )?fn code\(.*?^    }$", re.MULTILINE | re.DOTALL)
ARM = re.compile(r"=> ([1-9]\d*),")
# `const NO_PROGRAM: u32 = 41;`: a status of the library for C, or a code of a server's reply
NAMED = re.compile(r"^const (?:NO|NOT|OVER|TOO|MAY|STILL|CREDIT|MEMORY|TRAPS)(?:_\w+)?: u(?:8|32) = (\d{1,2});", re.MULTILINE)


def sources():
    """The text of each file of each crate, by its path."""
    for at, _, names in os.walk(os.path.join(TOP, "crates")):
        for name in names:
            path = os.path.join(at, name)
            if name.endswith(".rt") and f"{os.sep}src{os.sep}" in path:
                with open(path, encoding="utf-8") as file:
                    yield os.path.relpath(path, TOP), file.read()


def answered():
    """The numbers that the crates answer, each with the files that name it."""
    found = collections.defaultdict(set)
    for path, text in sources():
        numbers = [number for number, _ in VARIANT.findall(text)] + NAMED.findall(text)
        for body in CODE.findall(text):
            numbers += ARM.findall(body)
        for number in numbers:
            found[int(number)].add(path)
    return found


def variants():
    """The variants of the crates' faults, by the number that their text begins with."""
    found = collections.defaultdict(set)
    for _, text in sources():
        for number, variant in VARIANT.findall(text):
            found[int(number)].add(variant)
    return found


class Table(unittest.TestCase):
    def setUp(self):
        self.table = refusals.refusals()

    def test_what_is_made_of_it(self):
        for path, text in refusals.made().items():
            with self.subTest(path):
                with open(os.path.join(TOP, path), encoding="utf-8") as file:
                    self.assertEqual(file.read(), text)

    def test_each_number_that_a_crate_answers(self):
        found = answered()
        self.assertGreater(len(found), 50)
        for number, paths in sorted(found.items()):
            with self.subTest(number=number, files=sorted(paths)):
                self.assertIn(number, set(self.table))

    def test_each_number_of_the_table(self):
        """A crate answers it."""
        self.assertEqual(set(self.table) - set(answered()), set())

    def test_each_name(self):
        """It is that of a variant, where a fault has the number."""
        for number, names in sorted(variants().items()):
            with self.subTest(number=number):
                self.assertIn(self.table[number]["name"].partition("(")[0], names)

    def test_texts(self):
        for number, one in self.table.items():
            with self.subTest(number=number):
                self.assertLessEqual(len(one["text"]), 70)
                for text in (one["text"], one["help"]):
                    self.assertTrue(text.isascii() and text.isprintable())
                    self.assertTrue(text[0].islower())
                    self.assertFalse(text.endswith("."))

    def test_what_c_is_told(self):
        """Of each number, and of those that no refusal has."""
        library = ctypes.CDLL(LIBRARY)
        for number in (*range(300), 2**16 + 33, 2**32 - 1):
            one = self.table.get(number)
            words = one["text"] if one else "unknown" if number else "done"
            with self.subTest(number=number):
                self.assertEqual(self.written(library.telgovan_status_words, number), (0, words))
                self.assertEqual(self.written(library.telgovan_status_help, number), (0, one["help"] if one else ""))

    def written(self, call, number):
        """The status of a call that writes a text, and that text; it fits a room of its length alone."""
        told, room = (ctypes.c_uint64 * 3)(), ctypes.create_string_buffer(b"*" * 200)
        number = ctypes.c_uint32(number)
        status = call(number, room, ctypes.c_size_t(200), told)
        length = told[0]
        self.assertEqual(room.raw[length:200], b"*" * (200 - length))
        if length:
            self.assertEqual(call(number, room, ctypes.c_size_t(length - 1), told), 65)
        return status, room.raw[:length].decode()

    def test_rows_of_the_page(self):
        for one in refusals.table()["table"]:
            for row in one["rows"]:
                with self.subTest(table=one["name"], row=row):
                    self.assertEqual(len(row), len(one["head"]))
                    self.assertTrue(isinstance(row[0], str) or row[0] in self.table)


if __name__ == "__main__":
    unittest.main()
