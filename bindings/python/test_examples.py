"""The pages' examples in Python: each block runs."""

import contextlib
import io
import os
import re
import unittest

import telgovan

try:
    import numpy
except ImportError:
    numpy = None

TOP = os.path.join(os.path.dirname(os.path.abspath(__file__)), "../..")
PAGES = ("README.md", "docs/embedding.md", "bindings/python/README.md")
BLOCK = re.compile(r"^```python\n(.*?)^```$", re.MULTILINE | re.DOTALL)

ASKS = "mov64 r1, 7\ncall 64\nmov64 r1, r0\ncall 65\nexit"


def blocks():
    for page in PAGES:
        with open(os.path.join(TOP, page), encoding="utf-8") as file:
            for number, block in enumerate(BLOCK.findall(file.read()), 1):
                yield f"{page}, block {number}", block


def names(block):
    """The names that a block counts on."""
    if "HostedTask" in block:
        program = telgovan.Program(0, telgovan.assemble(ASKS), {64: 1, 65: 1})
    else:
        program = telgovan.Program(40, telgovan.assemble("mov64 r0, r2\nexit"))
    return {
        **vars(telgovan),
        "numpy": numpy,
        "program": program,
        "source": "ldxb r0, [r1+12]\nexit",
        "code": telgovan.assemble("ldxb r0, [r1+40]\nexit"),
        "packet": bytearray(64),
        "memory": bytearray(8),
        "helpers": {64: lambda key, *_: 10 * key},
        "look_up": lambda key, *_: key + 1,
        "later": [],
    }


class Blocks(unittest.TestCase):
    def test_each_runs(self):
        ran = 0
        for name, block in blocks():
            with self.subTest(name):
                if "numpy" in block and numpy is None:
                    self.skipTest("numpy isn't there: Debian's python3-numpy has it")
                given, out = names(block), io.StringIO()
                with contextlib.redirect_stdout(out):
                    exec(compile(block, name, "exec"), given)
                if "print(" in block and "later" not in block:
                    self.assertNotEqual(out.getvalue(), "")
                if "look_up" in block:
                    self.assertEqual(given["done"].r0, 71)
                if "later" in block:
                    self.assertEqual(given["later"][0].question.helper, 65)
            ran += 1
        self.assertGreaterEqual(ran, 7)


if __name__ == "__main__":
    unittest.main()
