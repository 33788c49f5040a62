"""The package as its users see it: what it says without a library, its types, and its help."""

import inspect
import os
import pydoc
import re
import shutil
import subprocess
import sys
import tempfile
import typing
import unittest
from pathlib import Path

import telgovan
from telgovan import Desk, Error, HostedTask, Job, Machine, Program, assemble

HERE = Path(__file__).resolve().parent
PACKAGE = HERE / "telgovan"
RECORDS = [it for it in map(telgovan.__dict__.get, telgovan.__all__) if hasattr(it, "_fields")]


def public_callables():
    """Each public function, and each function of a public class that has a name without _, by name."""
    for name in telgovan.__all__:
        value = getattr(telgovan, name)
        if inspect.isfunction(value):
            yield name, value
        elif value not in RECORDS:
            yield f"{name}.__init__", value.__init__
            for own, function in inspect.getmembers(value, inspect.isfunction):
                if own[0] != "_":
                    yield f"{name}.{own}", function


class WithoutALibrary(unittest.TestCase):
    def told(self, package, **words):
        """Python's status and errors for an import of the package in this folder."""
        kept = {name: text for name, text in os.environ.items() if name != "TELGOVAN_LIB"}
        script = "import sys; sys.path.insert(0, sys.argv[1]); import telgovan"
        ran = subprocess.run(
            [sys.executable, "-c", script, str(package)],
            env={**kept, "PYTHONDONTWRITEBYTECODE": "1", **words},
            capture_output=True,
            text=True,
            check=False,
            cwd=package,
        )
        return ran.returncode, ran.stderr

    def check(self, told):
        status, text = told
        self.assertEqual(status, 1, text)
        self.assertIn("ImportError", text)
        for word in ("libtelgovan.so", "TELGOVAN_LIB", "./try kept library", "bindings/build"):
            self.assertIn(word, text)

    def test_the_folder_that_is_named_has_none(self):
        with tempfile.TemporaryDirectory() as room:
            self.check(self.told(HERE, TELGOVAN_LIB=room))

    def test_the_file_is_no_library(self):
        with tempfile.TemporaryDirectory() as room:
            Path(room, "libtelgovan.so").write_text("no library")
            self.check(self.told(HERE, TELGOVAN_LIB=room))

    def test_the_library_is_of_another_version(self):
        """One that has none of the names."""
        import _ctypes

        with tempfile.TemporaryDirectory() as room:
            other = getattr(_ctypes, "__file__", None)
            if other is None:
                self.skipTest("this Python has no shared object of its own")
            shutil.copyfile(other, Path(room, "libtelgovan.so"))
            status, text = self.told(HERE, TELGOVAN_LIB=room)
        self.assertIn("another version", text)
        self.check((status, text))

    def test_none_is_anywhere(self):
        script = 'import ctypes; ctypes.CDLL("libtelgovan.so.0")'
        words = [sys.executable, "-c", script]
        if subprocess.run(words, stderr=subprocess.DEVNULL, check=False).returncode == 0:
            self.skipTest("the system has the library installed")
        with tempfile.TemporaryDirectory() as room:
            shutil.copytree(PACKAGE, Path(room, "telgovan"))
            self.check(self.told(room))


class Types(unittest.TestCase):
    def test_each_public_function_is_typed(self):
        for name, function in public_callables():
            with self.subTest(name):
                signature = inspect.signature(function)
                own = [it for it in signature.parameters.values() if it.name != "self"]
                bare = [it.name for it in own if it.annotation is inspect.Parameter.empty]
                self.assertEqual(bare, [])
                self.assertIsNot(signature.return_annotation, inspect.Signature.empty)
                typing.get_type_hints(function)

    def test_each_field_of_a_record_is_typed(self):
        self.assertEqual(len(RECORDS), 6)
        for record in RECORDS:
            self.assertEqual(tuple(typing.get_type_hints(record)), record._fields)

    def test_it_says_that_it_is_typed(self):
        self.assertTrue((PACKAGE / "py.typed").is_file())

    def test_mypy_finds_nothing(self):
        try:
            from mypy import api
        except ImportError:
            self.skipTest("mypy isn't there: Debian's mypy has it")
        with tempfile.TemporaryDirectory() as room:
            out, errors, status = api.run(["--strict", "--cache-dir", room, str(PACKAGE)])
        self.assertEqual(status, 0, out + errors)


class Help(unittest.TestCase):
    def setUp(self):
        self.page = pydoc.plain(pydoc.render_doc(telgovan))

    def test_it_begins_with_a_tour(self):
        head, tour = self.page.split("DESCRIPTION\n")[:2]
        self.assertRegex(head, r"telgovan - \w.*\.\n")
        tour = tour.partition("\nPACKAGE CONTENTS")[0]
        for name in telgovan.__all__:
            self.assertRegex(tour, rf"\b{name}\b")

    def test_each_public_name_has_words(self):
        self.assertEqual(telgovan.__all__, sorted(telgovan.__all__))
        for name in telgovan.__all__:
            value = getattr(telgovan, name)
            with self.subTest(name):
                self.assertEqual(value.__module__, "telgovan")
                self.assertRegex(inspect.getdoc(value) or "", r"^[A-Z][^\n]{15,}")
                self.assertIn(value.__doc__.strip().splitlines()[0].strip(), self.page)
        for name, function in public_callables():
            with self.subTest(name):
                if "__init__" not in name:
                    self.assertRegex(inspect.getdoc(function) or "", r"^[A-Z][^\n]{9,}")
        for record in RECORDS:
            for field in record._fields:
                self.assertNotIn("Alias for field", getattr(record, field).__doc__)

    def test_no_line_is_too_long(self):
        for path in sorted(PACKAGE.glob("*.py")):
            lines = path.read_text(encoding="utf-8").splitlines()
            self.assertLess(len(lines), 800, path.name)
            if path.name != "_refusals.py":
                self.assertEqual([line for line in lines if len(line) > 100], [], path.name)

    def test_it_shows_no_handle(self):
        for word in ("ForwardRef", "_handle", "_HANDLE", "ctypes"):
            self.assertNotIn(word, re.sub(r"_calls|_held", "", self.page))


class Withs(unittest.TestCase):
    """`with` lets go of what is held."""

    def setUp(self):
        self.code = assemble("mov64 r0, 7\nexit")
        self.program = Program(0, self.code)

    def refused(self, number, call, *given):
        with self.assertRaises(Error) as caught:
            call(*given)
        self.assertEqual(caught.exception.code, number)

    def test_each_that_holds_something(self):
        job = Job((0, self.code))
        held = [
            (41, Program(0, self.code), lambda it: it.execute(bytearray())),
            (41, self.program.share(), lambda it: it.execute(bytearray())),
            (41, Machine(self.program.share()), lambda it: it.execute(bytearray())),
            (47, HostedTask(self.program, 0), lambda it: it.go(bytearray(), limit=0)),
            (41, job.open(b"", 9), lambda it: it.buffer()),
            (41, Desk(), lambda it: it.connect()),
        ]
        for number, it, call in held:
            with self.subTest(type(it).__name__):
                with it as same:
                    self.assertIs(same, it)
                    call(it)
                self.refused(number, call, it)
                it.close()

    def test_where_its_block_fails(self):
        with self.assertRaises(KeyError), self.program as program:
            raise KeyError
        self.refused(41, program.execute, bytearray())

    def test_a_machine_that_is_closed_closes_its_program(self):
        with Machine(self.program) as machine:
            self.assertEqual(machine.execute(bytearray()).r0, 7)
        self.refused(41, self.program.execute, bytearray())


if __name__ == "__main__":
    unittest.main()
