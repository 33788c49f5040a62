"""Commands that read a file, and the words on standard error for input that is no job."""

import json
import os
import subprocess
import tempfile
import unittest

from patience import PATIENCE
from programs import BPFJOBS, TOP

SPAWN = os.path.join(TOP, "examples/spawn.json")
PROGRAM = {"need": 0, "code": "b70000002a0000009500000000000000"}
JOB = {"programs": [PROGRAM], "credit": 2, "buffer": "", "schedule": [0, 0]}


def ran(*words, given=b""):
    """The status of `bpfjobs`, what it prints, and its words on standard error."""
    done = subprocess.run([BPFJOBS, *words], input=given, capture_output=True, timeout=PATIENCE, check=False)
    return done.returncode, done.stdout.decode(), done.stderr.decode()


class Files(unittest.TestCase):
    """A file is read as the standard input is."""

    def setUp(self):
        room = tempfile.TemporaryDirectory()
        self.addCleanup(room.cleanup)
        self.room = room.name

    def file(self, name, content):
        path = os.path.join(self.room, name)
        with open(path, "wb") as out:
            out.write(content)
        return path

    def test_each_command(self):
        source = b"mov64 r0, 42\nexit\n"
        code = b"b70000002a0000009500000000000000\n"
        with open(SPAWN, "rb") as file:
            spawn = file.read()
        for words, content in [
            (["assemble"], source),
            (["disassemble"], code),
            (["verify", "--need", "0"], code),
            (["play"], spawn),
            (["run"], spawn),
            (["run", "--workers", "4"], spawn),
        ]:
            with self.subTest(words):
                path = self.file("input", content)
                wanted = ran(*words, given=content)
                self.assertEqual(wanted[0], 0)
                self.assertEqual(ran(*words, path, given=b"not read"), wanted)
                self.assertEqual(ran(*words, "-", given=content), wanted)

    def test_what_is_shown_beside(self):
        with open(SPAWN, "rb") as file:
            spawn = file.read()
        self.assertEqual(ran("play", "--trace", SPAWN), ran("play", "--trace", given=spawn))
        tree = os.path.join(self.room, "tree")
        self.assertEqual(ran("run", "--tree", tree, SPAWN)[0], 0)
        with open(tree, "rb") as file:
            self.assertTrue(file.read().startswith(b"digraph job {"))

    def test_no_file(self):
        for words in (["assemble"], ["play"], ["run"], ["play", "--trace"], ["run", "--tree", os.devnull]):
            with self.subTest(words):
                status, printed, told = ran(*words, os.path.join(self.room, "none"))
                self.assertEqual((status, printed), (3, ""))
                self.assertRegex(told, r"^bpfjobs: .*/none: .*\n$")
                status, printed, told = ran(*words, self.room)
                self.assertEqual((status, printed), (3, ""))
                self.assertTrue(told.startswith(f"bpfjobs: {self.room}: "), told)

    def test_two_files(self):
        self.assertEqual(ran("run", SPAWN, SPAWN)[0], 2)


class Words(unittest.TestCase):
    """Standard output has the reply alone, to the byte."""

    def check(self, command, text, code, told):
        given = text if isinstance(text, bytes) else json.dumps(text).encode()
        reply = f'{{"code":{code},"ok":false}}\n'
        self.assertEqual(ran(command, given=given), (1, reply, f"bpfjobs: {told}\n"))

    def test_no_json(self):
        self.check("run", b"", 72, "line 1, column 0: this is no JSON")
        self.check("run", b'{\n  "credit": 3,\n}', 72, "line 3, column 1: this is no JSON")
        self.check("play", b'{"credit": 3', 72, "line 1, column 12: this is no JSON")

    def test_parts(self):
        number = "a whole number from 0 to 4294967295 is wanted"
        digits = "a text of pairs of hexadecimal digits is wanted"
        for change, told in [
            ({"credit": "3"}, f"credit: {number}"),
            ({"credit": 1.5}, f"credit: {number}"),
            ({"credit": 1 << 32}, f"credit: {number}"),
            ({"buffer": "0"}, f"buffer: {digits}"),
            ({"buffer": 0}, f"buffer: {digits}"),
            ({"programs": {}}, "programs: a list of programs is wanted"),
            ({"programs": [PROGRAM, {"code": ""}]}, f"programs[1].need: {number}"),
            ({"programs": [{"need": 0, "code": "xy"}]}, f"programs[0].code: {digits}"),
        ]:
            with self.subTest(change):
                self.check("run", JOB | change, 73, told)
                self.check("play", JOB | change, 73, told)
        for part in ("credit", "buffer", "programs"):
            with self.subTest(part):
                job = {name: value for name, value in JOB.items() if name != part}
                status, _, told = ran("run", given=json.dumps(job).encode())
                self.assertEqual(status, 1)
                self.assertTrue(told.startswith(f"bpfjobs: {part}: "), told)
        self.check("run", [JOB], 73, "the text: a JSON object is wanted")

    def test_schedule(self):
        self.check("play", JOB | {"schedule": 0}, 73, "schedule: a list of task numbers is wanted")
        self.check("play", JOB | {"schedule": [0, -1]}, 73, "schedule[1]: a whole number from 0 to 4294967295 is wanted")
        self.assertEqual(ran("run", given=json.dumps(JOB | {"schedule": 0}).encode())[0], 0)

    def test_a_file_is_named(self):
        with tempfile.NamedTemporaryFile() as file:
            self.assertEqual(ran("run", file.name)[2], f"bpfjobs: {file.name}: line 1, column 0: this is no JSON\n")

    def test_nothing_beside_an_answer(self):
        self.assertEqual(ran("run", SPAWN)[2], "")


if __name__ == "__main__":
    unittest.main()
