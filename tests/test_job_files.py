"""The command `job`: the job object of source files, which other commands read, and its refusals."""

import json
import os
import re
import tempfile
import unittest

from programs import TOP
from test_inputs import ran

SPAWN = os.path.join(TOP, "examples/spawn.bpf")
CHILD = os.path.join(TOP, "examples/child.bpf")
OBJECT = os.path.join(TOP, "examples/spawn.json")


def job(*words, credit="34", buffer="00*8", sources=(f"{SPAWN}:4", f"{CHILD}:4")):
    """What `bpfjobs job` answers."""
    return ran("job", "--credit", credit, "--buffer", buffer, *words, *sources)


class Jobs(unittest.TestCase):
    def test_the_example(self):
        with open(OBJECT, encoding="utf-8") as file:
            wanted = json.load(file)
        schedule = ",".join(str(number) for number in wanted["schedule"])
        status, printed, told = job("--schedule", schedule)
        self.assertEqual((status, told), (0, ""))
        self.assertEqual(printed, json.dumps(wanted, sort_keys=True, separators=(",", ":")) + "\n")

    def test_what_reads_it(self):
        schedule = "0,0,0,0,0,0,0,0,0,1,1,1"
        status, printed, told = job("--schedule", schedule)
        self.assertEqual((status, told), (0, ""))
        for words in (["run"], ["play"]):
            with self.subTest(words):
                self.assertEqual(ran(*words, given=printed.encode()), ran(*words, OBJECT))

    def test_buffers(self):
        for word, wanted in [("", ""), ("0aFF", "0aff"), ("0aFF*1", "0aff"), ("0aff*3", "0aff" * 3), ("00*65536", "00" * 65536)]:
            with self.subTest(word):
                status, printed, told = job(buffer=word)
                self.assertEqual((status, told), (0, ""))
                self.assertEqual(json.loads(printed)["buffer"], wanted)

    def test_no_schedule(self):
        self.assertEqual(json.loads(job()[1])["schedule"], [])

    def test_colons_in_a_path(self):
        with tempfile.TemporaryDirectory() as room:
            path = os.path.join(room, "a:1")
            with open(path, "w", encoding="utf-8") as file:
                file.write("mov64 r0, 42\nexit\n")
            status, printed, told = job(sources=[f"{path}:7"])
            self.assertEqual((status, told), (0, ""))
            self.assertEqual(json.loads(printed)["programs"], [{"code": "b70000002a0000009500000000000000", "need": 7}])


class Refusals(unittest.TestCase):
    def test_words(self):
        for words, named in [
            ({"sources": [f"{SPAWN}:4", CHILD]}, CHILD),
            ({"sources": [f"{SPAWN}:4294967296"]}, f"{SPAWN}:4294967296"),
            ({"buffer": "0"}, "--buffer"),
            ({"buffer": "00*0"}, "--buffer"),
            ({"buffer": "00*65537"}, "--buffer"),
            ({"buffer": "0000*65536"}, "--buffer"),
        ]:
            with self.subTest(words):
                status, printed, told = job(**words)
                self.assertEqual((status, printed), (2, ""))
                self.assertTrue(told.startswith("error: job takes ") and named in told and told.count("\n") == 1, told)
        status, printed, told = job("--schedule", "0,")
        self.assertEqual((status, printed), (2, ""))
        self.assertTrue(told.startswith("error: job takes --schedule "), told)

    def test_sources(self):
        with tempfile.TemporaryDirectory() as room:
            path = os.path.join(room, "wrong.bpf")
            for source, code, line in [(b"mov64 r0, 42\nleap\n", 11, ":2"), (b"; nothing\n", 1, ""), (b"\xff\n", 73, "")]:
                with self.subTest(source):
                    with open(path, "wb") as file:
                        file.write(source)
                    status, printed, told = job(sources=[f"{SPAWN}:4", f"{path}:0"])
                    self.assertEqual((status, printed), (1, ""))
                    self.assertRegex(told, rf"^error\[{code}\]: .+\n --> {re.escape(path)}{line}\n  = help: .+\n$")
            missing = os.path.join(room, "none.bpf")
            status, printed, told = job(sources=[f"{missing}:0"])
            self.assertEqual((status, printed), (3, ""))
            self.assertTrue(told.startswith(f"bpfjobs: {missing}: "), told)


if __name__ == "__main__":
    unittest.main()
