"""`bpfjobs check`: a result is compared with the one answer of its job. And the words on standard error of what is refused."""

import json
import os
import random
import tempfile
import unittest

from programs import TOP
from test_inputs import JOB, PROGRAM, ran

SPAWN = os.path.join(TOP, "examples/spawn.json")


class Checks(unittest.TestCase):
    """A result is changed in each of its parts, and each change is told."""

    def setUp(self):
        room = tempfile.TemporaryDirectory()
        self.addCleanup(room.cleanup)
        self.room = room.name
        self.result = json.loads(ran("run", SPAWN)[1])

    def checked(self, result, job=SPAWN):
        path = os.path.join(self.room, "result.json")
        with open(path, "w", encoding="utf-8") as file:
            file.write(result if isinstance(result, str) else json.dumps(result))
        return ran("check", job, path)

    def differs(self, result, told):
        status, printed, words = self.checked(result)
        self.assertEqual((status, words), (1, ""))
        self.assertRegex(printed, told)

    def test_the_answer(self):
        same = (0, "the result is the job's one answer\n", "")
        self.assertEqual(self.checked(self.result), same)
        for workers in ("1", "2", "4", "16"):
            printed = ran("run", "--workers", workers, SPAWN)[1]
            self.assertEqual(self.checked(printed), same)
            self.assertEqual(ran("check", SPAWN, "-", given=printed.encode()), same)
        with open(SPAWN, "rb") as file:
            path = os.path.join(self.room, "result.json")
            self.assertEqual(ran("check", "-", path, given=file.read()), same)

    def test_tasks_in_any_order_with_any_numbers(self):
        tasks = self.result["tasks"]
        self.assertGreater(len(tasks), 1)
        random.Random(7).shuffle(tasks)
        for number, task in enumerate(tasks):
            task["number"] = 1000 - number
        self.assertEqual(self.checked(self.result)[0], 0)

    def test_each_part(self):
        for part in ("spent", "returned"):
            with self.subTest(part):
                self.differs(self.result | {part: self.result[part] + 1}, rf"^the result isn't the job's one answer: {part} is ")
        buffer = bytearray.fromhex(self.result["buffer"])
        buffer[-1] ^= 1
        self.differs(self.result | {"buffer": buffer.hex()}, f": the buffer differs from byte {len(buffer) - 1} on\n$")
        self.differs(self.result | {"buffer": buffer.hex()[:-2]}, f": the buffer differs from byte {len(buffer) - 1} on\n$")
        self.differs(self.result | {"buffer": self.result["buffer"] + "00"}, f": the buffer differs from byte {len(buffer)} on\n$")

    def test_each_part_of_a_task(self):
        for place, task in enumerate(self.result["tasks"]):
            for part in ("program", "r0", "spent", "rest"):
                with self.subTest(place=place, part=part):
                    tasks = [dict(other) for other in self.result["tasks"]]
                    tasks[place][part] = (task[part] + 1) % 65536
                    self.differs(self.result | {"tasks": tasks}, r": (the answer has no such task|a task of the answer is missing): program \d")

    def test_tasks_that_are_missing_or_more(self):
        tasks = self.result["tasks"]
        self.differs(self.result | {"tasks": tasks[1:]}, ": a task of the answer is missing: .*\nits spawn was refused")
        self.differs(self.result | {"tasks": tasks + tasks[:1]}, ": the answer has no such task: ")
        self.differs(self.result | {"tasks": [tasks[0]] * len(tasks)}, "(no such task|is missing)")

    def test_a_task_that_did_not_run(self):
        self.result["tasks"][1]["ran"] = False
        number = self.result["tasks"][1]["number"]
        self.differs(self.result, f": task {number} didn't run: there was no memory for it\n$")

    def test_another_job(self):
        other = json.loads(ran("run", given=json.dumps(JOB).encode())[1])
        self.assertEqual(self.checked(other)[0], 1)

    def test_no_result(self):
        for text, code in [("", 72), ("{", 72), ("[]", 73), ("{}", 73), ('{"code":81,"ok":false}', 73)]:
            with self.subTest(text):
                status, printed, words = self.checked(text)
                self.assertEqual((status, printed), (1, "the second file says no result of a job\n"))
                self.assertTrue(words.startswith(f"error[{code}]: "), words)
        for part in self.result:
            with self.subTest(part):
                less = {name: value for name, value in self.result.items() if name != part}
                self.assertEqual(self.checked(less)[0], 1)
        self.assertEqual(self.checked(self.result | {"ok": False})[0], 1)

    def test_no_job(self):
        path = os.path.join(self.room, "job.json")
        for job, words in [("{", "line 1"), (json.dumps(JOB | {"credit": "2"}), "credit: "), (json.dumps(JOB | {"credit": 0}), "error[")]:
            with self.subTest(job), open(path, "w", encoding="utf-8") as file:
                file.write(job)
                file.flush()
                status, printed, told = self.checked(self.result, path)
                self.assertEqual((status, printed), (1, "the first file says no job that is admitted\n"))
                self.assertIn(words, told)

    def test_no_file(self):
        none = os.path.join(self.room, "none")
        self.assertEqual(ran("check", none, SPAWN)[:2], (3, ""))
        self.assertEqual(ran("check", SPAWN, none)[:2], (3, ""))
        self.assertEqual(ran("check", "-", "-")[0], 2)
        self.assertEqual(ran("check", SPAWN)[0], 2)


class RefusedPrograms(unittest.TestCase):
    """The number is on standard output; its text and what to do are on standard error."""

    def test_words(self):
        load = b"7111000000000000" + b"bf10000000000000" + b"9500000000000000"
        for words, given, code in [
            (["assemble"], b"mov r0, 1\nexit\n", 11),
            (["assemble"], b"\xff", 73),
            (["disassemble"], b"b7", 2),
            (["disassemble"], b"xy", 73),
            (["verify", "--need", "0"], load, 33),
            (["verify", "--need", "0"], b"", 1),
        ]:
            with self.subTest(words=words, given=given):
                status, printed, told = ran(*words, given=given)
                self.assertEqual(status, 1)
                self.assertRegex(printed, rf"^refused {code}( at \d+)?\n$")
                self.assertRegex(told, rf"^error\[{code}\]: .+\n --> standard input\n  = help: .+\n$")

    def test_a_job(self):
        given = json.dumps(JOB | {"programs": [PROGRAM | {"code": "9500000000000000"}]}).encode()
        for command in ("run", "play"):
            with self.subTest(command):
                status, printed, told = ran(command, given=given)
                self.assertEqual(status, 1)
                code = json.loads(printed)["code"]
                self.assertTrue(told.startswith(f"error[{code}]: "), told)


if __name__ == "__main__":
    unittest.main()
