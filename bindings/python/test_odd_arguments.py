"""Arguments of wrong kinds and values: none ends the process, and each is refused by one rule.

Run by `python3 -m unittest`, in this folder.
"""

import array
import collections
import ctypes
import itertools
import json
import os
import random
import re
import subprocess
import sys
import tempfile
import threading
import time
import unittest
from concurrent.futures import ThreadPoolExecutor

import telgovan
from odd_arguments import ADD, ARITIES, ASK, CHILD, ROOT, Changing, Index, Lying, Objects, framed
from telgovan import Desk, Error, HostedTask, Job, Machine, Program, Report, Task, World, assemble

HERE = os.path.dirname(os.path.abspath(__file__))
HANG = 600  # seconds, which only a process that hangs takes
NAMES = ["Program.execute", "Program.share", "HostedTask", "Job.play", "World.run", "Desk.replies"]


def kinds_told():
    """The kinds of exception that the module's page names, and that of the caller's own objects."""
    with open(os.path.join(HERE, "README.md"), encoding="utf-8") as file:
        table = file.read().partition("| Exception |")[2].partition("\n\n")[0]
    return {*re.findall(r"^\| `(\w+)` \|", table, re.MULTILINE), "Own"}


def public_names():
    """The functions of the module, its classes that are made, and what these can do."""
    names = set()
    for name in telgovan.__all__:
        value = getattr(telgovan, name)
        if not (isinstance(value, type) and issubclass(value, (tuple, Exception))):
            names.add(name)
        if name in names and isinstance(value, type):
            names |= {f"{name}.{own}" for own in dir(value) if own[0] != "_"}
    return names - {"Program.need", "Program.code", "Program.cost", "HostedTask.question"}


class Fuzz(unittest.TestCase):
    SEEDS, CALLS = range(1, 6), 4000

    def told_of(self, seed):
        """The ends of the calls of a process of its own."""
        script = os.path.join(HERE, "odd_arguments.py")
        with tempfile.TemporaryDirectory() as room:
            note = os.path.join(room, "note")
            words = [sys.executable, script, str(seed), str(self.CALLS), note]
            done = subprocess.run(words, capture_output=True, text=True, timeout=HANG, check=False)
            with open(note, encoding="utf-8") as file:
                self.assertEqual(done.returncode, 0, f"{file.read().strip()}\n{done.stderr}")
        return json.loads(done.stdout)

    def test_no_call_ends_the_process(self):
        came, unnamed = collections.defaultdict(collections.Counter), {}
        kinds = kinds_told() | {"answered"}
        with ThreadPoolExecutor(len(self.SEEDS)) as pool:
            for told in pool.map(self.told_of, self.SEEDS):
                for name, counts in told["came"].items():
                    came[name].update(counts)
                firsts = told["firsts"].items()
                unnamed.update((kind, call) for kind, call in firsts if kind not in kinds)
        self.assertEqual(unnamed, {})
        self.assertEqual(sum(sum(counts.values()) for counts in came.values()), 20000)
        self.assertEqual({name for name in came if "__init__" not in name}, public_names())
        takes = {name for name, (_, *given) in Objects(0).calls().items() if given}
        for name, counts in came.items():
            with self.subTest(call=name):
                self.assertGreater(counts["answered"], 0)
                self.assertEqual("TypeError" in counts, name in takes)


class Lent(unittest.TestCase):
    def test_memory_is_not_resized_while_a_call_runs(self):
        """The call runs without the interpreter's lock, so another thread tries meanwhile."""
        code = assemble("mov64 r0, 0\n" + "stxb [r1+9], r0\n" * 4000 + "exit")
        program, memory, over = Program(10, code), bytearray(10), threading.Event()
        refusals, until = 0, time.monotonic() + HANG

        def run():
            while not over.is_set():
                program.burst(memory, [(0, 10, 0)] * 9)

        thread = threading.Thread(target=run)
        thread.start()
        while refusals == 0 and time.monotonic() < until:
            try:
                memory.append(1)
                memory.pop()
            except BufferError:
                refusals += 1
        over.set()
        thread.join()
        self.assertEqual(refusals, 1)
        memory[:] = bytes(20)  # nothing is lent any more

    def test_threads_use_and_close_the_same_objects(self):
        """Each call comes to an answer or to a refusal of what is closed, also in the midst."""
        objects = Objects(3)

        def use(seed):
            chance, told = random.Random(seed), collections.Counter()
            for _ in range(400):
                name = chance.choice(NAMES)
                call, *given = objects.calls()[name]
                try:
                    call(*given)
                    told[name] += 1
                except Error as error:
                    told[error.number] += 1
                if chance.random() < 0.02:
                    objects.close_one()
                    objects.renew()
            return told

        with ThreadPoolExecutor(4) as pool:
            told = sum(pool.map(use, range(4)), collections.Counter())
        self.assertEqual(sum(told.values()), 1600)
        self.assertEqual(told.keys() - {*NAMES, 41, 78}, set())
        self.assertGreater(min(told[name] for name in NAMES), 0)


class Rules(unittest.TestCase):
    def setUp(self):
        self.objects = Objects(0)
        self.job, self.desk = self.objects.job, self.objects.desk
        self.program, self.client = self.objects.program, self.objects.client

    def refused(self, kind, words, call, *given):
        with self.assertRaises(kind) as caught:
            call(*given)
        self.assertRegex(str(caught.exception), words)

    def test_a_number_of_a_wrong_kind(self):
        for odd in (1.0, "1", None, b"1", [1], 1j):
            self.refused(TypeError, "^credit: ", self.job.play, bytearray(8), odd)
            self.refused(TypeError, "^most: ", self.desk.replies, self.client, odd)
            self.refused(TypeError, "^argument: ", self.program.execute, bytearray(1), odd)

    def test_a_number_out_of_range(self):
        for odd in (-1, -(2**63), -(2**64), 2**64, 2**200, Lying(-1), Lying(2**64), Index(-1)):
            self.refused(ValueError, "^room is out", self.job.play, bytearray(8), 40, odd)
            self.refused(ValueError, "^most is out", self.desk.replies, self.client, odd)
            self.refused(ValueError, "^connection is out", self.desk.replies, odd)
            self.refused(ValueError, "^length is out", HostedTask, self.objects.asking, odd)

    def test_a_number_of_a_class_of_the_callers(self):
        self.assertEqual(self.program.execute(bytearray([40]), Index(2), Index(99)).used, 4)
        # its value counts, and not what its methods say
        memory = bytearray([40])
        self.program.execute(memory, Lying(2))
        self.assertEqual(memory[0], 42)

    def test_a_room_of_any_size_takes_what_is_there(self):
        tasks = self.job.play(bytearray(8), 40).tasks
        waiting = self.desk.replies(self.client)
        for size in (2**16 + 1, 2**40, 2**62, 2**64 - 1):
            buffer = bytearray(8)
            self.assertEqual(self.job.play(buffer, 40, size).tasks, tasks)
            self.assertEqual(buffer[5], 7)
            self.objects.renew()
            self.assertEqual(self.objects.desk.replies(self.objects.client, size), waiting)
        self.assertEqual([task.program for task in tasks], [0, 1])

    def test_a_sequence_is_looked_at_once(self):
        steps = self.job.trace(bytes(8), 40, [0] * 31)
        changing = Changing([0])
        next(changing.looks)  # what follows is the look at 62 % 40 items
        self.assertEqual(len(self.job.trace(bytes(8), 40, changing)), len(steps[:22]))
        runs = self.program.burst(bytearray(2), Changing([(0, 1, 0)]))
        self.assertEqual([run.used for run in runs], [4] * 31)

    def test_tasks_are_looked_at_once(self):
        job = self.desk.next_job()
        report, buffer = telgovan.play_text(job.text)
        self.desk.finish(job.number, report._replace(tasks=Changing(report.tasks)), buffer)
        self.desk.replies(self.client)
        self.desk.feed(self.client, framed(b'{"op":"result","job":1}'))
        self.assertEqual(len(json.loads(self.desk.replies(self.client)[4:])["tasks"]), 31)

    def test_a_sequence_without_an_end(self):
        for endless in (itertools.repeat(0), range(2**40)):
            self.refused(ValueError, "^schedule: over", self.job.trace, bytes(8), 40, endless)
        self.refused(ValueError, "^a piece: over 3", self.program.burst, bytearray(1), [range(4)])
        self.refused(ValueError, "^a program: over 2", Job, itertools.repeat(0))
        self.refused(ValueError, "expected 3", self.program.burst, bytearray(1), [(0, 1)])

    def test_bytes_of_a_wrong_kind(self):
        for odd in (5, [1, 2], "text", None, 2**62):
            self.refused(TypeError, "^code: ", Program, 0, odd)
            self.refused(TypeError, "^piece: ", self.desk.feed, self.client, odd)
            self.refused(TypeError, "^memory: ", self.program.execute, odd)
            self.refused(TypeError, "^buffer: ", World, self.job, odd, 40)
        self.refused(TypeError, "^source: ", assemble, b"exit")

    def test_memory_that_cannot_be_lent(self):
        self.refused(TypeError, "read-only", self.program.execute, b"1")
        self.refused(TypeError, "gaps", self.program.execute, memoryview(bytearray(8))[::2])
        self.refused(TypeError, "no plain numbers", self.program.execute, (ctypes.py_object * 2)())
        self.refused(TypeError, "no plain numbers", self.program.execute, (ctypes.c_void_p * 2)())
        numbers = (ctypes.create_string_buffer(b"("), array.array("H", [40]), (ctypes.c_int * 2)(40))
        for lent in numbers:
            self.program.execute(lent, 2)
            self.assertEqual(bytes(lent)[0], 42)

    def test_objects_of_a_wrong_kind(self):
        self.refused(TypeError, "a Program is required", HostedTask, self.job, 8)
        self.refused(TypeError, "a Program is required", Machine, None)
        self.refused(TypeError, "a Job is required", World, self.program, bytes(8), 40)
        self.refused(TypeError, "a Report is required", self.desk.finish, 1, (0, 0, 0, []), b"")
        report = Report(0, 0, 1, [Task(*[0] * 7)._asdict()])
        self.refused(TypeError, "a Task is required", self.desk.finish, 1, report, b"")
        report = Report(0, 0, 1, [Task(0, 0, 0, -1, 0, 0, 0)])
        self.refused(ValueError, "^given is out", self.desk.finish, 1, report, b"")
        self.refused(TypeError, "a Mapping is required", Program, 0, assemble(ASK), [64])

    def test_a_text_that_is_no_job(self):
        empty = '{"programs":[],"credit":"1","buffer":""}'
        for text in ("7", "[]", "[" * 10**5, '{"programs":[7]}', "{}", empty):
            self.refused(ValueError, "^no job object", telgovan.play_text, text)
        self.refused(ValueError, "column", telgovan.play_text, "")
        self.refused(TypeError, "^text: ", telgovan.play_text, 7)

    def test_what_was_never_loaded(self):
        for number, call, *given in [
            (41, Program.__new__(Program).execute, bytearray(1)),
            (41, Program.__new__(Program).share),
            (41, World.__new__(World).buffer),
            (41, Desk.__new__(Desk).connect),
            (47, HostedTask.__new__(HostedTask).go, bytearray(1)),
            (61, Job.__new__(Job).play, bytearray(1), 1),
        ]:
            self.refused(Error, f"^refused {number}: ", call, *given)

    def test_what_is_closed_by_its_own_argument(self):
        closes = Index(3, self.program.close)
        self.refused(Error, "refused 41", self.program.execute, bytearray(1), closes)
        self.refused(Error, "refused 41", self.desk.feed, Index(1, self.desk.close), b"")

    def test_what_is_made_once_more(self):
        self.program.__init__(1, assemble(CHILD.replace("r1+1", "r1+0")))
        self.assertEqual(self.program.execute(bytearray(1)).r0, 7)
        self.refused(Error, "refused 31", self.program.__init__, 0, assemble("exit"))
        self.assertEqual(self.program.execute(bytearray(1)).r0, 7)  # it holds what it held
        self.job.__init__((2, assemble(CHILD)))
        self.assertEqual(self.job.play(bytearray(2), 9).count, 1)

    def test_what_is_thrown_away_by_hand(self):
        self.program.__del__()
        self.program.__del__()
        self.refused(Error, "refused 41", self.program.execute, bytearray(1))

    def test_an_attribute_that_is_written(self):
        self.program.cost = -1
        self.refused(ValueError, "^credit is out", self.program.execute, bytearray(1))
        self.program.cost = "9"
        self.refused(TypeError, "^credit: ", self.program.execute, bytearray(1))


class Helpers(unittest.TestCase):
    def setUp(self):
        self.memory = bytearray(8)
        self.task = HostedTask(Program(0, assemble(ASK), ARITIES), 8)

    def run_with(self, answer):
        return self.task.run(self.memory, {64: answer, 65: lambda *_: 5})

    def test_an_answer_of_a_wrong_kind(self):
        for odd in (None, "7", 7.0, [7]):
            self.setUp()
            with self.assertRaisesRegex(TypeError, "^an answer: "):
                self.run_with(lambda *_, odd=odd: odd)
        self.assertEqual(self.task.go(self.memory, 3), telgovan.Asked(65, (3, 0, 0, 0, 0)))

    def test_a_helper_that_is_not_given(self):
        with self.assertRaises(KeyError):
            self.task.run(self.memory, {65: len})
        with self.assertRaisesRegex(TypeError, "a Mapping is required"):
            self.task.run(self.memory, [len] * 128)

    def test_a_helper_that_closes_its_task(self):
        with self.assertRaisesRegex(Error, "refused 47"):
            self.run_with(lambda *_: self.task.close() or 1)

    def test_a_helper_that_resizes_the_memory(self):
        with self.assertRaisesRegex(Error, "refused 43"):
            self.run_with(lambda *_: self.memory.clear() or 1)

    def test_a_helper_that_goes_on_with_its_own_task(self):
        told = []

        def again(*_):
            told.append(self.task.run(self.memory, {64: lambda *_: 3, 65: lambda *_: 9}).r0)
            return 1

        with self.assertRaisesRegex(Error, "refused 47"):
            self.run_with(again)
        self.assertEqual(told, [9])


if __name__ == "__main__":
    unittest.main()
