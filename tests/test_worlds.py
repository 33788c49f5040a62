"""Jobs under way that the library holds, and the steps that it tells of them, beside the model's."""

import json
import random
import unittest

from jobs import Job, Program
from programs import telgovan
from rows import memory_of, programs_of, rows, schedule_of
from test_steps import Steps, drawn_job, value_text

ANSWER = telgovan.assemble("mov64 r0, 7\nexit\n")


class Told(Steps):
    """A model that writes an object for each of its steps."""

    def step(self, number):
        if number >= len(self.job.tasks) or not self.job.tasks[number].alive:
            return
        task, count = self.job.tasks[number], len(self.job.tasks)
        slot, registers = task.slot, [value_text(one) for one in task.registers]
        stack, part = bytes(task.stack), bytes(task.part)
        self.job.step(number)
        step = {"task": number, "slot": slot, "insn": self.texts[id(task.program)][slot]}
        now = [value_text(one) for one in task.registers]
        step["registers"] = {f"r{n}": value for n, value in enumerate(now) if value != registers[n]}
        for name, before, after in (("stack", stack, task.stack), ("part", part, task.part)):
            others = [place for place, (old, new) in enumerate(zip(before, after)) if old != new]
            if others:
                step[name] = {"at": others[0], "bytes": bytes(after[others[0]:others[-1] + 1]).hex()}
        step["used"] = task.used
        if not task.alive:
            step["r0"] = task.r0
        for child in self.job.tasks[count:]:
            step["spawned"] = {"task": count, "program": self.job.numbers[id(child.program)], "share": child.given,
                               "argument": child.argument, "bytes": len(child.part)}
        self.lines.append(step)


class Worlds(unittest.TestCase):
    JOBS = 200

    def agree(self, programs, credit, buffer, schedule):
        """A world is at each step where the model is, and what is told of the steps is what the model does."""
        model = Told(programs, credit, buffer)
        job = telgovan.Job(*programs)
        with job.open(buffer, credit) as world:
            for place, number in enumerate(schedule):
                told, done = world.run(number), len(model.lines)
                model.step(number)
                ran = len(model.lines) > done
                self.assertEqual((told.count, told.is_alive), (int(ran), ran))
                self.assertEqual(told.r0, model.lines[-1].get("r0") if ran else None)
                self.sums(told, model.job)
                if place % 50 == 0:
                    self.assertEqual(world.buffer(), model.job.bytes())
            self.assertEqual(world.buffer(), model.job.bytes())
        self.assertEqual(job.trace(buffer, credit, schedule), model.lines)

    def sums(self, told, model):
        totals = model.totals()
        self.assertEqual({name: getattr(told, name) for name in totals}, totals)
        self.assertEqual((told.tasks, told.is_complete), (len(model.tasks), model.complete))

    def test_rows(self):
        for name in ("jobs.txt", "trees.txt", "tasks.txt"):
            for row in rows(name):
                with self.subTest(row.place):
                    schedule = list(schedule_of(row.question[3:]))
                    self.agree(programs_of(row.program), int(row.question[1]), memory_of(row.question[2]), schedule)

    def test_random_jobs(self):
        chance = random.Random(17)
        for number in range(self.JOBS):
            programs, credit, buffer, _ = drawn_job(chance)
            schedule = [chance.randrange(chance.choice([2, 6, 30])) for _ in range(200)]
            with self.subTest(number):
                if credit >= Program(*programs[0]).cost:
                    self.agree(programs, credit, buffer, schedule)

    def test_a_task_runs_on(self):
        """A limit of more than one instruction, up to one that is never reached."""
        chance = random.Random(18)
        for number in range(self.JOBS):
            programs, credit, buffer, _ = drawn_job(chance)
            if credit < Program(*programs[0]).cost:
                continue
            model = Job([Program(need, code) for need, code in programs], credit, buffer)
            with self.subTest(number), telgovan.Job(*programs).open(buffer, credit) as world:
                while not model.complete:
                    task, limit = chance.randrange(len(model.tasks) + 1), chance.choice([0, 1, 2, 7, 2**32 - 1])
                    steps, was_alive = 0, task < len(model.tasks) and model.tasks[task].alive
                    while steps < limit and was_alive and model.tasks[task].alive:
                        model.step(task)
                        steps += 1
                    told = world.run(task, limit)
                    self.assertEqual((told.count, told.is_alive), (steps, was_alive))
                    self.assertEqual(told.r0, model.tasks[task].r0 if was_alive else None)
                    self.sums(told, model)
                self.assertEqual(world.buffer(), model.bytes())

    def test_refusals(self):
        far = telgovan.assemble("ldxb r0, [r1+0]\nexit\n")
        for programs, credit, buffer, refusal in (
                ([], 2, b"", (61, None, None)), ([(0, ANSWER)] * 17, 2, b"", (62, None, None)),
                ([(0, ANSWER)], 2**31, b"", (65, None, None)), ([(0, ANSWER)], 2, bytes(65537), (65, None, None)),
                ([(0, ANSWER), (0, far)], 2, b"", (33, 0, 1)), ([(0, ANSWER), (65537, ANSWER)], 2, b"", (38, None, 1)),
                ([(0, ANSWER)], 1, b"", (63, None, None)), ([(1, ANSWER)], 2, b"", (64, None, None))):
            with self.subTest(refusal):
                job = telgovan.Job(*programs)
                with self.assertRaises(telgovan.Error) as caught:
                    job.open(buffer, credit)
                told = caught.exception
                self.assertEqual((told.number, told.place, told.program), refusal)
                with self.assertRaises(telgovan.Error) as caught:
                    job.trace(buffer, credit, [0])
                # (a text that isn't written has one place, which is the program's)
                told = caught.exception
                self.assertEqual((told.number, told.place, told.program), (refusal[0], None, refusal[2]))

    def test_a_handle_that_holds_none(self):
        world = telgovan.Job((0, ANSWER)).open(b"", 2)
        self.assertEqual(world.run(0, 5).r0, 7)
        self.assertEqual(world.run(0, 5), telgovan.Stepped(0, None, False, 1, 0, 0, 2, 2, True))
        for _ in range(2):
            world.close()
            for call in (lambda: world.run(0), world.buffer):
                with self.assertRaises(telgovan.Error) as caught:
                    call()
                self.assertEqual(caught.exception.number, 41)

    def test_numbers_that_python_keeps(self):
        """R0 and an argument of 64 bits stand in the steps as they are."""
        root = telgovan.assemble("mov64 r1, 1\nmov64 r2, 2\nmov64 r3, 0\nmov64 r4, -1\ncall 1\nmov64 r0, -2\nexit\n")
        child = telgovan.assemble("mov64 r0, r3\nexit\n")
        steps = telgovan.Job((0, root), (0, child)).trace(b"", 40, [0] * 7 + [1, 1])
        self.assertEqual(steps[4]["spawned"]["argument"], 2**64 - 1)
        self.assertEqual([step["r0"] for step in steps if "r0" in step], [2**64 - 2, 2**64 - 1])
        self.assertEqual(json.loads(json.dumps(steps)), steps)


if __name__ == "__main__":
    unittest.main()
