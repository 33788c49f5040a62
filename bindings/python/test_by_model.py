"""Jobs by the library, beside the model of tests/, which shares no line with it.

Run by `python3 -m unittest`, in this folder.
"""

import os
import random
import sys
import unittest

from telgovan import Error, Job, Task, assemble

TESTS = os.path.join(os.path.dirname(os.path.abspath(__file__)), "../../tests")
sys.path.append(TESTS)

import jobs  # noqa: E402  (the model stands in the folder that was just added)


def by_model(programs, credit, buffer):
    """The job played by the live task of lowest number, which is one task after the other."""
    job = jobs.Job([jobs.Program(need, code) for need, code in programs], credit, buffer)
    number = 0
    while number < len(job.tasks):
        while job.tasks[number].alive:
            job.step(number)
        number += 1
    return job


class Model(unittest.TestCase):
    SEED, JOBS, LEVELS, MOST_CHILDREN, ROOM = 7, 300, 4, 3, 12
    # by level: the least share, how many more there may be, and how many more bytes are cut
    SHARES = [(300, 1200, 58), (90, 200, 12), (6, 40, 3)]

    def program(self, level):
        """It notes its argument, spawns some children, and notes what it is answered."""
        lines = ["mov64 r6, r1", "mov64 r7, r3", "stxb [r6+0], r7"]
        children = self.random.randint(1, self.MOST_CHILDREN) if level + 1 < self.LEVELS else 0
        for _ in range(children):
            least, more, most_cut = self.SHARES[level]
            share, cut = least + self.random.randrange(more), 2 + self.random.randrange(most_cut)
            lines += [f"mov64 r1, {level + 1}", f"mov64 r2, {share}", f"mov64 r3, {cut}"]
            lines += ["mov64 r4, r7", f"add64 r4, {cut}", "call 1"]
            lines += ["add64 r7, r0", "mul64 r7, 5", "stxb [r6+1], r7"]
        return 2, assemble("\n".join([*lines, "mov64 r0, r7", "exit"]))

    def compare(self, programs, credit, buffer):
        """The number of the job's tasks, which both tell alike."""
        job = by_model(programs, credit, buffer)
        totals = job.totals()
        lent = bytearray(buffer)
        report = Job(*programs).play(lent, credit, room=self.ROOM)
        self.assertEqual((report.spent, report.returned), (totals["spent"], totals["returned"]))
        self.assertEqual((bytes(lent), report.count), (job.bytes(), len(job.tasks)))
        places = {id(program): place for place, program in enumerate(job.programs)}
        expected = [
            Task(n, places[id(task.program)], task.argument, task.given, task.used, task.rest, task.r0)
            for n, task in enumerate(job.tasks[: self.ROOM])
        ]
        self.assertEqual(report.tasks, expected)
        return report.count

    def test_jobs(self):
        self.random, counts = random.Random(self.SEED), []
        for number in range(self.JOBS):
            programs = [self.program(level) for level in range(self.LEVELS)]
            buffer = self.random.randbytes(2 + self.random.randrange(200))
            credit = 200 + self.random.randrange(6000)
            with self.subTest(job=number):
                counts.append(self.compare(programs, credit, buffer))
        self.assertGreaterEqual(max(counts), 20)
        self.assertLess(min(counts), self.ROOM)

    def test_the_first_refused_program_is_told(self):
        """A root that lacks credit is told only where each program is accepted."""
        self.random = random.Random(self.SEED)
        good, bad = self.program(3), (0, assemble("exit"))
        for place in range(16):
            programs = [bad if n in (place, 15) else good for n in range(16)]
            with self.assertRaises(Error) as caught:
                Job(*programs).play(bytearray(2), 0)
            error = caught.exception
            self.assertEqual((error.number, error.place, error.program), (31, 0, place))
        with self.assertRaises(Error) as caught:
            Job(*[good] * 16).play(bytearray(2), 0)
        self.assertEqual((caught.exception.number, caught.exception.program), (63, None))


if __name__ == "__main__":
    unittest.main()
