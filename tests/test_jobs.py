"""Jobs of several tasks: over schedules by `bpfjobs play`, on threads by a server, and by the model."""

import json
import random
import resource
import subprocess
import unittest

from jobs import Job, Program
from programs import BPFJOBS, Server, assemble, bpfjobs, job_text, play, submit_text, telgovan
from rows import memory_of, programs_of, rows, schedule_of, text_of


def model_of(programs, credit, buffer):
    return Job([Program(need, code) for need, code in programs], credit, buffer)


def by_place(job):
    """What a job comes to: the credit spent, the buffer, and each task's place with its R0."""
    tasks = sorted(job.by_place().items())
    told = "".join(f", {place} {task.r0}" for place, task in tasks)
    return f"spent {job.totals()['spent']} memory {text_of(job.bytes())}{told}"


def tasks_text(job):
    """What a row tells of each task: its end, or where its part lies, what it holds and its R0."""
    told = ""
    for task in job.tasks:
        place, program = "/" + "/".join(map(str, task.place)), job.numbers[id(task.program)]
        told += f", {place} program {program} on {task.argument}"
        if task.alive:
            r0 = "unset" if task.registers[0] is None else task.registers[0]
            told += f" alive at {task.base}+{len(task.part)} holds {task.held} r0 {r0}"
        else:
            told += f" with {task.given} gives {task.r0} spent {task.used} rest {task.rest}"
    return told


def without_numbers(ends):
    """What is told of tasks, in an order that their numbers don't have a say in."""
    return sorted(sorted((name, end[name]) for name in end if name != "number") for end in ends)


# The words of a row, and what they say of a task.
WORDS = {"program": "program", "on": "argument", "with": "given", "given": "given"}
WORDS |= {"gives": "r0", "r0": "r0", "spent": "used", "rest": "rest"}


class Rows(unittest.TestCase):
    def check_model(self, programs, job, told):
        """What a row tells of the tasks is what the model says."""
        for text in told:
            number, _, rest = text.removeprefix("task ").partition(": ")
            task, words = job.tasks[int(number)], rest.split()
            found = {"program": programs.index((task.program.need, self.code[id(task.program)]))}
            for word, value in zip(words[::2], words[1::2]):
                name = WORDS[word]
                self.assertEqual(found[name] if name in found else getattr(task, name), int(value))

    def play_by_model(self, programs, credit, buffer, schedule):
        job = model_of(programs, credit, buffer)
        self.code = {id(made): code for made, (_, code) in zip(job.programs, programs)}
        return job.play(schedule)

    def test_schedules(self):
        for row in rows("jobs.txt"):
            _, credit, memory, *turns = row.question
            programs, credit, buffer = programs_of(row.program), int(credit), memory_of(memory)
            first, *tasks = row.answer.split(", ")
            with self.subTest(row.place):
                job = self.play_by_model(programs, credit, buffer, schedule_of(turns))
                played = play(programs, credit, buffer, schedule_of(turns))
                self.assertEqual(played, job.played())
                state = "complete" if played["complete"] else "open"
                sums = " ".join(f"{name} {played[name]}" for name in ("held", "returned", "spent", "used"))
                self.assertEqual(f"{played['buffer'] or '-'} {sums} {state}", first)
                self.assertEqual(len(tasks), len(job.tasks) if job.complete else 0)
                self.check_model(programs, job, tasks)

    def test_trees(self):
        for row in rows("trees.txt"):
            _, credit, memory, *turns = row.question
            programs, credit, buffer = programs_of(row.program), int(credit), memory_of(memory)
            with self.subTest(row.place):
                job = self.play_by_model(programs, credit, buffer, schedule_of(turns))
                self.assertEqual(by_place(job), row.answer)
                self.assertEqual(by_place(model_of(programs, credit, buffer).finish()), row.answer)
                self.assertEqual(play(programs, credit, buffer, schedule_of(turns)), job.played())

    def test_tasks(self):
        """Each task then, ended or alive, by the model. Its sums are those that `bpfjobs play` prints, and its steps those
        that it traces (test_steps)."""
        for row in rows("tasks.txt"):
            _, credit, memory, *turns = row.question
            programs, credit, buffer = programs_of(row.program), int(credit), memory_of(memory)
            with self.subTest(row.place):
                job = self.play_by_model(programs, credit, buffer, schedule_of(turns))
                self.assertEqual(play(programs, credit, buffer, schedule_of(turns)), job.played())
                self.assertEqual(text_of(job.bytes()) + tasks_text(job), row.answer)

    def test_on_threads(self):
        """A server's threads run each job to what the model comes to depth first."""
        with Server(workers=1) as server:
            for row in [*rows("jobs.txt"), *rows("trees.txt")]:
                with self.subTest(row.place):
                    credit, memory = row.question[1:3]
                    self.check_threads(server, programs_of(row.program), int(credit), memory_of(memory))

    def check_threads(self, server, programs, credit, buffer):
        job = model_of(programs, credit, buffer).finish()
        grant = {"op": "grant", "tenant": "t", "amount": credit}
        _, reply = server.ask(grant, submit_text(programs, credit, buffer))
        done = server.result(reply["job"])
        self.assertEqual(done["buffer"], job.bytes().hex())
        self.assertEqual((done["spent"], done["returned"]), (job.totals()["spent"], job.totals()["returned"]))
        self.assertEqual([task["number"] for task in done["tasks"]], list(range(len(job.tasks))))
        # tasks are numbered in order of birth, which depends on the threads
        self.assertEqual(without_numbers(done["tasks"]), without_numbers(job.task_ends()))


class Alike(unittest.TestCase):
    """Jobs whose answer is the same on 1, 2 and 8 workers, each time. It was worked out by hand."""

    TIMES = 50

    def check(self, programs, credit, buffer, wanted):
        given = job_text([(need, assemble(text)) for need, text in programs], credit, bytes(buffer))
        for workers in (1, 2, 8):
            for _ in range(self.TIMES):
                status, told = bpfjobs("run", "--workers", str(workers), given=given)
                self.assertEqual(status, 0)
                wanted(json.loads(told))

    def test_a_root_and_its_child(self):
        root = "mov64 r6, r1\nmov64 r1, 1\nmov64 r2, 10\nmov64 r3, 4\nmov64 r4, 9\ncall 1\n"
        root += "stxb [r6+0], r0\nmov64 r0, 0\nexit\n"
        tasks = [
            {"number": 0, "program": 0, "r0": 0, "ran": True, "rest": 0, "spent": 24},
            {"number": 1, "program": 1, "r0": 0, "ran": True, "rest": 7, "spent": 3},
        ]
        told = {"buffer": "0000000009000000", "ok": True, "returned": 7, "spent": 27, "tasks": tasks}
        programs = [(4, root), (4, "stxb [r1+0], r3\nmov64 r0, 0\nexit\n")]
        self.check(programs, 34, 8, lambda found: self.assertEqual(found, told))

    def test_a_tree_of_tasks(self):
        """The deeper the program, the lower its R0."""
        spawn = "mov64 r1, {}\nmov64 r2, {}\nmov64 r3, 0\nmov64 r4, 0\ncall 1\n"
        root = spawn.format(1, 24) * 2 + "mov64 r0, 7\nexit\n"
        child = spawn.format(2, 2) + "mov64 r0, 6\nexit\n"

        def wanted(found):
            self.assertEqual((found["spent"], found["returned"], len(found["tasks"])), (90, 0, 5))
            self.assertEqual({task["r0"] + task["program"] for task in found["tasks"]}, {7})

        self.check([(0, root), (0, child), (0, "mov64 r0, 5\nexit\n")], 90, 0, wanted)


class Chance(unittest.TestCase):
    """Jobs with pseudo-random programs, each under several pseudo-random schedules."""

    SEED, JOBS, SCHEDULES = 3, 120, 3
    LEVELS, MOST_CHILDREN, MOST_TASKS, MOST_STEPS = 4, 3, 40, 64
    # by level: the least share, how many more there may be, and how many more bytes are cut
    SHARES = [(300, 1200, 58), (90, 200, 12), (6, 40, 3)]

    def program(self, level):
        """It notes its argument, spawns some children, and notes what it is answered."""
        lines = ["mov64 r6, r1", "mov64 r7, r3", "stxb [r6+0], r7"]
        for _ in range(self.random.randint(1, self.MOST_CHILDREN) if level + 1 < self.LEVELS else 0):
            least, more, most_cut = self.SHARES[level]
            share, cut = least + self.random.randrange(more), 2 + self.random.randrange(most_cut)
            lines += [f"mov64 r1, {level + 1}", f"mov64 r2, {share}", f"mov64 r3, {cut}"]
            lines += ["mov64 r4, r7", f"add64 r4, {cut}", "call 1"]
            lines += ["add64 r7, r0", "mul64 r7, 5", "stxb [r6+1], r7"]
        return 2, assemble("\n".join([*lines, "mov64 r0, r7", "exit"]))

    def schedule(self):
        """Random numbers of tasks, and then each task to its end."""
        chosen = [self.random.randrange(self.MOST_TASKS) for _ in range(self.random.randrange(1000))]
        return chosen + [number for number in range(self.MOST_TASKS) for _ in range(self.MOST_STEPS)]

    def test_jobs(self):
        self.random = random.Random(self.SEED)
        most = 0
        for number in range(self.JOBS):
            programs = [self.program(level) for level in range(self.LEVELS)]
            buffer = self.random.randbytes(2 + self.random.randrange(200))
            credit = 200 + self.random.randrange(6000)
            whole = by_place(model_of(programs, credit, buffer).finish())
            for _ in range(self.SCHEDULES):
                schedule = self.schedule()
                with self.subTest(job=number):
                    job = model_of(programs, credit, buffer).play(schedule)
                    self.assertTrue(job.complete)
                    self.assertEqual(by_place(job), whole)
                    self.assertEqual(play(programs, credit, buffer, schedule), job.played())
                    most = max(most, len(job.tasks))
        self.assertGreaterEqual(most, 20)


class Many(unittest.TestCase):
    """A job takes exactly the steps of its tasks' instructions, whatever their number."""

    # how many children each task has, how many tasks there are, and what they take and spend
    TREES = [(10, 111, 772, 2422), (100, 10101, 70702, 222202), (316, 100173, 701206, 2203786)]

    @staticmethod
    def spawning(program, share, count):
        """It spawns so many tasks of a program, each with the share."""
        spawn = f"mov64 r1, {program}\nmov64 r2, {share}\nmov64 r3, 0\nmov64 r4, 0\ncall 1\n"
        return 0, assemble(spawn * count + "mov64 r0, 0\nexit\n")

    def test_a_tree(self):
        """1 + n + n * n tasks; 5 n + 2 steps of the root and of each of n, and 2 of each of n * n."""
        for count, tasks, steps, spent in self.TREES:
            share = 22 * count + 2
            credit = count * (share + 20) + 2
            programs = [self.spawning(1, share, count), self.spawning(2, 2, count), self.spawning(2, 2, 0)]
            job = model_of(programs, credit, b"")
            schedule = []
            number = 0
            while number < len(job.tasks):
                while job.tasks[number].alive:
                    job.step(number)
                    schedule.append(number)
                number += 1
            with self.subTest(count=count):
                self.assertEqual((len(job.tasks), len(schedule)), (tasks, steps))
                played = play(programs, credit, b"", schedule)
                self.assertEqual(played, job.played())
                self.assertEqual((played["complete"], played["spent"], played["returned"]), (True, spent, 0))
                self.assertFalse(play(programs, credit, b"", schedule[:-1])["complete"])


class Spawns(unittest.TestCase):
    """What a spawn is answered, by the library and by the model: the first reason against it."""

    @staticmethod
    def costing(cost, *lines, ahead=0):
        """The lines, with so many moves ahead of them, and moves and the end behind them, for this cost."""
        priced = sum(16 if line == "call 1" else 1 for line in lines)
        moves = ["mov64 r6, 0"] * (cost - priced - ahead - 1)
        return assemble("\n".join([*["mov64 r6, 0"] * ahead, *lines, *moves, "exit"]))

    def test_rows(self):
        for row in rows("spawns.txt"):
            share, cut, credit, used, rest, size, need = map(int, row.question[2:])
            lines = ["mov64 r1, 1", f"lddw r2, {share}", f"lddw r3, {cut}", "mov64 r4, 0", "call 1"]
            programs = [(need, self.costing(used + rest, *lines, ahead=used - 20))]
            if row.question[1] != "-":
                cost, child_need = map(int, row.question[1].split("/"))
                programs.append((child_need, self.costing(cost, "mov64 r0, 0")))
            with self.subTest(row.place):
                job = model_of(programs, credit, bytes(size)).finish()
                report = telgovan.Job(*programs).play(bytearray(size), credit)
                self.assertEqual((report.tasks[0].r0, job.tasks[0].r0), (int(row.answer),) * 2)
                self.assertEqual(report.count, 2 if row.answer == "0" else 1)


class Chains(unittest.TestCase):
    """Tasks that hand their credit and their bytes on, but for so many."""

    LINKS, COST, SIZE = 8000, 28, 65536
    MOST_ROOM = 48 << 20

    def link(self, kept):
        lines = ["call 3", "mov64 r7, r0", f"sub64 r7, {kept}", "call 2", "sub64 r0, 23", "mov64 r2, r0"]
        lines += ["mov64 r1, 0", "mov64 r3, r7", "mov64 r4, 0", "call 1", "mov64 r0, 0", "exit"]
        return 0, assemble("\n".join(lines))

    def test_chains(self):
        credit = self.LINKS * (self.COST + 1)
        schedule = [number for number in range(self.LINKS) for _ in range(10)]
        schedule += [number for number in range(self.LINKS) for _ in range(2)]
        for kept in (0, 8):
            with self.subTest(kept=kept):
                programs, buffer = [self.link(kept)], bytes([1]) * self.SIZE
                played = play(programs, credit, buffer, schedule)
                wanted = {"held": 0, "returned": 0, "spent": credit, "used": credit}
                self.assertEqual(played, {"buffer": buffer.hex(), "complete": True, "ok": True, **wanted})
                job = model_of(programs, credit, buffer).finish()
                self.assertEqual(job.totals(), wanted)
                self.assertEqual(len(job.tasks), self.LINKS)
                self.assertTrue(all(set(task.part) <= {1} for task in job.tasks))

    def test_their_parts_take_the_bytes_twice_at_most(self):
        """Where each link took its part's bytes anew, the chain took 256 MiB, or 512. 48 are enough for the process."""
        schedule = [number for number in range(self.LINKS) for _ in range(10)]
        schedule += [number for number in range(self.LINKS) for _ in range(2)]
        for kept in (0, 8):
            given = job_text([self.link(kept)], self.LINKS * (self.COST + 1), bytes(self.SIZE), schedule=schedule)
            how = {"capture_output": True, "preexec_fn": self.limited, "check": True}
            done = subprocess.run([BPFJOBS, "play"], input=given.encode(), **how)
            with self.subTest(kept=kept):
                self.assertTrue(json.loads(done.stdout)["complete"])

    def limited(self):
        resource.setrlimit(resource.RLIMIT_AS, (self.MOST_ROOM, self.MOST_ROOM))


if __name__ == "__main__":
    unittest.main()
