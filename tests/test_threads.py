"""Jobs on threads: pseudo-random trees of tasks by `bpfjobs run` and by the model, jobs that are looked at while they
run, and what tasks find on the stacks of others."""

import json
import os
import unittest
from concurrent.futures import ThreadPoolExecutor

import test_jobs
from programs import Server, assemble, bpfjobs, job_text, submit_text, telgovan
from trees import Planter, comparable

# How many trees there are: a sample, or as many as this variable says. 2,300 take a minute or two.
COUNT = int(os.environ.get("TELGOVAN_TREES", "100"))


class Trees(unittest.TestCase):
    """The buffer, the credit, and each task: its program, R0, and what it spent and returned. Its
    argument and what it was given are in R0, which it makes of them."""

    SEED, WORKERS = 28, (1, 2, 4, 16)

    def test_trees(self):
        planter = Planter(self.SEED, assemble)
        whole, most, answers = 0, 0, [0] * 6
        for number in range(COUNT):
            tree = planter.tree()
            given = job_text(tree.programs, tree.credit, tree.buffer)
            wanted = tree.report()
            for workers in self.WORKERS:
                with self.subTest(number=number, workers=workers):
                    status, told = bpfjobs("run", "--workers", str(workers), given=given)
                    self.assertEqual((status, comparable(json.loads(told))), (0, wanted))
            whole += not any(tree.model.answers[1:])
            most = max(most, len(tree.model.tasks))
            answers = [sum(counts) for counts in zip(answers, tree.model.answers)]
        # in half of the trees no spawn is refused, some are large, and each refusal is met
        self.assertGreater(whole, COUNT // 3)
        self.assertGreater(most, 50)
        self.assertNotIn(0, answers)


class Looks(unittest.TestCase):
    """What a server says of jobs that run, to clients that look at once: it never goes back, and a complete job stays complete and has
    spent all of its credit."""

    # how many children the root and each of those has: enough that some looks come while they run
    COUNT, TIMES, CLIENTS = 150, 5, 4

    def test_jobs_that_run_at_once(self):
        share = 22 * self.COUNT + 2
        credit, spawning = self.COUNT * (share + 20) + 2, test_jobs.Many.spawning
        programs = [spawning(1, share, self.COUNT), spawning(2, 2, self.COUNT), spawning(2, 2, 0)]
        with Server(workers=4) as server, ThreadPoolExecutor(self.CLIENTS) as clients:
            seen = 0
            for _ in range(self.TIMES):
                grant = {"op": "grant", "tenant": "t", "amount": 3 * credit}
                numbers = [reply["job"] for reply in server.ask(grant, *[submit_text(programs, credit, b"")] * 3)[1:]]
                seen += sum(clients.map(lambda _: self.look(server, numbers, credit), range(self.CLIENTS)))
                for number in numbers:
                    done = server.result(number)
                    self.assertEqual((done["spent"], len(done["tasks"])), (credit, 1 + self.COUNT + self.COUNT**2))
        self.assertGreater(seen, 0)

    def look(self, server, numbers, credit):
        """Looks until all are complete. How many looks found a job under way."""
        last, under_way = {number: (0, 0) for number in numbers}, 0
        running = set(numbers)
        while running:
            statuses = server.ask(*({"op": "status", "job": number} for number in numbers * 20))
            for number, status in zip(numbers * 20, statuses):
                now = status["spent"], status["returned"]
                self.assertTrue(last[number][0] <= now[0] and last[number][1] <= now[1], (last[number], now))
                self.assertTrue(status["complete"] or number in running)
                last[number] = now
                if status["complete"]:
                    self.assertEqual(sum(now), credit)
                    running.discard(number)
                under_way += 0 < now[0] < credit
        return under_way


class Stacks(unittest.TestCase):
    """Each task finds zeros on its stack, whatever ran there before: a task of the same job, or of another one."""

    WRITES, READS = "stdw [r10-8], 7", "ldxdw r0, [r10-8]"
    WRITING, READING = assemble(f"{WRITES}\nmov64 r0, 0\nexit"), assemble(f"{READS}\nexit")

    def test_by_a_server(self):
        with Server(workers=1) as server:
            server.ask({"op": "grant", "tenant": "t", "amount": 1000})
            for code, spent in [(self.WRITING, 3), (self.READING, 2)] * 3:
                (reply,) = server.ask(submit_text([(0, code)], 100, b""))
                (task,) = server.result(reply["job"])["tasks"]
                self.assertEqual((task["r0"], task["spent"], task["ran"]), (0, spent, True))

    def test_by_the_library(self):
        writing, reading = telgovan.Program(0, self.WRITING), telgovan.Program(0, self.READING)
        for _ in range(3):
            self.assertEqual(writing.execute(bytearray()), telgovan.Executed(0, 3))
            self.assertEqual(reading.execute(bytearray()), telgovan.Executed(0, 2))

    def test_within_a_job(self):
        """A root that writes its stack and spawns tasks that read theirs and write them then."""
        spawn = "mov64 r1, 1\nmov64 r2, 3\nmov64 r3, 0\nmov64 r4, 0\ncall 1\n"
        root = assemble(f"{self.WRITES}\n" + spawn * 20 + "mov64 r0, 0\nexit")
        child = assemble(f"{self.READS}\n{self.WRITES}\nexit")
        for workers in (1, 2):
            status, told = bpfjobs("run", "--workers", str(workers), given=job_text([(0, root), (0, child)], 500, b""))
            tasks = json.loads(told)["tasks"]
            self.assertEqual((status, [task["r0"] for task in tasks]), (0, [0] * 21))


if __name__ == "__main__":
    unittest.main()
