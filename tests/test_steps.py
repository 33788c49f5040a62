"""The steps and the tree of a job, as `bpfjobs play --trace` and `bpfjobs run --tree` tell them, beside the model's."""

import json
import os
import random
import re
import subprocess
import tempfile
import unittest

import test_jobs
from jobs import Job, Program
from machine import Pointer
from programs import BPFJOBS, PATIENCE, TOP, disassemble, job_text
from rows import memory_of, programs_of, rows, schedule_of


def ran(words, given):
    """The status of bpfjobs, what it prints, and what it tells on standard error."""
    done = subprocess.run([BPFJOBS, *words], input=given.encode(), capture_output=True, timeout=PATIENCE, check=False)
    return done.returncode, done.stdout.decode(), done.stderr.decode()


def value_text(value):
    if value is None:
        return "unset"
    if isinstance(value, Pointer):
        return f"{value.region}{value.at:+d}"
    return str(value)


def region_text(name, before, now):
    """The bytes from the first that is another to the last, if there is one."""
    others = [place for place, (old, new) in enumerate(zip(before, now)) if old != new]
    if not others:
        return []
    return [f"{name}+{others[0]} {bytes(now[others[0]:others[-1] + 1]).hex()}"]


def drawn_job(chance):
    """A pseudo-random job with a schedule."""
    maker = test_jobs.Chance()
    maker.random = chance
    programs = [maker.program(level) for level in range(maker.LEVELS)]
    buffer = chance.randbytes(2 + chance.randrange(200))
    return programs, 200 + chance.randrange(6000), buffer, maker.schedule()


class Steps:
    """A model of a job that writes a line for each of its steps."""

    def __init__(self, programs, credit, buffer):
        self.job = Job([Program(need, code) for need, code in programs], credit, buffer)
        self.texts = {id(made): self.listing(code) for made, (_, code) in zip(self.job.programs, programs)}
        self.lines = []

    @staticmethod
    def listing(code):
        """The line of each instruction, by its slot."""
        found, slot = {}, 0
        for line in disassemble(code).splitlines():
            found[slot] = line
            slot += 2 if line.startswith("lddw ") else 1
        return found

    def step(self, number):
        if number >= len(self.job.tasks) or not self.job.tasks[number].alive:
            return
        task, count = self.job.tasks[number], len(self.job.tasks)
        slot, registers, stack, part = task.slot, [value_text(one) for one in task.registers], bytes(task.stack), bytes(task.part)
        self.job.step(number)
        changes = [f"r{n} {value_text(now)}" for n, now in enumerate(task.registers) if value_text(now) != registers[n]]
        changes += region_text("stack", stack, task.stack) + region_text("part", part, task.part)
        text = self.texts[id(task.program)][slot]
        line = f"task {number}, slot {slot}: {text} ; " + ", ".join([*changes, f"used {task.used}"])
        if not task.alive:
            line += f", ends with {task.r0}"
        for child in self.job.tasks[count:]:
            line += (f", spawns task {count} of program {self.job.numbers[id(child.program)]}, share {child.given}, "
                     f"argument {child.argument}, {len(child.part)} bytes")
        self.lines.append(line)


def told_by_model(programs, credit, buffer, schedule):
    steps = Steps(programs, credit, buffer)
    for number in schedule:
        steps.step(number)
    return steps.lines


class Traces(unittest.TestCase):
    def check(self, programs, credit, buffer, schedule):
        given = job_text(programs, credit, buffer, schedule=schedule)
        plain = ran(["play"], given)
        status, answer, told = ran(["play", "--trace"], given)
        self.assertEqual((status, answer), plain[:2])
        self.assertEqual(plain[2], "")
        if status:
            self.assertEqual(told, "")
        else:
            self.assertEqual(told.splitlines(), told_by_model(programs, credit, buffer, schedule))

    def test_rows(self):
        for name in ("jobs.txt", "trees.txt", "tasks.txt"):
            for row in rows(name):
                with self.subTest(row.place):
                    schedule = list(schedule_of(row.question[3:]))
                    self.check(programs_of(row.program), int(row.question[1]), memory_of(row.question[2]), schedule)

    def test_random_jobs(self):
        chance = random.Random(7)
        for number in range(60):
            with self.subTest(number):
                self.check(*drawn_job(chance))

    def test_the_file_has_the_same_steps(self):
        with open(os.path.join(TOP, "examples/spawn.json"), encoding="utf-8") as file:
            given = json.dumps({**json.load(file), "schedule": [0] * 7 + [1, 0] * 3})
        with tempfile.TemporaryDirectory() as room:
            path = os.path.join(room, "steps")
            status, answer, told = ran(["play", "--trace", "--trace-json", path], given)
            self.assertEqual((status, answer), ran(["play"], given)[:2])
            with open(path, encoding="utf-8") as file:
                objects = [json.loads(line) for line in file]
        lines = told.splitlines()
        self.assertEqual((len(objects), len(lines)), (12, 12))
        for one, line in zip(objects, lines):
            head = f"task {one['task']}, slot {one['slot']}: {one['insn']} ; "
            self.assertTrue(line.startswith(head), line)
            self.assertIn(f"used {one['used']}", line)
            self.assertEqual("r0" in one, ", ends with " in line)
            self.assertEqual("spawned" in one, ", spawns task " in line)
            for register, value in one["registers"].items():
                self.assertIn(f"{register} {value}", line[len(head):])

    def test_no_job_has_no_steps(self):
        empty = '{"programs":[],"credit":1,"buffer":"","schedule":[]}'
        for given, number, words in (("nothing", 72, "bpfjobs: line 1, column 1: "), (empty, 61, "error[61]: ")):
            with tempfile.TemporaryDirectory() as room:
                path = os.path.join(room, "steps")
                status, answer, told = ran(["play", "--trace", "--trace-json", path], given)
                self.assertFalse(os.path.exists(path))
            self.assertEqual((status, json.loads(answer)["code"]), (1, number))
            self.assertTrue(told.startswith(words), told)
            self.assertNotIn("task ", told)

    def test_a_file_that_cant_be_written(self):
        with open(os.path.join(TOP, "examples/answer.json"), encoding="utf-8") as file:
            given = file.read()
        status, answer, told = ran(["play", "--trace-json", "/nowhere/steps"], given)
        self.assertEqual((status, answer), (3, ""))
        self.assertTrue(told.startswith("bpfjobs: /nowhere/steps: "), told)


BOX = re.compile(r'  "(/[0-9/]*)" \[label="\1\\lprogram (\d+), argument (\d+)\\lgiven (\d+)\\l'
                 r'spent (\d+), returned (\d+)\\lr0 (\d+)\\lbytes (\d+) from (\d+)\\l"\];')
EDGE = re.compile(r'  "(/[0-9/]*)" -> "(/[0-9/]*)";')


def drawn(text):
    """The boxes of a tree and its edges."""
    first, node, *lines, last = text.splitlines()
    assert (first, node, last) == ("digraph job {", '  node [shape=box, fontname="monospace"];', "}")
    boxes, edges = {}, []
    for line in lines:
        box, edge = BOX.fullmatch(line), EDGE.fullmatch(line)
        if box:
            assert box[1] not in boxes
            boxes[box[1]] = tuple(map(int, box.groups()[1:]))
        else:
            edges.append((edge[1], edge[2]))
    return boxes, edges


def modelled(programs, credit, buffer):
    """The same by the model."""
    job = Job([Program(need, code) for need, code in programs], credit, buffer).finish()
    boxes, edges = {}, []
    for task in job.tasks:
        place = "/" + "/".join(map(str, task.place))
        boxes[place] = (job.numbers[id(task.program)], task.argument, task.given, task.used, task.rest, task.r0,
                        len(task.part), task.base)
        if task.place:
            edges.append(("/" + "/".join(map(str, task.place[:-1])), place))
    return boxes, edges


class Trees(unittest.TestCase):
    def check(self, programs, credit, buffer):
        given = job_text(programs, credit, buffer)
        with tempfile.TemporaryDirectory() as room:
            path = os.path.join(room, "tree")
            status, answer, told = ran(["run", "--tree", path], given)
            self.assertEqual((status, answer, told), ran(["run"], given))
            if status:
                self.assertFalse(os.path.exists(path))
                return
            with open(path, encoding="utf-8") as file:
                boxes, edges = drawn(file.read())
        wanted, joins = modelled(programs, credit, buffer)
        self.assertEqual((boxes, sorted(edges)), (wanted, sorted(joins)))
        ends = [(end["program"], end["spent"], end["rest"], end["r0"]) for end in json.loads(answer)["tasks"]]
        self.assertEqual(sorted(ends), sorted((box[0], box[3], box[4], box[5]) for box in boxes.values()))

    def test_rows(self):
        for row in rows("trees.txt"):
            with self.subTest(row.place):
                self.check(programs_of(row.program), int(row.question[1]), memory_of(row.question[2]))

    def test_random_jobs(self):
        chance = random.Random(8)
        for number in range(60):
            with self.subTest(number):
                programs, credit, buffer, _ = drawn_job(chance)
                self.check(programs, credit, buffer)


if __name__ == "__main__":
    unittest.main()
