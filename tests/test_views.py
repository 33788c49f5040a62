"""The steps of runs and the graphs of programs, as the library tells them, beside the model's and `bpfrun`'s."""

import json
import os
import tempfile
import unittest
from pathlib import Path

from jobs import Program, no_spawn
from machine import Task
from programs import BPFRUN, TOP, telgovan, told
from test_graphs import drawn, modelled
from test_random import WIDES, Writer
from test_steps import Steps, value_text

EXAMPLES = Path(TOP) / "examples"
CREDIT = 2**31 - 1
NEEDS = (0, 1, 8, 33)


def region_change(before, now):
    """The bytes from the first that is another to the last, if there is one."""
    others = [place for place, (old, new) in enumerate(zip(before, now)) if old != new]
    return {"at": others[0], "bytes": bytes(now[others[0]:others[-1] + 1]).hex()} if others else None


def steps_by_model(need, code, memory, argument, lines):
    """The steps of a run, each with the line that its instruction has in a source of nothing but instructions."""
    task, told_steps = Task(Program(need, code), memory, CREDIT, argument), []
    texts = Steps.listing(code)
    line_of = {slot: number for number, slot in enumerate(texts, 1)}
    while task.alive:
        slot, registers, stack, part = task.slot, [value_text(one) for one in task.registers], bytes(task.stack), bytes(task.part)
        task.step(no_spawn)
        changed = {f"r{n}": value_text(one) for n, one in enumerate(task.registers) if value_text(one) != registers[n]}
        step = {"slot": slot, "insn": texts[slot], "registers": changed, "used": task.used}
        regions = {"stack": region_change(stack, task.stack), "part": region_change(part, task.part)}
        step.update({name: change for name, change in regions.items() if change})
        told_steps.append({**step, "line": line_of[slot]} if lines else step)
    return told_steps


class Views(unittest.TestCase):
    SEED, COUNT = 57, 500

    def test_steps_of_random_programs(self):
        writer, ran = Writer(self.SEED), 0
        for number in range(self.COUNT):
            need = writer.random.choice(NEEDS)
            source = writer.program(need)
            code = telgovan.assemble(source)
            memory = writer.random.randbytes(need + writer.random.randrange(4))
            argument = writer.random.choice(WIDES)
            with self.subTest(number=number, need=need, source=source):
                ran += self.agree(need, code, memory, argument, source if number % 2 else "")
        self.assertGreater(ran, self.COUNT // 2)

    def agree(self, need, code, memory, argument, source):
        """Whether the program is accepted. Then its steps are the model's; else the refusal is the same."""
        try:
            telgovan.Program(need, code)
        except telgovan.Error as why:
            with self.assertRaises(telgovan.Error) as caught:
                telgovan.trace(need, code, memory, argument)
            self.assertEqual((caught.exception.number, caught.exception.place), (why.number, why.place))
            return False
        steps = telgovan.trace(need, code, memory, argument, source=source)
        self.assertEqual(steps, steps_by_model(need, code, memory, argument, bool(source)))
        return True

    def test_graphs_of_random_programs(self):
        writer = Writer(self.SEED)
        for number in range(self.COUNT):
            need = writer.random.choice(NEEDS)
            source = writer.program(need)
            code = telgovan.assemble(source)
            with self.subTest(number=number, need=need, source=source):
                self.assertEqual(drawn(telgovan.graph(need, code)), modelled(code))

    def test_bpfrun_writes_the_same(self):
        with tempfile.TemporaryDirectory() as room:
            memory, steps = os.path.join(room, "memory"), os.path.join(room, "steps")
            for file in sorted(EXAMPLES.glob("*.bpf")):
                for need in (0, 8, 40):
                    with self.subTest(file=file.name, need=need):
                        self.same_as_bpfrun(file, need, memory, steps)

    def same_as_bpfrun(self, file, need, memory, steps):
        source = file.read_text(encoding="utf-8")
        code = telgovan.assemble(source)
        words = [str(file), "--need", str(need)]
        self.assertEqual(told(BPFRUN, [*words, "--graph"])[1], telgovan.graph(need, code, source))
        Path(memory).write_bytes(bytes(range(need + 3)))
        status = told(BPFRUN, [*words, "--arg", "5", "--memory", memory, "--trace-json", steps])[0]
        if status:
            self.assertRaises(telgovan.Error, telgovan.trace, need, code, bytes(range(need + 3)), 5)
            return
        lines = Path(steps).read_text(encoding="utf-8").splitlines()
        self.assertEqual([*map(json.loads, lines)], telgovan.trace(need, code, bytes(range(need + 3)), 5, source=source))


if __name__ == "__main__":
    unittest.main()
