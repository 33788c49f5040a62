"""Rows of programs that call helpers of a host's: their verdicts, and their runs as tasks that stop where they ask."""

import unittest

from jobs import Program, no_spawn
from machine import Task
from programs import assemble, telgovan
from rows import code_of, memory_of, refusal, rows, text_of
from telgovan import _calls, _programs

WORD = 1 << 64
ANSWERING = assemble("mov64 r0, 42\nexit")

# What the helpers answer: 64 the sum of its first two numbers; of 65 each number counts twice as
# much as the one ahead of it; 127 the greatest number.
HELPERS = {
    64: lambda a, b, c, d, e: (a + b) % WORD,
    65: lambda a, b, c, d, e: (a + 2 * b + 4 * c + 8 * d + 16 * e) % WORD,
    127: lambda a, b, c, d, e: WORD - 1,
}


class HostedModel(Task):
    """A task of the model that may call the helpers, of which each takes so many numbers."""

    def __init__(self, program, memory, credit, arities):
        super().__init__(program, memory, credit)
        self.arities = arities

    def call(self, helper, following, spawn):
        if helper not in self.arities:
            super().call(helper, following, spawn)
            return
        taken = [self.number(register) for register in range(1, 1 + self.arities[helper])]
        answer = HELPERS[helper](*taken, *[0] * (5 - len(taken)))
        self.registers[:6] = [answer] + [None] * 5


def by_model(need, code, arities, credit, memory):
    task = HostedModel(Program(need, code), memory, credit, arities)
    while task.alive:
        task.step(no_spawn)
    return task.r0, task.used, bytes(task.part)


class Verdicts(unittest.TestCase):
    def test_rows(self):
        """Each program by its helpers. Where it is refused, a handle keeps the program that it holds."""
        for row in rows("helpers.txt"):
            _, need, *words = row.question
            helpers = dict(map(int, word.split("/")) for word in words)
            with self.subTest(row.place):
                self.assertEqual(self.verdict(int(need), code_of(row.program), helpers), row.answer)

    def verdict(self, need, code, helpers):
        held, verdict = telgovan.Program(0, ANSWERING), _calls.Verdict()
        arities = _programs.arities_of(helpers)
        status = _calls.program_load_with(need, code, len(code), arities, len(arities), held._handle, verdict)
        if status == 0:
            self.assertEqual(verdict.cost, telgovan.Program(need, code, helpers).cost)
            return f"cost {verdict.cost}"
        self.assertEqual(status, verdict.status)
        self.assertEqual(held.execute(bytearray(1), credit=2), telgovan.Executed(42, 2))
        return refusal(status, verdict.slot if verdict.has_slot else None)


class Calls(unittest.TestCase):
    def test_rows(self):
        for row in rows("callers.txt"):
            *arities, credit, memory = row.question[1:]
            arities = dict(zip(HELPERS, map(int, arities)))
            with self.subTest(row.place):
                self.check(code_of(row.program), arities, int(credit), memory_of(memory), row.answer)

    def check(self, code, arities, credit, memory, answer):
        try:
            program = telgovan.Program(len(memory), code, arities)
        except telgovan.Error as error:
            self.assertEqual(refusal(error.number, error.place), answer)
            return
        lent = bytearray(memory)
        try:
            task = telgovan.HostedTask(program, len(lent), credit=credit)
        except telgovan.Error as error:
            self.assertEqual(f"{error.number} memory {text_of(lent)}", answer)
            return
        done = task.run(lent, HELPERS)
        self.assertEqual(f"r0 {done.r0} used {done.used} memory {text_of(lent)}", answer)
        self.assertEqual(by_model(len(memory), code, arities, credit, memory), (done.r0, done.used, bytes(lent)))

    def test_each_call_is_answered_once(self):
        """In their order, whatever the limit of a piece is: the first answer is 16 + 5, and the second 32 + 7."""
        code = assemble("mov64 r1, 5\ncall 64\nmov64 r6, r0\nmov64 r1, 7\ncall 64\nlsh64 r6, 8\nor64 r0, r6\nexit")
        program = telgovan.Program(0, code, {64: 1})
        for limit in (1, 3, 2**32 - 2):
            asked, answer, done = [], 0, None
            task = telgovan.HostedTask(program, 0, credit=1000)
            while not isinstance(done, telgovan.Executed):
                done = task.go(bytearray(), answer, limit)
                if isinstance(done, telgovan.Asked):
                    asked.append(done.arguments[0])
                    answer = 16 * len(asked) + asked[-1]
            with self.subTest(limit=limit):
                self.assertEqual((done.r0, asked), (21 * 256 + 39, [5, 7]))


if __name__ == "__main__":
    unittest.main()
