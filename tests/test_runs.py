"""Rows of programs that run: by the library, by `bpfrun`, as a job, and by the model."""

import os
import re
import tempfile
import unittest

from instructions import Refused, decode
from jobs import Job, Program, run_alone
from programs import Server, play, submit_text, telgovan, tried
from rows import code_of, fields, memory_of, refusal, rows, text_of

WORD = (1 << 64) - 1


def came_to(r0, used, memory):
    return f"r0 {r0} used {used} memory {text_of(memory)}"


def by_library(need, code, credit, memory, argument=0):
    lent = bytearray(memory)
    try:
        machine = telgovan.Machine(telgovan.Program(need, code))
    except telgovan.Error as error:
        return refusal(error.number, error.place)
    try:
        done = machine.execute(lent, argument, credit)
    except telgovan.Error as error:
        return f"{error.number} memory {text_of(lent)}"
    return came_to(done.r0, done.used, lent)


def by_bpfrun(need, code, credit, memory, argument=0):
    with tempfile.TemporaryDirectory() as room:
        files = [os.path.join(room, name) for name in ("program", "memory")]
        for file, content in zip(files, (code, memory)):
            with open(file, "wb") as out:
                out.write(content)
        words = [files[0], "--memory", files[1], "--need", need, "--credit", credit, "--arg", argument]
        status, text = tried(map(str, words))
    lines = text.splitlines()
    if status == 0:
        r0, spent, left = (line.partition(" ")[2].strip() for line in lines)
        return f"r0 {r0} used {spent} memory {left or '-'}"
    number = int(lines[0].partition("[")[2].partition("]")[0])
    if number in (42, 43):
        return f"{number} memory {text_of(memory)}"
    slots = re.findall(r"^  = at: slot (\d+)", text, re.MULTILINE)
    return refusal(number, slots[0] if slots else None)


def by_model(need, code, credit, memory, argument=0):
    program = Program(need, code)
    if credit < program.cost:
        return f"42 memory {text_of(memory)}"
    if len(memory) < need:
        return f"43 memory {text_of(memory)}"
    return came_to(*run_alone(program, memory, credit, argument))


class Alone(unittest.TestCase):
    """A program by itself. Where it is refused, the model isn't asked."""

    def check(self, place, answer, *given):
        with self.subTest(place):
            self.assertEqual(by_library(*given), answer)
            self.assertEqual(by_bpfrun(*given), answer)
            if " at " not in answer and " memory " in answer:
                self.assertEqual(by_model(*given), answer)

    def test_runs(self):
        for row in rows("runs.txt"):
            memory, answer = memory_of(row.question[2]), row.answer
            if answer.startswith("vm "):
                answer = answer.removeprefix("vm ").partition(",")[0]
            self.check(row.place, answer, len(memory), code_of(row.program), int(row.question[1]), memory)

    def test_machines(self):
        for row in rows("machines.txt"):
            with_argument = row.question[0] == "execute"
            need, credit, *argument = map(int, row.question[1:-1])
            given = need, code_of(row.program), credit, memory_of(row.question[-1]), *argument
            with self.subTest(row.place):
                ways = [by_library, by_bpfrun] + [by_model] * (" at " not in row.answer)
                for way in ways:
                    found = way(*given)
                    if not with_argument and found.startswith("r0 "):
                        words = found.split()
                        found = " ".join(words[:2] + words[4:])
                    self.assertEqual(found, row.answer)


class AsJobs(unittest.TestCase):
    """The same programs as jobs of one task, whose buffer is the memory."""

    def setUp(self):
        self.rows = []
        for row in rows("runs.txt"):
            answer = row.answer.partition(", job ")[2].partition(",")[0] or row.answer
            memory = memory_of(row.question[2])
            self.rows.append((row.place, code_of(row.program), int(row.question[1]), memory, answer))

    def test_by_the_model(self):
        for place, code, credit, memory, answer in self.rows:
            with self.subTest(place):
                job = Job([Program(len(memory), code)], credit, memory).finish()
                self.assertEqual(came_to(job.tasks[0].r0, job.tasks[0].used, job.bytes()), answer)

    def test_by_play(self):
        for place, code, credit, memory, answer in self.rows:
            with self.subTest(place):
                told_of = play([(len(memory), code)], credit, memory, [0] * (len(code) // 8))
                self.assertTrue(told_of["complete"])
                self.assertEqual(told_of["spent"], told_of["used"])
                found = f"used {told_of['used']} memory {told_of['buffer'] or '-'}"
                self.assertEqual(found, answer.split(" ", 2)[2])

    def test_on_threads(self):
        with Server(sessions=1_000_000) as server:
            server.ask({"op": "grant", "tenant": "t", "amount": 2**31 - 1})
            for place, code, credit, memory, answer in self.rows:
                with self.subTest(place):
                    # the server's tenant can't pay more than it has
                    server.ask({"op": "grant", "tenant": "t", "amount": max(1, credit)})
                    (reply,) = server.ask(submit_text([(len(memory), code)], credit, memory))
                    done = server.result(reply["job"])
                    (task,) = done["tasks"]
                    found = f"r0 {task['r0']} used {task['spent']} memory {done['buffer'] or '-'}"
                    self.assertEqual(found, answer)


class Operators(unittest.TestCase):
    """Rows of an operation, its numbers and what it gives, as programs of that instruction."""

    @staticmethod
    def sources(words):
        """Programs that end with what the operation gives, by registers and by a number of 32 bits."""
        name, *numbers = words
        loads = [f"lddw r{n}, {int(number, 16)}" for n, number in enumerate(numbers)]
        if len(numbers) == 1:
            operands = ["r0, r0" if name.startswith("mov") else "r0"]
        else:
            operands = ["r0, r1"]
            number = int(numbers[1], 16)
            short = number if number < 1 << 31 else number - (1 << 64)
            if -(1 << 31) <= short < 1 << 31:
                operands.append(f"r0, {short}")
        for form in operands:
            yield "\n".join([*loads, f"{name} {form}", "exit"])

    @staticmethod
    def jumps(words):
        """The same of a condition: 1 where the jump is taken, else 0."""
        name, a, b = words[0], int(words[1], 16), int(words[2], 16)
        yield f"lddw r1, {a}\nlddw r2, {b}\nmov64 r0, 1\n{name} r1, r2, +1\nmov64 r0, 0\nexit"

    def check(self, place, source, answer):
        code = telgovan.assemble(source)
        credit = len(code) // 8
        with self.subTest(place, source=source):
            found = by_library(0, code, credit, b"")
            self.assertEqual(int(found.split()[1]), answer)
            self.assertEqual(found, by_model(0, code, credit, b""))

    def test_operators(self):
        for place, (question, answer) in fields("operators.txt", 2):
            for source in self.sources(question.split()):
                self.check(place, source, int(answer, 16))

    def test_conditions(self):
        for place, (question, answer) in fields("conditions.txt", 2):
            for source in self.jumps(question.split()):
                self.check(place, source, {"taken": 1, "passed": 0}[answer])


class Memory(unittest.TestCase):
    """Rows of one access to a memory, as programs."""

    def test_rows(self):
        for place, (question, source, memory, answer) in fields("accesses.txt", 4):
            given = memory_of(memory)
            code = code_of(source)
            with self.subTest(place, question=question):
                found = by_library(len(given), code, 100, given)
                self.assertEqual(self.shortened(found), answer)
                if " at " not in answer:
                    self.assertEqual(found, by_model(len(given), code, 100, given))

    @staticmethod
    def shortened(found):
        """R0 and the memory."""
        words = found.split()
        return found if " at " in found else f"{words[1]} {words[5]}"


class Limits(unittest.TestCase):
    """Programs and memories at their limits: nothing there is refused that needn't be."""

    LONGEST = "4095 * mov64 r0, 7 / exit"

    def test_the_longest_program_runs(self):
        code = code_of(self.LONGEST)
        self.assertEqual(by_library(0, code, 4096, b""), "r0 7 used 4096 memory -")
        self.assertEqual(by_model(0, code, 4096, b""), "r0 7 used 4096 memory -")
        played = play([(0, code)], 4096, b"", [0] * 4096)
        self.assertEqual((played["complete"], played["used"]), (True, 4096))
        self.assertFalse(play([(0, code)], 4096, b"", [0] * 4095)["complete"])

    def test_the_longest_program_costs_its_slots(self):
        code = code_of(self.LONGEST)
        self.assertEqual(telgovan.Program(0, code).cost, 4096)
        table = Program(0, code).costs
        self.assertEqual((len(table), table[0], table[1], table[4095]), (4096, 4096, 4095, 1))
        self.assertEqual(play([(0, code)], 4095, b"", [])["code"], 63)
        self.assertEqual(by_library(0, code, 4095, b""), "42 memory -")

    def test_the_longest_memory_is_written_to_its_last_byte(self):
        code = code_of("mov64 r6, r1 / add64 r1, 65535 / stb [r1+0], 9 / ldxb r0, [r6+0] / exit")
        memory = bytearray([3]) * 65536
        done = telgovan.Machine(telgovan.Program(65536, code)).execute(memory, credit=5)
        self.assertEqual(done.r0, 3)
        self.assertEqual((memory[0], memory[65534], memory[65535]), (3, 3, 9))
        self.assertEqual(set(memory[:65535]), {3})

    def test_a_fan_costs_its_slots(self):
        """Each jump leads to the last slot."""
        jumps = [f"jeq r3, 0, +{left}" for left in reversed(range(4094))]
        code = telgovan.assemble("\n".join(["mov64 r0, 0", *jumps, "exit"]))
        self.assertEqual(telgovan.Program(0, code).cost, 4096)

    def test_a_comb_of_merges_needs_what_they_come_to(self):
        """Each jump leads over a move, and the two ways meet behind it: R0 is at last 0 to 2,046."""
        teeth = [f"jeq r3, {tooth}, +1\nmov64 r0, {tooth}" for tooth in range(1, 2047)]
        lines = ["mov64 r0, 0", *teeth, "add64 r1, r0", "ldxb r0, [r1+0]", "exit"]
        code = telgovan.assemble("\n".join(lines))
        self.assertEqual(telgovan.Program(2047, code).cost, 4096)
        with self.assertRaises(telgovan.Error) as caught:
            telgovan.Program(2046, code)
        self.assertEqual((caught.exception.number, caught.exception.place), (33, 4094))


class Opcodes(unittest.TestCase):
    """Opcodes that begin an instruction where all other fields are zero, by the library and by the
    model. 0x18 lacks its second slot; a byte order has a width that isn't zero."""

    KNOWN = bytes.fromhex(
        "04142434445464748494a4b4c40c1c2c3c4c5c6c7c9cacbccc07172737475767778797a7b7c70f1f2f3f4f5f6f7f9fafbfcf"
        "05152535455565758595a5b5c5d51d2d3d4d5d6d7dadbdcddd0616263646566676a6b6c6d61e2e3e4e5e6e7eaebecede6169"
        "7179818991626a727a636b737b"
    )

    def test_each_opcode(self):
        self.assertEqual(len(self.KNOWN), 113)
        for opcode in range(256):
            code = bytes([opcode]) + bytes(7)
            wanted = None if opcode in self.KNOWN else refusal(7 if opcode == 0x18 else 4, 0)
            with self.subTest(opcode=opcode):
                self.assertEqual(self.by_library(code), wanted)
                self.assertEqual(self.by_model(code), wanted)

    @staticmethod
    def by_library(code):
        try:
            telgovan.disassemble(code)
        except telgovan.Error as error:
            return refusal(error.number, error.place)
        return None

    @staticmethod
    def by_model(code):
        try:
            decode(code)
        except Refused as error:
            return refusal(error.number, error.slot)
        return None


class Traced(unittest.TestCase):
    """The steps that the reference takes, as the library writes them. The answers were worked out by hand."""

    def test_rows(self):
        for row in rows("reference.txt"):
            credit, memory, registers = int(row.question[1]), memory_of(row.question[2]), {}
            part = bytearray(memory)
            steps = telgovan.trace(len(memory), code_of(row.program), memory, credit=credit)
            for step in steps:
                registers.update(step["registers"])
                change = step.get("part", {"at": 0, "bytes": ""})
                changed = bytes.fromhex(change["bytes"])
                part[change["at"]:change["at"] + len(changed)] = changed
            with self.subTest(row.place):
                self.assertEqual(came_to(registers["r0"], steps[-1]["used"], part), row.answer)


if __name__ == "__main__":
    unittest.main()
