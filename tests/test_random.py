"""Pseudo-random programs by the library and by the model: what is accepted runs without a trap, for
no more than its cost, to the same end in both; and bytes that are no program are refused alike."""

import random
import unittest

from instructions import ARITHMETIC, CONDITIONS, Refused, decode
from jobs import Program, run_alone
from machine import Trap
from programs import telgovan
from rows import refusal

# Registers that a program here uses as numbers, besides R0.
NUMBERS = [0, 2, 3, 6, 7, 8]
CONSTANTS = [0, 1, 2, 7, 8, 31, 32, 63, 64, 255, 256, 2**31 - 1, -1, -2, -8, -(2**31)]
WIDES = [0, 1, 2**32 - 1, 2**32, 2**63 - 1, 2**63, 2**64 - 1]
OPERATORS = sorted({*ARITHMETIC.values(), "sdiv", "smod"} - {"end", "neg"})


class Writer:
    """Writes programs of a need, most of which are accepted."""

    def __init__(self, seed):
        self.random = random.Random(seed)

    def register(self):
        return f"r{self.random.choice(NUMBERS)}"

    def number(self):
        if self.random.random() < 0.8:
            return self.random.choice(CONSTANTS)
        return self.random.randint(-(2**31), 2**31 - 1)

    def operand(self):
        return self.register() if self.random.random() < 0.5 else str(self.number())

    def arithmetic(self):
        name = self.random.choice(OPERATORS)
        return f"{name}{self.random.choice((32, 64))} {self.register()}, {self.operand()}"

    def unary(self):
        if self.random.random() < 0.3:
            return f"neg{self.random.choice((32, 64))} {self.register()}"
        if self.random.random() < 0.5:
            order, size = self.random.choice(("le", "be", "swap")), self.random.choice((16, 32, 64))
            return f"{order}{size} {self.register()}"
        name = self.random.choice(("movsx8_32", "movsx16_32", "movsx8_64", "movsx16_64", "movsx32_64"))
        return f"{name} {self.register()}, {self.register()}"

    def wide(self):
        return f"lddw {self.register()}, {self.random.choice(WIDES)}"

    def access(self, need):
        """A load or a store in the stack, or in the part's first bytes, which may be one byte too far."""
        size, letter = self.random.choice(((1, "b"), (2, "h"), (4, "w"), (8, "dw")))
        last = max(0, need - size)
        if need and self.random.random() < 0.6:
            too_far = self.random.random() < 0.01
            place = f"[r9+{last + 1 if too_far else self.random.randint(0, last)}]"
        else:
            place = f"[r10-{self.random.randint(size, 512)}]"
        kind = self.random.randrange(4)
        if kind == 0:
            return f"st{letter} {place}, {self.number()}"
        if kind == 1:
            return f"stx{letter} {place}, {self.register()}"
        signs = "s" if kind == 2 and size < 8 else ""
        return f"ldx{signs}{letter} {self.register()}, {place}"

    def indexed(self, need):
        """A load at a place that a test, or a mask, keeps within the part."""
        mask = (1 << (need.bit_length() - 1)) - 1 if need else 0
        register = self.register()
        is_masked = self.random.random() < 0.7
        bound = f"and64 {register}, {mask}" if is_masked else f"mod64 {register}, {max(1, need)}"
        return [bound, "mov64 r1, r9", f"add64 r1, {register}", f"ldxb {self.register()}, [r1+0]"]

    def called(self, need):
        """A call of a helper, and the registers that it unsets set anew."""
        helper = self.random.randrange(1, 6)
        lines = []
        if helper == 1:
            lines = [f"mov64 r{n}, {self.number()}" for n in (1, 2, 3, 4)]
        elif helper in (4, 5):
            count = self.random.randrange(65)
            stack = not need or self.random.random() < 0.5
            count = count if stack else min(count, need)
            lines = ["mov64 r1, r10" if stack else "mov64 r1, r9"]
            lines += [f"add64 r1, -{self.random.randint(count, 512)}"] if stack else []
            lines += [f"mov64 r2, {count}", f"mov64 r3, {self.number()}"]
        return [*lines, f"call {helper}", f"mov64 r2, {self.number()}", f"mov64 r3, {self.number()}"]

    def group(self, need):
        """Some lines that belong together."""
        kind = self.random.randrange(10)
        if kind < 4:
            return [self.arithmetic()]
        if kind < 6:
            return [self.access(need)]
        if kind == 6:
            return [self.unary() if self.random.random() < 0.7 else self.wide()]
        if kind == 7 and need:
            return self.indexed(need)
        if kind == 8:
            return self.called(need)
        return [None]

    def jump(self, distance):
        name = self.random.choice(list(CONDITIONS.values())) + self.random.choice(("", "32"))
        return f"{name} {self.register()}, {self.operand()}, +{distance}"

    def program(self, need):
        """Jumps lead forward, over some of the groups behind them."""
        groups = [self.group(need) for _ in range(self.random.randrange(1, 25))]
        slots = lambda lines: sum(2 if line and line.startswith("lddw") else 1 for line in lines)
        lines = ["mov64 r9, r1", *(f"mov64 r{n}, {self.number()}" for n in (0, 6, 7, 8))]
        for place, group in enumerate(groups):
            over = groups[place + 1 : place + 1 + self.random.randrange(4)]
            lines += [line or self.jump(sum(map(slots, over))) for line in group]
        return "\n".join([*lines, "exit"])


class Programs(unittest.TestCase):
    SEED, COUNT = 38, 3000

    def test_programs(self):
        writer = Writer(self.SEED)
        accepted = 0
        for number in range(self.COUNT):
            need = writer.random.choice((0, 1, 2, 7, 8, 16, 33))
            source = writer.program(need)
            code = telgovan.assemble(source)
            memory = writer.random.randbytes(need + writer.random.randrange(4))
            argument = writer.random.choice((*WIDES, writer.random.getrandbits(64)))
            with self.subTest(number=number, need=need, source=source):
                accepted += self.agree(need, code, memory, argument)
        # more than half are accepted, so that they are run
        self.assertGreater(accepted, self.COUNT // 2)

    def agree(self, need, code, memory, argument):
        """Whether the program is accepted. Then both ways to run it come to the same."""
        try:
            program = telgovan.Program(need, code)
        except telgovan.Error as error:
            self.assertIn(error.number, (31, 32, 33, 34, 35))
            return False
        model = Program(need, code)
        self.assertEqual(program.cost, model.cost)
        left = bytearray(memory)
        done = telgovan.Machine(program).execute(left, argument, program.cost)
        try:
            r0, used, wanted = run_alone(model, memory, program.cost, argument)
        except Trap as trap:
            self.fail(f"a program that was accepted traps: {trap}")
        self.assertEqual((done.r0, done.used, bytes(left)), (r0, used, wanted))
        return True


class Bytes(unittest.TestCase):
    SEED, COUNT = 38, 20000

    def given(self):
        """Slots of bytes, most of which are near to an instruction's."""
        slots = []
        for _ in range(self.random.randrange(1, 4)):
            slot = bytearray(8)
            slot[0] = self.random.randrange(256)
            for place, chance in ((1, 0.7), (2, 0.3), (3, 0.1), (4, 0.5), (7, 0.1)):
                if self.random.random() < chance:
                    slot[place] = self.random.choice((1, 8, 10, 11, 16, 32, 64, 160, 176, 255))
            slots.append(bytes(slot))
        return b"".join(slots)[: None if self.random.random() < 0.95 else -1]

    def test_bytes(self):
        """What the model decodes is read as text and back; what it refuses is refused alike."""
        self.random = random.Random(self.SEED)
        read = 0
        for number in range(self.COUNT):
            code = self.given()
            with self.subTest(number=number, code=code.hex()):
                try:
                    decode(code)
                except Refused as error:
                    with self.assertRaises(telgovan.Error) as caught:
                        telgovan.disassemble(code)
                    told = caught.exception
                    self.assertEqual(refusal(told.number, told.place), refusal(error.number, error.slot))
                else:
                    self.assertEqual(telgovan.assemble(telgovan.disassemble(code)), code)
                    read += 1
        self.assertGreater(read, self.COUNT // 20)


if __name__ == "__main__":
    unittest.main()
