"""Rows of what the verifier knows of values, as the library's graphs tell it ahead of each basic block.

A row of `ranges.txt` has operands, an instruction, and what is known behind it. A program is
written around the instruction: jumps on conditions narrow the argument to the operands, and a jump
to the next slot begins a block, ahead of which the graph tells what is known.
"""

import re
import unittest
from collections import namedtuple

from programs import telgovan
from rows import code_of, refusal, rows

WORD, SIGN = 1 << 64, 1 << 63
BOX = re.compile(r'  s(\d+) \[label=<<font color="gray40">cost \d+<br[^>]*/>(.*?)</font>')
NUMBERS = re.compile(r"(\d+) to (\d+)(?:, signed (-?\d+) to (-?\d+))?")
POINTER = re.compile(r"(stack|part)([+-]\d+)(?: to ([+-]\d+))?")

Numbers = namedtuple("Numbers", "lo hi least most")
Pointer = namedtuple("Pointer", "region lo hi")


def spanned(lo, hi):
    """The numbers of an unsigned range, with the signed range that it leaves."""
    if hi < SIGN:
        return Numbers(lo, hi, lo, hi)
    if lo >= SIGN:
        return Numbers(lo, hi, lo - WORD, hi - WORD)
    return Numbers(lo, hi, -SIGN, SIGN - 1)


def ends_of(text):
    return [int(end) for end in text.split("..")]


def value_of(text):
    """A value as rows have it: None where it is unset."""
    if text in ("unset", "-"):
        return None
    region, colon, reach = text.partition(":")
    if colon:
        return Pointer(region, *ends_of(reach))
    unsigned, comma, signed = text.partition(",")
    lo, hi = ends_of(unsigned)
    return Numbers(lo, hi, *ends_of(signed)) if comma else spanned(lo, hi)


def told_value(text):
    """A value as a graph tells it."""
    if text == "any number":
        return spanned(0, WORD - 1)
    pointer, numbers = POINTER.fullmatch(text), NUMBERS.fullmatch(text)
    if pointer:
        return Pointer(pointer[1], int(pointer[2]), int(pointer[3] or pointer[2]))
    if numbers is None:
        return spanned(int(text), int(text))
    lo, hi = int(numbers[1]), int(numbers[2])
    return Numbers(lo, hi, int(numbers[3]), int(numbers[4])) if numbers[3] else spanned(lo, hi)


def known_ahead(need, code):
    """What is known of the registers ahead of each block, by its slot. A register that is unset isn't there."""
    found = {}
    for line in telgovan.graph(need, code).splitlines():
        box = BOX.match(line)
        if box:
            lines = [part for part in re.split(r"<br[^>]*/>", box[2]) if part.startswith("r")]
            pairs = (part.split(" ", 1) for part in lines)
            found[int(box[1])] = {int(register[1:]): told_value(text) for register, text in pairs}
    return found


class Text:
    """A program that is written line by line, with jumps to labels. It keeps the part's pointer in
    R6 and its argument in R7; R2, R5 and R8 are for values under way."""

    def __init__(self):
        self.slot, self.lines, self.labels = 0, [], {}
        self.add("mov64 r6, r1", "mov64 r7, r3")

    def add(self, *lines, to=None):
        """Adds lines, of which one that jumps to a label stands without its offset."""
        for line in lines:
            self.lines.append((line, to, self.slot))
            self.slot += 2 if line.startswith("lddw") else 1
        return self.slot - 1

    def label(self, name):
        self.labels[name] = self.slot
        return self.slot

    def box(self):
        """Begins a block, whose slot is answered."""
        self.add("mov64 r5, 0", "jeq r5, 0, +0")
        return self.slot

    def out(self):
        """Ends the program. What isn't in a range that is wanted jumps here."""
        self.add("mov64 r0, 0")
        self.label("out")
        self.add("mov64 r0, 0", "exit")

    def code(self):
        texts = [line if to is None else f"{line}{self.labels[to] - slot - 1:+d}" for line, to, slot in self.lines]
        return telgovan.assemble("\n".join(texts))

    def numbers(self, register, wanted):
        """Narrows the argument to these numbers."""
        if wanted.lo == wanted.hi:
            self.add(f"lddw r{register}, {wanted.lo}")
            return
        self.add(f"mov64 r{register}, r7")
        reading = spanned(wanted.lo, wanted.hi)
        bounds = [("jlt", wanted.lo, 0), ("jgt", wanted.hi, WORD - 1)]
        bounds += [("jslt", wanted.least, reading.least), ("jsgt", wanted.most, reading.most)]
        for jump, bound, given in bounds:
            if bound != given:
                self.add(f"lddw r5, {bound % WORD}")
                self.add(f"{jump} r{register}, r5, ", to="out")

    def value(self, register, wanted):
        """Puts such a value into the register, which has none yet."""
        if isinstance(wanted, Numbers):
            self.numbers(register, wanted)
        elif wanted:
            base, start = ("r10", 512) if wanted.region == "stack" else ("r6", 0)
            lo, hi = wanted.lo - start, wanted.hi - start
            reading = spanned(lo % WORD, hi % WORD) if lo * hi > 0 or lo >= 0 else Numbers(0, WORD - 1, lo, hi)
            self.numbers(2, reading)
            self.add(f"mov64 r{register}, {base}", f"add64 r{register}, r2")

    def operands(self, line, first, second):
        """Puts the operands into the registers of the instruction, and answers its block."""
        registers = [int(number) for number in re.findall(r"\br(\d+)", line)]
        self.value(9, first)
        self.value(8, second)
        for register, wanted, source in zip(registers, (first, second), (9, 8)):
            if wanted:
                self.add(f"mov64 r{register}, r{source}")
        return self.box(), registers


class Ranges(unittest.TestCase):
    def holds(self, known, register, wanted):
        self.assertEqual(known.get(register), wanted)

    def program(self, text):
        """The program is accepted, and what is known in it."""
        code = text.code()
        telgovan.Program(8, code)
        return known_ahead(8, code)

    def check_operands(self, known, at, registers, *wanted):
        for register, value in zip(registers, wanted):
            if value:
                self.holds(known[at], register, value)

    def given(self, row):
        """What an instruction gives of two operands, or the number that it is refused by there."""
        kind, *operands = row.question
        first, second = map(value_of, operands)
        text = Text()
        at, registers = text.operands(row.program, first, second)
        text.add(row.program)
        behind = text.box()
        text.out()
        if row.answer.isdigit():
            with self.assertRaises(telgovan.Error) as caught:
                telgovan.Program(8, text.code())
            self.assertEqual((caught.exception.number, caught.exception.place), (int(row.answer), at))
            return
        known = self.program(text)
        self.check_operands(known, at, registers, first, second)
        found, wanted = known[behind].get(registers[0]), value_of(row.answer)
        if kind == "unsigned":
            found, wanted = found[:2], wanted[:2]
        self.assertEqual(found, wanted)

    def narrowed(self, row):
        """What an edge of a jump tells of its operands."""
        kind, *operands = row.question
        first, second = map(value_of, operands)
        jump, comma, _ = row.program.rpartition("+")
        text = Text()
        at, registers = text.operands(jump, first, second)
        text.add(jump, to="taken")
        passed = text.label("passed")
        text.add("mov64 r0, 0")
        text.add("ja ", to="out")
        taken = text.label("taken")
        text.out()
        wanted = [*map(value_of, row.answer.split())]
        known = self.program(text)
        self.check_operands(known, at, registers, first, second)
        self.check_operands(known, taken if kind == "taken" else passed, registers, *wanted)

    def joined(self, row):
        """What is known where two ways meet."""
        text = Text()
        text.add("jeq r2, 8, ", to="other")
        for number, value in enumerate(map(value_of, row.question[1:])):
            if number:
                text.add("ja ", to="met")
                text.label("other")
            text.value(9, value)
        text.add("mov64 r5, 0", "mov64 r2, 0")
        met = text.label("met")
        text.out()
        self.holds(self.program(text)[met], 9, value_of(row.answer))

    def loaded(self, row):
        text = Text()
        text.add(row.program)
        behind = text.box()
        text.out()
        self.holds(self.program(text)[behind], 0, value_of(row.answer))

    def entered(self, row):
        need, known = int(row.question[1]), row.answer.split()
        told = known_ahead(need, code_of("mov64 r0, 0 / exit"))[0]
        self.assertEqual([told.get(register) for register in range(11)], [*map(value_of, known)])

    KINDS = {"range": given, "unsigned": given, "taken": narrowed, "passed": narrowed}
    KINDS |= {"join": joined, "load": loaded, "entry": entered}

    def test_rows(self):
        for row in rows("ranges.txt"):
            with self.subTest(row.place):
                self.KINDS[row.question[0]](self, row)

class Slots(unittest.TestCase):
    """What is known of a register ahead of any slot, as it is explained where the instruction there isn't allowed."""

    def forbidden(self, line):
        """A line that leads where this one does, and isn't allowed."""
        if line == "exit":
            return "call 200\nexit"
        if line.startswith("j"):
            return re.sub(r"\br\d+", "r10", line, count=1)
        return "lddw r10, 0" if line.startswith("lddw") else "call 200"

    def explained(self, lines, slot, register):
        """None where no instruction begins."""
        places, at = {}, 0
        for number, line in enumerate(lines):
            places[at] = number
            at += 2 if line.startswith("lddw") else 1
        if slot not in places:
            return None
        others = lines[:places[slot]] + [self.forbidden(lines[places[slot]])] + lines[places[slot] + 1:]
        text = telgovan.explain(0, telgovan.assemble("\n".join(others)))
        self.assertIn(f" at slot {slot}\n", text)
        return re.search(rf"^  r{register} (.*)$", text, re.MULTILINE)[1]

    def test_rows(self):
        for row in rows("known.txt"):
            _, register, *slots = row.question
            lines = telgovan.disassemble(code_of(row.program)).splitlines()
            for slot, wanted in zip(slots, row.answer.split(), strict=True):
                with self.subTest(row.place, slot=slot):
                    found = self.explained(lines, int(slot), register)
                    if wanted in ("-", "unset"):
                        self.assertEqual(found, None if wanted == "-" else "unset")
                    else:
                        self.assertEqual(told_value(found), value_of(wanted))


if __name__ == "__main__":
    unittest.main()
