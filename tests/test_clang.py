"""Filters in C: what clang makes of them, beside the bytes of examples/clang and beside the same functions of this machine.

Where there is no clang that knows BPF, the bytes that are there are tried alone."""

import ctypes
import random
import re
import shutil
import subprocess
import tempfile
import unittest
from pathlib import Path

import programs
from programs import telgovan
from rows import fields, refusal

FOLDER = Path(programs.TOP) / "examples/clang"
EXAMPLES = FOLDER.parent
TUTORIAL = EXAMPLES / "tutorial"
PAGE = Path(programs.TOP) / "docs/compiling.md"
LEVELS = ("-O1", "-O2", "-O3")
PROCESSORS = ("-mcpu=v1", "-mcpu=v2", "-mcpu=v3")
# the clang that made the bytes of examples/clang, and the page's verdicts
VERSION = "14.0.6"
MEMORIES = 300


def tool(*names):
    return next((name for name in names if shutil.which(name)), None)


CLANG, OBJCOPY = tool("clang-14", "clang"), tool("llvm-objcopy-14", "llvm-objcopy")


def clang_version():
    if not CLANG or not OBJCOPY:
        return None
    targets = subprocess.run([CLANG, "-print-targets"], capture_output=True, text=True, check=False).stdout
    if "bpfel" not in targets:
        return None
    return re.search(r"clang version (\S+)", subprocess.run([CLANG, "--version"], capture_output=True, text=True, check=True).stdout)[1]


FOUND = clang_version()


def memory_of(text):
    """A file of examples, or bytes in hexadecimal, in which a word may be repeated."""
    if text.endswith(".bin"):
        return bytearray((EXAMPLES / text).read_bytes())
    made = bytearray()
    for word in text.split():
        piece, _, times = word.partition("*")
        made += bytes.fromhex(piece) * int(times or 1)
    return made


def compiled(source, flags):
    """The bytes of the code in the object that clang makes."""
    with tempfile.TemporaryDirectory() as room:
        made = Path(room) / "made"
        subprocess.run([CLANG, *flags, "-target", "bpf", "-c", str(source), "-o", f"{made}.o"], check=True, capture_output=True)
        subprocess.run([OBJCOPY, "-O", "binary", "--only-section=.text", f"{made}.o", f"{made}.bin"], check=True)
        return Path(f"{made}.bin").read_bytes()


def ran(need, code, memory, argument):
    """R0, and what is left of the memory."""
    lent = bytearray(memory)
    done = telgovan.Machine(telgovan.Program(need, code)).execute(lent, argument=argument)
    return done.r0, bytes(lent)


class Row:
    def __init__(self, place, parts):
        name, flags, need, argument, memory, r0, left = parts
        self.place, self.name, self.flags = place, name, flags.split()
        self.need, self.argument, self.r0 = int(need), int(argument), int(r0)
        self.memory = memory_of(memory)
        self.left = memory_of(left) if left else self.memory
        self.source = FOLDER / f"{name}.c"
        self.code = (FOLDER / f"{name}.bin").read_bytes()


ROWS = [Row(place, parts) for place, parts in fields("filters.txt", 7)]
FILTERS = {row.name: row for row in ROWS}


def memories(name):
    """Memories near those of a filter's rows, so that many of its ways are gone."""
    chance = random.Random(name)
    seeds = [row.memory for row in ROWS if row.name == name]
    for _ in range(MEMORIES):
        memory = bytearray(chance.choice(seeds)) + bytes(chance.choice([0, 0, 3]))
        for _ in range(chance.choice([0, 1, 2, 8])):
            memory[chance.randrange(len(memory))] = chance.randrange(256)
        if chance.random() < 0.1:
            memory = bytearray(chance.randbytes(len(memory)))
        yield memory, chance.choice([0, 1, 7, 53, chance.randrange(2**64)])


class Bytes(unittest.TestCase):
    def test_each_row(self):
        for row in ROWS:
            with self.subTest(row.place):
                self.assertEqual(ran(row.need, row.code, row.memory, row.argument), (row.r0, bytes(row.left)))

    def test_each_source_has_its_bytes_and_rows(self):
        self.assertEqual({path.stem for path in FOLDER.glob("*.c")}, set(FILTERS))
        self.assertEqual({path.stem for path in FOLDER.glob("*.bin")}, set(FILTERS))

    def test_none_needs_less(self):
        """The need of a row is the least with which the filter is accepted."""
        for row in FILTERS.values():
            with self.subTest(row.name):
                with self.assertRaises(telgovan.Error):
                    telgovan.Program(row.need - 1, row.code)

    @unittest.skipUnless(shutil.which("cc"), "needs Debian's gcc or clang")
    def test_beside_the_functions_of_this_machine(self):
        with tempfile.TemporaryDirectory() as room:
            for row in FILTERS.values():
                shared = Path(room) / f"{row.name}.so"
                subprocess.run(["cc", "-O1", "-shared", "-fPIC", "-o", str(shared), str(row.source)], check=True)
                native = ctypes.CDLL(str(shared)).filter
                native.restype, native.argtypes = ctypes.c_ulong, [ctypes.c_void_p, ctypes.c_ulong, ctypes.c_ulong]
                self.check_beside(native, row)

    def check_beside(self, native, row):
        for memory, argument in memories(row.name):
            if len(memory) < row.need:
                continue
            lent = ctypes.create_string_buffer(bytes(memory), len(memory))
            wanted = native(lent, len(memory), argument), lent.raw
            with self.subTest(row.name, memory=memory.hex(), argument=argument):
                self.assertEqual(ran(row.need, row.code, memory, argument), wanted)


@unittest.skipUnless(FOUND, "needs Debian's clang and llvm")
class Anew(unittest.TestCase):
    def test_the_bytes_are_made_anew(self):
        for row in FILTERS.values():
            with self.subTest(row.name):
                code = compiled(row.source, row.flags)
                if FOUND == VERSION:
                    self.assertEqual(code, row.code)
                self.check_same(row, code)

    def test_at_each_level(self):
        for row in FILTERS.values():
            for level in LEVELS:
                for processor in PROCESSORS:
                    with self.subTest(row.name, level=level, processor=processor):
                        self.check_same(row, compiled(row.source, [level, processor]))

    def check_same(self, row, code):
        """It is accepted, and comes to what the bytes of examples/clang come to."""
        machine = telgovan.Machine(telgovan.Program(row.need, code))
        kept = telgovan.Machine(telgovan.Program(row.need, row.code))
        for memory, argument in memories(row.name):
            if len(memory) < row.need:
                continue
            left, wanted = bytearray(memory), bytearray(memory)
            self.assertEqual(machine.execute(left, argument=argument).r0, kept.execute(wanted, argument=argument).r0)
            self.assertEqual(left, wanted)


@unittest.skipUnless(FOUND == VERSION, f"the tutorial's bytes are what clang {VERSION} makes")
class Tutorial(unittest.TestCase):
    def test_the_bytes_are_made_anew(self):
        sources = sorted(TUTORIAL.glob("*.c"))
        self.assertGreater(len(sources), 3)
        for source in sources:
            with self.subTest(source.name):
                self.assertEqual(compiled(source, ["-O2", "-mcpu=v3"]), source.with_suffix(".bin").read_bytes())


# ---- the page: `name.c`, flags, need N: the verdict, and then the source

CASE = re.compile(r"^`(\w+\.c)`, `([^`]+)`, need (\d+): (accepted, cost \d+|refused \d+(?: at \d+)?)\n\n```c\n(.*?)^```$", re.MULTILINE | re.DOTALL)


def verdict(need, code):
    try:
        return f"accepted, cost {telgovan.Program(need, code).cost}"
    except telgovan.Error as error:
        return f"refused {refusal(error.code, error.slot)}"


@unittest.skipUnless(FOUND == VERSION, f"the page's verdicts are on what clang {VERSION} makes")
class Page(unittest.TestCase):
    def test_each_source_of_the_page_has_its_verdict(self):
        cases = CASE.findall(PAGE.read_text(encoding="utf-8"))
        self.assertGreater(len(cases), 10)
        with tempfile.TemporaryDirectory() as room:
            for name, flags, need, wanted, text in cases:
                with self.subTest(name):
                    source = Path(room) / name
                    source.write_text(text, encoding="utf-8")
                    self.assertEqual(verdict(int(need), compiled(source, flags.split())), wanted)
