"""Memory that is lent and not copied: memoryviews, arrays and numpy's arrays."""

import array
import mmap
import tracemalloc
import unittest

from telgovan import HostedTask, Job, Program, assemble, run_once, trace

try:
    import numpy
except ImportError:
    numpy = None

NUMPY = unittest.skipIf(numpy is None, "numpy isn't there: Debian's python3-numpy has it")

# Writes the argument to the first byte, and answers the length of the memory.
STORE = assemble("stxb [r1+0], r3\nmov64 r0, r2\nexit")
# Writes what a helper answers to the first byte.
ASK = assemble("mov64 r6, r1\ncall 64\nstxb [r6+0], r0\nmov64 r0, 0\nexit")


def writers():
    """Each call that writes memory, by its name. It puts 7 into the first byte."""
    program, asking = Program(1, STORE), Program(1, ASK, {64: 0})

    def goes(memory):
        task = HostedTask(asking, memoryview(memory).nbytes)
        task.go(memory)
        task.go(memory, answer=7)

    def runs(memory):
        HostedTask(asking, memoryview(memory).nbytes).run(memory, {64: lambda *_: 7})

    job = Job((1, assemble("stb [r1+0], 7\nmov64 r0, 0\nexit")))
    return {
        "execute": lambda memory: program.execute(memory, 7),
        "burst": lambda memory: program.burst(memory, [(0, 1, 7)]),
        "run_once": lambda memory: run_once(1, STORE, memory, 7),
        "go": goes,
        "run": runs,
        "play": lambda memory: job.play(memory, 9),
    }


class Lending(unittest.TestCase):
    def check(self, make):
        """Each call writes the first byte of what is made in place, and leaves the others."""
        for name, write in writers().items():
            with self.subTest(name):
                memory = make()
                before = memoryview(memory).tobytes()
                write(memory)
                self.assertEqual(memoryview(memory).tobytes(), b"\7" + before[1:])

    def refused(self, make, words):
        for name, write in writers().items():
            with self.subTest(name):
                memory = make()
                before = memoryview(memory).tobytes()
                with self.assertRaisesRegex(TypeError, words):
                    write(memory)
                self.assertEqual(memoryview(memory).tobytes(), before)

    def not_copied(self, memory):
        """No call asks Python for as much as the memory has."""
        size = memoryview(memory).nbytes
        for name, write in writers().items():
            if name in ("go", "run"):
                continue  # which hold a Task of their own
            with self.subTest(name):
                write(memory)
                tracemalloc.start()
                write(memory)
                _, most = tracemalloc.get_traced_memory()
                tracemalloc.stop()
                self.assertLess(most, size)


class Python(Lending):
    def test_what_python_has(self):
        self.check(lambda: bytearray(range(1, 9)))
        self.check(lambda: memoryview(bytearray(range(1, 9))))
        self.check(lambda: array.array("I", [1, 2]))
        self.check(lambda: mmap.mmap(-1, 64))

    def test_part_of_a_memory(self):
        for name, write in writers().items():
            whole = bytearray(range(16))
            write(memoryview(whole)[4:8])
            self.assertEqual(whole, bytes([0, 1, 2, 3, 7]) + bytes(range(5, 16)), name)

    def test_a_view_of_several_dimensions(self):
        self.check(lambda: memoryview(bytearray(64)).cast("B", (8, 8)))

    def test_what_is_read_only(self):
        self.refused(lambda: bytes(8), "read-only")
        self.refused(lambda: memoryview(bytearray(8)).toreadonly(), "read-only")

    def test_what_has_gaps(self):
        self.refused(lambda: memoryview(bytearray(8))[::2], "gaps")

    def test_nothing_is_copied(self):
        self.not_copied(bytearray(65536))
        self.not_copied(memoryview(bytearray(65536)))

    def test_it_may_be_resized_afterwards(self):
        for write in writers().values():
            memory = bytearray(8)
            write(memory)
            memory.append(1)


@NUMPY
class Numpy(Lending):
    def test_plain_numbers(self):
        for kind in "uint8 int8 bool uint16 int32 uint64 float16 float32 float64 >u4 <i2".split():
            self.check(lambda kind=kind: numpy.ones(8, kind))

    def test_a_slice_is_written_in_place(self):
        for name, write in writers().items():
            whole = numpy.arange(16, dtype="uint8")
            write(whole[4:8])
            self.assertEqual(whole.tolist(), [0, 1, 2, 3, 7, *range(5, 16)], name)

    def test_rows_and_planes(self):
        self.check(lambda: numpy.ones((4, 4), "uint8"))
        self.check(lambda: numpy.ones((2, 3, 4), "uint16"))
        self.check(lambda: numpy.array(258, "uint16"))

    def test_packets_of_a_batch(self):
        """Each row of an array is a packet."""
        batch = numpy.zeros((3, 64), "uint8")
        pieces = numpy.array([[64 * row, 64, row + 1] for row in range(3)])
        runs = Program(1, STORE).burst(batch, pieces)
        self.assertEqual([run.r0 for run in runs], [64] * 3)
        self.assertEqual(batch[:, 0].tolist(), [1, 2, 3])

    def test_an_empty_array(self):
        program = Program(0, assemble("mov64 r0, r2\nexit"))
        self.assertEqual(program.execute(numpy.zeros(0, "uint8")).r0, 0)

    def test_what_is_read_only(self):
        def frozen():
            made = numpy.ones(8, "uint8")
            made.flags.writeable = False
            return made

        self.refused(frozen, "read-only")
        self.refused(lambda: numpy.frombuffer(bytes(8), "uint8"), "read-only")
        self.refused(lambda: numpy.broadcast_to(numpy.ones(1, "uint8"), (8,)), "read-only")

    def test_what_has_gaps(self):
        self.refused(lambda: numpy.ones(16, "uint8")[::2], "gaps")
        self.refused(lambda: numpy.ones((4, 4), "uint8")[:, :2], "gaps")
        self.refused(lambda: numpy.ones((4, 4), "uint8", order="F"), "gaps")

    def test_what_is_no_plain_number(self):
        self.refused(lambda: numpy.ones(2, "complex64"), "no plain numbers")
        self.refused(lambda: numpy.zeros(2, [("a", "u1"), ("b", "u4")]), "no plain numbers")
        for kind in ("datetime64[s]", "O"):
            with self.assertRaises(TypeError):
                Program(1, STORE).execute(numpy.zeros(2, kind), 7)

    def test_nothing_is_copied(self):
        self.not_copied(numpy.zeros(65536, "uint8"))
        self.not_copied(numpy.zeros((128, 128), "uint32"))

    def test_what_is_only_read_may_be_read_only(self):
        frozen = numpy.frombuffer(bytes([40, 2]), "uint8")
        sums = assemble("ldxb r0, [r1+0]\nldxb r2, [r1+1]\nadd64 r0, r2\nexit")
        self.assertEqual(trace(2, sums, frozen)[2]["registers"], {"r0": "42"})
        with Job((2, sums)).open(frozen, 9) as world:
            self.assertEqual((world.run(0, 9).r0, world.buffer()), (42, frozen.tobytes()))
        code = numpy.frombuffer(sums, "uint8")
        self.assertEqual(Program(2, code).execute(bytearray([40, 2])).r0, 42)

    def test_its_numbers_are_whole_numbers(self):
        program = Program(numpy.int64(1), STORE)
        memory = numpy.zeros(4, "uint8")
        self.assertEqual(program.execute(memory, numpy.uint8(9), numpy.int32(3)).used, 3)
        self.assertEqual(memory.tolist(), [9, 0, 0, 0])
        self.assertRaises(TypeError, program.execute, memory, numpy.float64(9))


if __name__ == "__main__":
    unittest.main()
