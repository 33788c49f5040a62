"""Calls each name of the module with arguments of wrong kinds and values, in this process.

    odd_arguments.py SEED CALLS NOTE

Each call is noted in the file NOTE before it is made, so that the last one is known if the process
ends. What the calls of each name came to is printed as JSON: `answered`, or the exception's kind.
"""

import array
import collections
import ctypes
import decimal
import faulthandler
import fractions
import io
import itertools
import json
import mmap
import os
import random
import resource
import sys

import telgovan
from telgovan import Desk, HostedTask, Job, Machine, Program, Report, Task, World, assemble

# No call has a reason to take as much memory. A call that tries ends by MemoryError.
MOST_MEMORY = 4 << 30

ADD = "ldxb r0, [r1+0]\nadd64 r0, r3\nstxb [r1+0], r0\nexit"
ASK = "mov64 r1, 7\nmov64 r2, r3\ncall 64\nmov64 r1, r0\ncall 65\nexit"
ARITIES = {64: 2, 65: 1}
CHILD = "mov64 r0, 7\nstxb [r1+1], r0\nexit"
# A root that spawns program 1 with a share of 10, and gives it the last 4 bytes.
ROOT = "mov64 r1, 1\nmov64 r2, 10\nmov64 r3, 4\nmov64 r4, 5\ncall 1\nmov64 r0, 3\nexit"


class Own(Exception):
    """An exception of an object of the caller's own."""


class Index:
    """A number, after something else has happened."""

    def __init__(self, number, first=lambda: None):
        self.number, self.first = number, first

    def __index__(self):
        self.first()
        return self.number


class Lying(int):
    """A number that says of each range that it is within."""

    def __lt__(self, _):
        return True

    __le__ = __gt__ = __ge__ = __eq__ = __lt__
    __hash__ = int.__hash__

    def __index__(self):
        return 3

    __int__ = __len__ = __index__


class Changing(list):
    """A sequence with another length, and other items, at each look."""

    def __init__(self, items):
        super().__init__(items)
        self.looks = itertools.count(1)

    def __len__(self):
        return 50 if next(self.looks) < 3 else 1 << 26

    def __iter__(self):
        return iter([*super().__iter__()] * ((next(self.looks) * 31) % 40))


class Raises:
    """Each look at it fails."""

    def fail(self, *_):
        raise Own

    __index__ = __int__ = __iter__ = __len__ = __getitem__ = __bool__ = __bytes__ = fail
    __contains__ = __call__ = __float__ = __str__ = fail


class Mapped(collections.abc.Mapping):
    """A mapping that has other keys at each look."""

    def __init__(self):
        self.looks = itertools.count(60)

    def __len__(self):
        return -1

    def __iter__(self):
        return iter([next(self.looks), 64])

    def __getitem__(self, key):
        return next(self.looks) % 7


class Sized:
    """A sequence that says that it is as long as can be."""

    def __len__(self):
        return 2**63 - 1

    __length_hint__ = __len__

    def __getitem__(self, place):
        if place > 3:
            raise IndexError
        return place


def released():
    view = memoryview(bytearray(4))
    view.release()
    return view


def framed(text):
    return len(text).to_bytes(4, "big") + text


NUMBERS = [-1, 0, 1, 2, 63, 64, 65, 127, 128, 255, 256, 1023, 65535, 65536, 65537, 1 << 20]
NUMBERS += [sign * 2**power + more for power in (31, 32, 40, 62, 63, 64, 200) for sign in (1, -1)
            for more in (-1, 0, 1)]

PLAIN = [
    *(lambda number=number: number for number in NUMBERS),
    lambda: None, lambda: True, lambda: 1.5, lambda: float("nan"), lambda: float("inf"),
    lambda: 1j, lambda: decimal.Decimal(3), lambda: fractions.Fraction(3), lambda: Ellipsis,
    lambda: NotImplemented, object, lambda: object, lambda: len, Raises, lambda: Raises,
    lambda: Lying(-1), lambda: Lying(2**70), lambda: Index(-1), lambda: Index(2**64),
    lambda: Index(1), lambda: Index("1"), lambda: collections.UserString("x"), Sized, Mapped,
    str, lambda: "x", lambda: "\ud800", lambda: "\0", lambda: "exit\n" * 5000, lambda: "[" * 9999,
    lambda: '{"programs":[],"credit":-1,"buffer":""}', lambda: '{"programs":7}', lambda: "[]",
    lambda: '{"programs":[{"need":1e9,"code":""}],"credit":9,"buffer":"z"}', lambda: "7",
    bytes, lambda: b"\xff" * 9, lambda: bytes(1 << 17), lambda: bytes(8 * 4096), lambda: b"\0\x95",
    bytearray, lambda: bytearray(1), lambda: bytearray(65536), lambda: bytearray(65537),
    lambda: memoryview(bytearray(64))[::2], lambda: memoryview(b"1234"), released,
    lambda: memoryview(bytearray(64))[8:16], lambda: memoryview(bytearray(64)).cast("B", (8, 8)),
    lambda: array.array("d", [1.0] * 4), lambda: array.array("u", "text"),
    lambda: mmap.mmap(-1, 64),
    lambda: array.array("I"), lambda: (ctypes.c_void_p * 4)(), lambda: (ctypes.py_object * 2)(),
    lambda: ctypes.create_string_buffer(16), lambda: (ctypes.c_uint32 * 4)(), ctypes.c_uint64,
    lambda: io.BytesIO(bytes(16)).getbuffer(), lambda: io.BytesIO(b"x"),
    lambda: ctypes.c_char_p(b"x"),
    list, tuple, dict, set, lambda: [0] * 200, lambda: range(9), lambda: range(2**62),
    lambda: itertools.repeat(0), lambda: iter([0, 0, 1]), lambda: (n for n in (0, 1)),
    lambda: [(0, 1)], lambda: [(0, 1, 2, 3)], lambda: [(0, 2**63, 0), (2**64 - 1, 1, 0)],
    lambda: Changing([0, 1]), lambda: Changing([(0, 1, 2)] * 5), lambda: [Changing([0, 1, 2])],
    lambda: Changing([Task(*[1] * 7)] * 5), lambda: Changing(b"ab"),
    lambda: Report(0, 0, 0, []), lambda: Report(*Task(*[0] * 7)[:4]),
    lambda: Report(1, 2, 3, Changing([Task(*[0] * 7)] * 9)), lambda: {63: 0}, lambda: {64: 9},
    lambda: {64: len}, lambda: {"64": 1}, lambda: collections.defaultdict(int),
]  # fmt: skip


class Objects:
    """Objects of the module, which calls are made of, and what is passed to these."""

    def __init__(self, seed):
        self.random = random.Random(seed)
        self.add, self.ask = assemble(ADD), assemble(ASK)
        self.root, self.child = assemble(ROOT), assemble(CHILD)
        self.spelled = '{"need":2,"code":"%s"}' % self.child.hex()
        self.renew()

    def renew(self):
        """New objects, none of which is closed."""
        program, asking = Program(1, self.add), Program(0, self.ask, ARITIES)
        task, job, desk = HostedTask(asking, 8), Job((0, self.root), (2, self.child)), Desk()
        self.text = '{"programs":[%s],"credit":9,"buffer":"0000"}' % self.spelled
        asked = ['{"op":"grant","tenant":"t","amount":500}']
        asked += ['{"op":"submit","tenant":"t",' + self.text[1:]] * 3
        client = desk.connect()
        desk.feed(client, b"".join(framed(it.encode()) for it in asked))
        # none is there for others until all are made
        self.memory, self.world = bytearray(range(8)), World(job, bytes(8), 40)
        self.program, self.asking, self.task, self.job = program, asking, task, job
        self.machine = Machine(program)
        self.desk, self.client, self.number = desk, client, 1

    def held(self):
        return [self.program, self.asking, self.task, self.world, self.desk]

    def close_one(self):
        self.random.choice(self.held()).close()

    def resize(self):
        """The memory gets another length, unless it is lent."""
        self.memory += bytes(self.random.randrange(9))
        del self.memory[: self.random.randrange(9)]

    def hook(self):
        """Something that happens in the middle of a call."""
        return self.random.choice(
            [self.close_one, self.resize, self.renew, lambda: self.task.go(self.memory),
             lambda: self.task.run(self.memory, self.helpers()), self.program.share,
             lambda: self.desk.replies(self.client), lambda: self.memory.clear()]
        )  # fmt: skip

    def helpers(self):
        """Callables that answer, and ones that answer oddly, after something else."""

        def answer(*_, first=self.hook()):
            if self.random.random() < 0.2:
                first()
            return self.odd() if self.random.random() < 0.3 else 5

        return {64: answer, 65: answer, **({66: answer} if self.random.random() < 0.5 else {})}

    def odd(self, depth=0):
        """A value that a call doesn't expect: by itself, or within one that it does."""
        made = self.random.randrange(24)
        within = lambda: self.odd(depth + 1)  # noqa: E731
        if depth > 2 or made > 8:
            return self.random.choice(PLAIN)()
        return [
            lambda: Index(self.random.choice(NUMBERS), self.hook()),
            lambda: self.random.choice([*self.held(), self.job, self.memory, self.helpers()]),
            lambda: [within()] * self.random.randrange(4),
            lambda: (within(), within(), within()),
            lambda: [(0, 1, 2), (within(), within(), within())],
            lambda: {self.random.choice([64, 65, 127]): within()},
            lambda: Report(within(), within(), within(), within()),
            lambda: Report(1, 8, 1, [Task(*(within() for _ in Task._fields))]),
            lambda: (lambda kind: kind.__new__(kind))(type(self.random.choice(self.held()))),
        ][made]()

    def near(self, value):
        """A value of the same sort as one that a call expects, where there is such a sort."""
        if isinstance(value, int):
            number = self.random.choice(NUMBERS)
            return self.random.choice([number, Lying(number), Index(number, self.hook())])
        if isinstance(value, (bytes, bytearray)):
            size = self.random.choice([0, 1, 7, 8, 9, 64, 65536, 65537])
            return type(value)(bytes(self.random.choices([0, 5, 0x95], k=9)) * size)[:size]
        if isinstance(value, (list, tuple)):
            items = [it if self.random.random() < 0.5 else self.near(it) for it in value]
            return self.random.choice([Changing(items), items[1:], items * 3, tuple(items)])
        if isinstance(value, dict):
            return {self.random.choice([*value, *NUMBERS]): self.near(it) for it in value.values()}
        return self.odd()

    def calls(self):
        """Each call by its name, with arguments that it expects."""
        add, ask, shown = self.add, self.ask, Report(3, 6, 1, [Task(0, 0, 0, 9, 3, 6, 7)])
        root, child = (0, self.root), (2, self.child)
        frame, memory = framed(b'{"op":"account","tenant":"t"}'), self.memory
        again = {
            "Program.__init__": (self.program.__init__, 1, add),
            "HostedTask.__init__": (self.task.__init__, self.asking, 8),
            "Job.__init__": (self.job.__init__, root, child),
            "World.__init__": (self.world.__init__, self.job, bytes(8), 40),
            "Desk.__init__": (self.desk.__init__,),
        }
        return {
            "assemble": (telgovan.assemble, ADD),
            "disassemble": (telgovan.disassemble, add),
            "explain": (telgovan.explain, 0, add, ADD),
            "graph": (telgovan.graph, 1, add, ADD),
            "trace": (telgovan.trace, 1, add, memory, 3, 99, ADD),
            "run_once": (telgovan.run_once, 1, add, memory, 3, 99),
            "play_text": (telgovan.play_text, self.text),
            "Program": (Program, 0, ask, ARITIES),
            "Program.execute": (self.program.execute, memory, 3, 99),
            "Program.burst": (self.program.burst, memory, [(0, 4, 1), (4, 4, 2)], 99),
            "Program.share": (self.program.share,),
            "Program.close": (self.program.close,),
            "HostedTask": (HostedTask, self.asking, len(memory), 3, 99),
            "HostedTask.go": (self.task.go, memory, self.random.choice([3, None]), 2),
            "HostedTask.run": (self.task.run, memory, self.helpers()),
            "HostedTask.close": (self.task.close,),
            "Machine": (Machine, self.program),
            "Machine.execute": (self.machine.execute, memory, 3, 99),
            "Machine.burst": (self.machine.burst, memory, [(0, 4, 1), (4, 4, 2)], 99),
            "Machine.close": (self.machine.close,),
            "Job": (Job, root, child),
            "Job.play": (self.job.play, memory, 40, 9),
            "Job.trace": (self.job.trace, memory, 40, [0, 0, 0, 0, 0, 1, 0, 1]),
            "Job.open": (self.job.open, memory, 40),
            "World": (World, self.job, memory, 40),
            "World.run": (self.world.run, 0, 3),
            "World.buffer": (self.world.buffer,),
            "World.close": (self.world.close,),
            "Desk": (Desk,),
            "Desk.connect": (self.desk.connect,),
            "Desk.feed": (self.desk.feed, self.client, frame),
            "Desk.replies": (self.desk.replies, self.client, 4096),
            "Desk.disconnect": (self.desk.disconnect, self.client),
            "Desk.next_job": (self.desk.next_job,),
            "Desk.finish": (self.desk.finish, self.number, shown, b"\0\7"),
            "Desk.fail": (self.desk.fail, self.number, 99),
            "Desk.close": (self.desk.close,),
            **again,
        }

    def keep(self, made):
        """Lets the next calls have what a call answered."""
        for name in ("program", "task", "job", "world", "desk"):
            if type(made) is type(getattr(self, name)) and self.random.random() < 0.5:
                setattr(self, name, made)
        if isinstance(made, telgovan.HandedJob):
            self.number = made.number

    def next_call(self):
        """A call's name, its callable and its arguments, of which some are odd."""
        name, (call, *given) = self.random.choice([*self.calls().items()])
        share = self.random.choice([0, 0.2, 0.2])
        other = self.random.choice([self.near, lambda _: self.odd()])
        if given and share:
            place = self.random.randrange(len(given))
            given[place] = other(given[place])
        return name, call, [other(it) if self.random.random() < share else it for it in given]


def spelled(value):
    """The note of an argument, whose own methods may fail."""
    return f"{value!r:.60}" if type(value) in (int, str, bytes, bytearray) else type(value).__name__


def come_to(call, given, objects):
    """The end of a call: `answered`, or the kind of its exception."""
    try:
        objects.keep(call(*given))
    except ValueError:
        return "ValueError"  # also where Python has a narrower one
    except Exception as error:
        return type(error).__name__
    return "answered"


def main(seed, count, note):
    resource.setrlimit(resource.RLIMIT_AS, (MOST_MEMORY, MOST_MEMORY))
    resource.setrlimit(resource.RLIMIT_CORE, (0, 0))
    faulthandler.enable()
    objects, came = Objects(seed), collections.defaultdict(collections.Counter)
    firsts, notes = {}, os.open(note, os.O_WRONLY | os.O_CREAT)
    for number in range(count):
        if objects.random.random() < 0.05:
            objects.renew()
        name, call, given = objects.next_call()
        told = f"call {number}: {name}({', '.join(map(spelled, given))})"
        os.pwrite(notes, told.encode("utf-8", "replace")[:999].ljust(999) + b"\n", 0)
        kind = come_to(call, given, objects)
        came[name][kind] += 1
        firsts.setdefault(kind, told)
    print(json.dumps({"came": came, "firsts": firsts}))


if __name__ == "__main__":
    main(int(sys.argv[1]), int(sys.argv[2]), sys.argv[3])
