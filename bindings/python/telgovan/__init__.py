"""Verifies eBPF programs and runs them on memory that is lent, within a credit.

The library behind it, libtelgovan.so, is proved: a program that is accepted never leaves its memory
and ends within its cost. A program is verified once and runs many times:

>>> code = assemble("ldxb r0, [r1+0]\\nmov64 r2, r0\\nadd64 r2, r3\\nstxb [r1+0], r2\\nexit")
>>> program = Program(1, code)
>>> memory = bytearray([40])
>>> program.execute(memory, argument=2)
Executed(r0=40, used=5)
>>> memory[0]
42

What isn't accepted is refused by an Error, with the one reason why not:

>>> try:
...     Program(0, code)
... except Error as error:
...     print(error)
refused 33 at slot 0: an access may leave the bytes of the part that the program needs

A program may call helpers of the host's, and runs as a task, which stops where it asks:

>>> asking = Program(0, assemble("mov64 r1, 40\\nmov64 r2, 2\\ncall 64\\nexit"), {64: 2})
>>> HostedTask(asking, 0).run(bytearray(), {64: lambda first, second, *_: first + second})
Executed(r0=42, used=11)

A job is a tree of tasks, which share its credit and its buffer:

>>> report = Job((1, code)).play(memory, credit=7)
>>> report.spent, report.returned, report.count, report.tasks[0].r0
(5, 2, 1, 42)

Texts      assemble, disassemble, explain, graph, trace
Runs       run_once, Program, Machine, Executed
Helpers    HostedTask, Asked
Jobs       Job, World, Report, Task, Stepped
Clients    Desk, HandedJob, play_text
Refusals   Error

Memory is a bytearray, a memoryview of one, an array, a numpy array or whatever else gives its bytes
to be written, without gaps. It is lent and not copied, and TypeError refuses what is read-only.
Bytes that are only read are copied. What is held is let go of by `close`, by `with`, or with its
last reference. bindings/python/README.md has the rules of arguments. """

from ._desks import Desk, play_text
from ._errors import Error
from ._hosted import HostedTask
from ._jobs import Job, World
from ._programs import Machine, Program, run_once
from ._records import Asked, Executed, HandedJob, Report, Stepped, Task
from ._texts import assemble, disassemble, explain, graph, trace

__all__ = [
    "Asked",
    "Desk",
    "Error",
    "Executed",
    "HandedJob",
    "HostedTask",
    "Job",
    "Machine",
    "Program",
    "Report",
    "Stepped",
    "Task",
    "World",
    "assemble",
    "disassemble",
    "explain",
    "graph",
    "play_text",
    "run_once",
    "trace",
]

__version__ = "0.1.0"

# They are of this package, whichever of its modules has them: help, pickle and tracebacks say so.
for _name in __all__:
    globals()[_name].__module__ = __name__
del _name
