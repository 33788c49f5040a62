"""The declarations of include/telgovan.h, as far as this package calls them: structures, and
functions without the `telgovan_` that each name begins with."""

from __future__ import annotations

import ctypes
from typing import Any, Callable

from ._library import ADVICE, LIBRARY

U32, U64, BOOL = ctypes.c_uint32, ctypes.c_uint64, ctypes.c_bool

# The number of values of a word of 32 bits.
WORD = 2**32

# No helper is of this id.
NO_HELPER = WORD - 1

# The kinds of event, and what a run of a job's task came to.
ASKS, ENDED = 1, 2
SKIPPED, HAS_ENDED = 0, 2

# ---- structures


class Verdict(ctypes.Structure):
    """struct telgovan_verdict"""

    status: int
    cost: int
    slot: int
    has_slot: bool
    _fields_ = [("status", U32), ("cost", U32), ("slot", U32), ("has_slot", BOOL)]


class Written(ctypes.Structure):
    """struct telgovan_written"""

    length: int
    place: int
    status: int
    has_place: bool
    _fields_ = [("length", U64), ("place", U64), ("status", U32), ("has_place", BOOL)]


class Outcome(ctypes.Structure):
    """struct telgovan_outcome"""

    r0: int
    status: int
    used: int
    _fields_ = [("r0", U64), ("status", U32), ("used", U32)]


class Run(ctypes.Structure):
    """struct telgovan_run"""

    start: int
    length: int
    argument: int
    outcome: Outcome
    _fields_ = [("start", U64), ("length", U64), ("argument", U64), ("outcome", Outcome)]


class ProgramHandle(ctypes.Structure):
    """struct telgovan_program, whose fields are the library's"""

    _fields_ = [("held", ctypes.c_void_p), ("loaded", BOOL)]


class TaskHandle(ctypes.Structure):
    """struct telgovan_task_handle, whose fields are the library's"""

    _fields_ = [("held", ctypes.c_void_p), ("started", BOOL)]


class WorldHandle(ctypes.Structure):
    """struct telgovan_world, whose fields are the library's"""

    _fields_ = [("held", ctypes.c_void_p), ("opened", BOOL)]


class DeskHandle(ctypes.Structure):
    """struct telgovan_desk, whose fields are the library's"""

    _fields_ = [("held", ctypes.c_void_p), ("made", BOOL)]


class Event(ctypes.Structure):
    """struct telgovan_event"""

    r0: int
    arguments: ctypes.Array[ctypes.c_uint64]
    status: int
    kind: int
    helper: int
    used: int
    _fields_ = [
        ("r0", U64),
        ("arguments", U64 * 5),
        ("status", U32),
        ("kind", U32),
        ("helper", U32),
        ("used", U32),
    ]


class Piece(ctypes.Structure):
    """struct telgovan_piece"""

    start: int
    length: int
    need: int
    _fields_ = [("start", U64), ("length", U64), ("need", U32)]


class EndedTask(ctypes.Structure):
    """struct telgovan_task"""

    argument: int
    r0: int
    number: int
    program: int
    given: int
    spent: int
    returned: int
    _fields_ = [
        ("argument", U64),
        ("r0", U64),
        ("number", U32),
        ("program", U32),
        ("given", U32),
        ("spent", U32),
        ("returned", U32),
    ]


class JobReport(ctypes.Structure):
    """struct telgovan_report"""

    tasks: int
    status: int
    spent: int
    returned: int
    program: int
    slot: int
    has_program: bool
    has_slot: bool
    _fields_ = [
        ("tasks", U64),
        ("status", U32),
        ("spent", U32),
        ("returned", U32),
        ("program", U32),
        ("slot", U32),
        ("has_program", BOOL),
        ("has_slot", BOOL),
    ]


class Step(ctypes.Structure):
    """struct telgovan_step"""

    r0: int
    status: int
    came_to: int
    count: int
    tasks: int
    held: int
    returned: int
    spent: int
    used: int
    is_complete: bool
    _fields_ = [
        ("r0", U64),
        ("status", U32),
        ("came_to", U32),
        ("count", U32),
        ("tasks", U32),
        ("held", U32),
        ("returned", U32),
        ("spent", U32),
        ("used", U32),
        ("is_complete", BOOL),
    ]


class Sent(ctypes.Structure):
    """struct telgovan_sent"""

    count: int
    left: int
    _fields_ = [("count", U64), ("left", U64)]


class Handed(ctypes.Structure):
    """struct telgovan_handed"""

    job: int
    length: int
    _fields_ = [("job", U64), ("length", U64)]


# ---- functions


def declared(name: str, *shape: Any, answers: Any = U32) -> Callable[..., Any]:
    """A function of the library, as its header declares it."""
    try:
        function = getattr(LIBRARY, f"telgovan_{name}")
    except AttributeError:
        message = f"{LIBRARY._name} has no telgovan_{name}: it is of another version\n{ADVICE}"
        raise ImportError(message, name="telgovan", path=LIBRARY._name) from None
    function.argtypes, function.restype = shape, answers
    return function  # type: ignore[no-any-return]


READ = (ctypes.c_char_p, ctypes.c_size_t)  # bytes that are read
ROOM = (ctypes.c_void_p, ctypes.c_size_t)  # bytes that are written
WRITTEN = ctypes.POINTER(Written)
OUTCOME = ctypes.POINTER(Outcome)
REPORT = ctypes.POINTER(JobReport)
NUMBERS = (ctypes.POINTER(U32), ctypes.c_size_t)
TASKS = (ctypes.POINTER(EndedTask), ctypes.c_size_t)
# a job's code, its programs in that, its credit and its buffer
JOB = (*READ, ctypes.POINTER(Piece), ctypes.c_size_t, U32)

assemble = declared("assemble", *READ, *ROOM, WRITTEN)
disassemble = declared("disassemble", *READ, *ROOM, WRITTEN)
explain = declared("explain", U32, *READ, *READ, *ROOM, WRITTEN)
graph = declared("graph", U32, *READ, *READ, *ROOM, WRITTEN)
trace = declared("trace", U32, *READ, *READ, U32, U64, *READ, *ROOM, WRITTEN)
run = declared("run", U32, *READ, U32, U64, *ROOM, OUTCOME)

PROGRAM, VERDICT = ctypes.POINTER(ProgramHandle), ctypes.POINTER(Verdict)
program_load = declared("program_load", U32, *READ, PROGRAM, VERDICT)
program_load_with = declared("program_load_with", U32, *READ, *NUMBERS, PROGRAM, VERDICT)
program_run = declared("program_run", PROGRAM, U32, U64, *ROOM, OUTCOME)
program_burst = declared(
    "program_burst", PROGRAM, U32, *ROOM, ctypes.POINTER(Run), ctypes.c_size_t
)
program_share = declared("program_share", PROGRAM, PROGRAM)
program_unload = declared("program_unload", PROGRAM, answers=None)

TASK = ctypes.POINTER(TaskHandle)
task_start = declared("task_start", PROGRAM, U32, U64, ctypes.c_size_t, TASK)
task_go = declared("task_go", TASK, U64, *ROOM, U32, ctypes.POINTER(Event))
task_drop = declared("task_drop", TASK, answers=None)

job = declared("job", *JOB, *ROOM, *TASKS, REPORT)
job_trace = declared("job_trace", *JOB, *READ, *NUMBERS, *ROOM, WRITTEN)

WORLD = ctypes.POINTER(WorldHandle)
world_open = declared("world_open", *JOB, *READ, WORLD, REPORT)
world_run = declared("world_run", WORLD, U32, U32, ctypes.POINTER(Step))
world_buffer = declared("world_buffer", WORLD, *ROOM, WRITTEN)
world_drop = declared("world_drop", WORLD, answers=None)

DESK = ctypes.POINTER(DeskHandle)
desk_new = declared("desk_new", DESK)
desk_connect = declared("desk_connect", DESK, ctypes.POINTER(U64))
desk_feed = declared("desk_feed", DESK, U64, *READ)
desk_replies = declared("desk_replies", DESK, U64, *ROOM, ctypes.POINTER(Sent))
desk_disconnect = declared("desk_disconnect", DESK, U64)
desk_next_job = declared("desk_next_job", DESK, *ROOM, ctypes.POINTER(Handed))
desk_finish = declared("desk_finish", DESK, U64, REPORT, *READ, *TASKS)
desk_free = declared("desk_free", DESK, answers=None)
