"""Whole jobs, which are trees of tasks, and jobs under way."""

from __future__ import annotations

from typing import Any, Iterable, SupportsIndex

from . import _calls
from ._arguments import (
    MANY,
    ReadableBuffer,
    WriteableBuffer,
    bytes_of,
    items_of,
    lent,
    number_of,
    of_kind,
)
from ._errors import Error, passed
from ._held import Held
from ._records import Report, Stepped, Task
from ._texts import roomy, steps_of, written


def _refusal_of(report: _calls.JobReport) -> Error:
    """Why a job is refused."""
    slot = report.slot if report.has_slot else None
    return Error(report.status, slot, report.program if report.has_program else None)


class Job:
    """The programs of a job by their places, each as (need, code). The first is the root's.

    A need is how many bytes of its part each task of the program needs, 0 to 65,536. There are 1 to
    16 programs. They are verified where the job is played, traced or opened. Those calls take the
    credit of the whole job, at most 2,147,483,647, and its buffer, of at most 65,536 bytes.

    Error of those calls, and nothing has changed: 61 no program, 62 over 16, 65 over a limit, 1 to
    38 of a program that isn't accepted, whose place is told, and its slot but by `trace`; 63 the
    credit is under the root's cost, 64 the buffer is shorter than the root's need, 99.

    >>> buffer = bytearray(2)
    >>> job = Job((2, assemble("mov64 r0, 7\\nstxb [r1+1], r0\\nexit")))
    >>> job.play(buffer, credit=5).returned, buffer[1]
    (2, 7)
    """

    _programs: tuple[Any, ...] = (b"", 0, (_calls.Piece * 1)(), 0)

    def __init__(self, *programs: Iterable[Any]) -> None:
        pairs = [items_of(program, "a program", 2) for program in programs]
        needs = [number_of(need, _calls.WORD, "need") for need, _ in pairs]
        codes = [bytes_of(code, "code") for _, code in pairs]
        pieces, start = (_calls.Piece * max(len(programs), 1))(), 0
        for piece, need, code in zip(pieces, needs, codes):
            piece.start, piece.length, piece.need = start, len(code), need
            start += len(code)
        # at once, since a thread may play the job meanwhile
        self._programs = (b"".join(codes), start, pieces, len(programs))

    def play(
        self, buffer: WriteableBuffer, credit: SupportsIndex, room: SupportsIndex = 1024
    ) -> Report:
        """Plays the job to its end on the buffer, in place, in this thread: always the live task of
        lowest number next. Of its tasks the first are told, up to `room` of them."""
        credit, room = number_of(credit, _calls.WORD, "credit"), number_of(room, 2**64, "room")
        if room > MANY:
            # so much is taken only where there are as many tasks
            room = min(room, self.play(bytearray(bytes_of(buffer, "memory")), credit, 0).count)
        tasks, report = (_calls.EndedTask * max(room, 1))(), _calls.JobReport()
        lent_room, size = lent(buffer)
        if _calls.job(*self._programs, credit, lent_room, size, tasks, room, report):
            raise _refusal_of(report)
        ended = tasks[: min(room, report.tasks)]
        told = [Task(*(getattr(task, name) for name in Task._fields)) for task in ended]
        return Report(report.spent, report.returned, report.tasks, told)

    def trace(
        self, buffer: ReadableBuffer, credit: SupportsIndex, schedule: Iterable[SupportsIndex]
    ) -> list[dict[str, Any]]:
        """The steps of the job on a copy of the buffer, along a schedule: the numbers of the tasks
        whose instruction is next, of which those that aren't alive are passed over. A step is as
        that of `telgovan.trace`, with its `task`, and `r0` where the task ends or `spawned` where
        it has a child: its number `task`, its `program`, `share`, `argument` and `bytes`."""
        tasks = items_of(schedule, "schedule")
        entries = [number_of(task, _calls.WORD, "a task") for task in tasks]
        numbers = (_calls.U32 * max(len(entries), 1))(*entries)
        given = self._given(buffer, credit)
        status, told, text = roomy(1 << 16, _calls.job_trace, *given, numbers, len(entries))
        if status:
            # the place is that of the program
            raise Error(status, None, told.place if told.has_place else None)
        return steps_of(text)

    def _given(self, buffer: ReadableBuffer, credit: SupportsIndex) -> tuple[Any, ...]:
        """The job on a copy of a buffer, as calls take it."""
        credit, buffer = number_of(credit, _calls.WORD, "credit"), bytes_of(buffer, "buffer")
        return (*self._programs, credit, buffer, len(buffer))

    def open(self, buffer: ReadableBuffer, credit: SupportsIndex) -> World:
        """The job at its start, on a copy of the buffer, as a World."""
        return World(self, buffer, credit)


class World(Held):
    """A job under way, of which the caller says whose instruction is next. Whatever the order is,
    the job comes to the same buffer and the same sums, where no spawn is refused.

    The arguments and refusals are those of a Job's calls.

    >>> with Job((2, assemble("stxb [r1+1], r2\\nmov64 r0, 7\\nexit"))).open(bytes(2), 5) as world:
    ...     while not (step := world.run(0)).is_complete:
    ...         print(step.held, step.used, world.buffer())
    5 1 b'\\x00\\x02'
    5 2 b'\\x00\\x02'
    """

    _HANDLE = _calls.WorldHandle
    _FREE = staticmethod(_calls.world_drop)

    def __init__(self, job: Job, buffer: ReadableBuffer, credit: SupportsIndex) -> None:
        given, report = of_kind(Job, job, "job")._given(buffer, credit), _calls.JobReport()
        with self._lock:
            status = _calls.world_open(*given, self._handle, report)
        if status:
            raise _refusal_of(report)

    def run(self, number: SupportsIndex, limit: SupportsIndex = 1) -> Stepped:
        """Runs the task of this number on: so many instructions at most, up to 4,294,967,295, or
        until it ends. Nothing runs where no task of the number is alive. Error: 41 the world is
        closed."""
        number = number_of(number, _calls.WORD, "number")
        limit, step = number_of(limit, _calls.WORD, "limit"), _calls.Step()
        with self._lock:
            passed(_calls.world_run(self._handle, number, limit, step))
        r0 = step.r0 if step.came_to == _calls.HAS_ENDED else None
        is_alive = step.came_to != _calls.SKIPPED
        told = (step.tasks, step.held, step.returned, step.spent, step.used)
        return Stepped(step.count, r0, is_alive, *told, bool(step.is_complete))

    def buffer(self) -> bytes:
        """The buffer as it is now. Error: 41 the world is closed, 99."""
        with self._lock:
            return written(1 << 14, _calls.world_buffer, self._handle)
