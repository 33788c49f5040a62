"""Desks: accounts and jobs of many clients, whatever carries their bytes."""

from __future__ import annotations

import ctypes
import json
from typing import Any, Optional, SupportsIndex, Union

from . import _calls
from ._arguments import MANY, ReadableBuffer, bytes_of, items_of, number_of, of_kind
from ._errors import passed
from ._held import Held
from ._jobs import Job
from ._records import HandedJob, Report, Task


def _job_of(text: Union[str, bytes]) -> tuple[Job, int, bytes]:
    """The job that an object says, its credit and its buffer."""
    try:
        said = json.loads(text)
        programs = [(each["need"], bytes.fromhex(each["code"])) for each in said["programs"]]
        credit = number_of(said["credit"], _calls.WORD, "credit")
        return Job(*programs), credit, bytes.fromhex(said["buffer"])
    except (LookupError, TypeError, RecursionError) as error:
        raise ValueError(f"no job object: {error!r}") from error


def play_text(text: Union[str, ReadableBuffer]) -> tuple[Report, bytes]:
    """Plays a job object in this thread, as Job.play does. It answers the report, with all tasks,
    and the buffer as the job left it: what Desk.finish takes.

    The text is JSON, as `examples/spawn.json`. ValueError where it isn't, or where it is no job
    object. Error: as Job.play.
    """
    job, credit, before = _job_of(text if isinstance(text, str) else bytes_of(text, "text"))
    room = 64
    while True:
        buffer = bytearray(before)
        report = job.play(buffer, credit, room)
        if report.count <= room:
            return report, bytes(buffer)
        room = report.count


def _ended(task: Task) -> _calls.EndedTask:
    """A task that ended, as the library takes it."""
    of_kind(Task, task, "a task")
    fields = _calls.EndedTask._fields_
    limits = ((name, 2 ** (8 * ctypes.sizeof(kind))) for name, kind, *_ in fields)
    return _calls.EndedTask(*(number_of(getattr(task, name), top, name) for name, top in limits))


class Desk(Held):
    """Accounts and jobs of many clients, whatever carries their bytes: the protocol of the server,
    as bytes in and bytes out. The host runs the jobs.

    One call at a time uses a desk. Calls from several threads wait for each other. Each call is
    refused by 41 where the desk is closed. Error: 99.

    >>> desk = Desk()
    >>> client = desk.connect()
    >>> def ask(text):
    ...     desk.feed(client, len(text).to_bytes(4, "big") + text)
    ...     return desk.replies(client)[4:].decode()
    >>> ask(b'{"op":"grant","tenant":"t","amount":100}')
    '{"balance":100,"granted":100,"ok":true,"open":0,"spent":0}'
    >>> code = assemble("mov64 r0, 42\\nexit").hex()
    >>> job = '"programs":[{"need":0,"code":"%s"}],"credit":9,"buffer":""' % code
    >>> ask(b'{"op":"submit","tenant":"t",%s}' % job.encode())
    '{"job":1,"ok":true}'
    >>> number, text = desk.next_job()
    >>> desk.finish(number, *play_text(text))
    >>> ask(b'{"op":"account","tenant":"t"}')
    '{"balance":98,"granted":100,"ok":true,"open":0,"spent":2}'
    """

    _HANDLE = _calls.DeskHandle
    _FREE = staticmethod(_calls.desk_free)
    _room = 4096

    def __init__(self) -> None:
        with self._lock:
            passed(_calls.desk_new(self._handle))

    def connect(self) -> int:
        """Begins a conversation with a client, and answers the number of its connection, from 1,
        which is given once. Error: 99."""
        number = _calls.U64()
        with self._lock:
            passed(_calls.desk_connect(self._handle, number))
        return number.value

    def feed(self, connection: SupportsIndex, piece: ReadableBuffer) -> None:
        """Takes bytes that came on a connection, and answers each frame that is whole now. The
        replies to a piece are held until they are sent, so give few bytes at once.

        Error: 78 there is no such connection. The conversation is over after 71, a frame's length
        over 1,048,576, which is answered too, or 99.
        """
        piece, connection = bytes_of(piece, "piece"), number_of(connection, 2**64, "connection")
        with self._lock:
            passed(_calls.desk_feed(self._handle, connection, piece, len(piece)))

    def replies(self, connection: SupportsIndex, most: SupportsIndex = 65536) -> bytes:
        """Bytes that are to be sent on a connection, at most so many. They count as sent. Error: 78
        there is no such connection."""
        connection = number_of(connection, 2**64, "connection")
        most, sent = number_of(most, 2**64, "most"), _calls.Sent()
        with self._lock:
            if most > MANY:
                # so much is taken only where there is as much to send
                passed(_calls.desk_replies(self._handle, connection, b"", 0, sent))
                most = min(most, sent.left)
            room = ctypes.create_string_buffer(max(most, 1))
            passed(_calls.desk_replies(self._handle, connection, room, most, sent))
        return room.raw[: sent.count]

    def disconnect(self, connection: SupportsIndex) -> None:
        """Ends the conversation of a connection, and drops what was still to be sent. Its jobs
        stay. Error: 78 there is no such connection."""
        connection = number_of(connection, 2**64, "connection")
        with self._lock:
            passed(_calls.desk_disconnect(self._handle, connection))

    def next_job(self) -> Optional[HandedJob]:
        """The job of lowest number that waits, handed over once, or None."""
        handed = _calls.Handed()
        with self._lock:
            while True:
                room = ctypes.create_string_buffer(self._room)
                status = _calls.desk_next_job(self._handle, room, len(room), handed)
                if status != 65:
                    break
                self._room = handed.length
        passed(status)
        if handed.job == 0:
            return None
        return HandedJob(handed.job, room.raw[: handed.length].decode())

    def finish(self, number: SupportsIndex, report: Report, buffer: ReadableBuffer) -> None:
        """Ends a job that was handed over with its report, and the buffer as the job left it. A
        report that doesn't add up to the job's credit counts as 82.

        Error: 76 no job of this number is open and was handed over, so that a second report is
        refused; 65 a task's program is over 65,535.
        """
        of_kind(Report, report, "report")
        spent = number_of(report.spent, _calls.WORD, "spent")
        returned = number_of(report.returned, _calls.WORD, "returned")
        count = number_of(report.count, 2**64, "count")
        told = _calls.JobReport(tasks=count, spent=spent, returned=returned)
        ends = [_ended(task) for task in items_of(report.tasks, "tasks")]
        tasks = (_calls.EndedTask * max(len(ends), 1))(*ends)
        self._end(number, told, bytes_of(buffer, "buffer"), tasks, len(ends))

    def fail(self, number: SupportsIndex, code: SupportsIndex) -> None:
        """Ends a job that was handed over by the number of what it failed by, 1 to 255. Its whole
        credit goes back. Error: 76 as above."""
        status = number_of(code, 256, "code")
        if status == 0:
            raise ValueError("0 is no failure")
        self._end(number, _calls.JobReport(status=status), b"", (_calls.EndedTask * 1)(), 0)

    def _end(
        self, number: SupportsIndex, told: _calls.JobReport, buffer: bytes, tasks: Any, count: int
    ) -> None:
        """Ends a job that was handed over."""
        number = number_of(number, 2**64, "number")
        given = (number, told, buffer, len(buffer), tasks, count)
        with self._lock:
            passed(_calls.desk_finish(self._handle, *given))
