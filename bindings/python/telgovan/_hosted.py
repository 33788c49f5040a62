"""Tasks that stop where they ask their host."""

from __future__ import annotations

from typing import Any, Callable, Mapping, Optional, SupportsIndex, Union

from . import _calls
from ._arguments import WriteableBuffer, lent, mapping_of, number_of, of_kind, whole
from ._errors import Error, passed
from ._held import Held
from ._programs import Program
from ._records import Asked, Executed

# As many instructions as a limit can say.
NO_LIMIT = _calls.WORD - 1


class HostedTask(Held):
    """A task whose run stops where it asks its host, on a memory of so many bytes.

    A question stays asked until it is answered: by `go` with an answer, or by a helper of `run`.

    The length is the program's need or more, at most 65,536. The argument is what the program finds
    in R3, of 64 bits. Where no credit is given, it is the program's cost. A task holds its program,
    which may be closed. One call at a time uses a task.

    Error: 42 the credit is under the cost, 43 the length is under the need, 65 over 65,536 bytes or
    a credit over 2,147,483,647, 41 the program is closed, 99.

    >>> code = assemble("mov64 r1, 40\\nmov64 r2, 2\\ncall 64\\nexit")
    >>> task = HostedTask(Program(0, code, {64: 2}), 0)
    >>> task.go(bytearray())
    Asked(helper=64, arguments=(40, 2, 0, 0, 0))
    >>> task.run(bytearray(), {64: lambda first, second, *_: first + second})
    Executed(r0=42, used=11)
    """

    _HANDLE = _calls.TaskHandle
    _FREE = staticmethod(_calls.task_drop)
    _question: Optional[Asked] = None
    _length = 0

    def __init__(
        self,
        program: Program,
        length: SupportsIndex,
        argument: SupportsIndex = 0,
        credit: Optional[SupportsIndex] = None,
    ) -> None:
        credit = of_kind(Program, program, "program")._credit(credit)
        argument = number_of(argument, 2**64, "argument")
        length = number_of(length, 2**64, "length")
        with program._lock, self._lock:
            passed(_calls.task_start(program._handle, credit, argument, length, self._handle))
            self._question, self._length = None, length

    @property
    def question(self) -> Optional[Asked]:
        """The question that waits for its answer, or None."""
        return self._question

    def go(
        self,
        memory: WriteableBuffer,
        answer: Optional[SupportsIndex] = None,
        limit: SupportsIndex = NO_LIMIT,
    ) -> Union[Executed, Asked, None]:
        """Goes on: an Executed where the task ends, an Asked where it asks, or None at the limit.

        The answer, of 64 bits, is that to the question that waits; where none waits it is ignored.
        Where one waits and no answer is given, nothing runs, and the question is asked once more.
        The limit is how many instructions run at most, up to 4,294,967,295. The memory may have
        changed since the last piece.

        Error: 47 the task has ended or is closed, 43 the memory has another length than at the
        start.
        The task and the memory are as they were then.
        """
        given = None if answer is None else number_of(answer, 2**64, "answer")
        limit = number_of(limit, _calls.WORD, "limit")
        room, size = lent(memory)
        with self._lock:
            if given is None and self._question is not None:
                if size != self._length:
                    raise Error(43)
                return self._question
            return self._go(given or 0, room, size, limit)

    def run(
        self, memory: WriteableBuffer, helpers: Mapping[int, Callable[..., SupportsIndex]]
    ) -> Executed:
        """Runs the task to its end, also where a question waits already. Each question is answered
        by its callable, by the helper's id. It is given the five arguments. What it answers is a
        whole number, which is cut to 64 bits.

        KeyError where a helper isn't given, and whatever a helper raises: the question stays asked,
        and `run` or `go` goes on from there. Error: as `go`.
        """
        helpers = mapping_of(helpers, "helpers")
        told: Union[Executed, Asked, None] = self._question
        while not isinstance(told, Executed):
            if told is None:
                told = self.go(memory)
            else:
                answer = whole(helpers[told.helper](*told.arguments), "an answer")
                told = self._answer(told, answer % 2**64, memory)
        return told

    def _answer(
        self, question: Asked, answer: int, memory: WriteableBuffer
    ) -> Union[Executed, Asked, None]:
        """Goes on with the answer to this question. Where another call has answered it meanwhile,
        it only tells what is asked now."""
        room, size = lent(memory)
        with self._lock:
            if self._question is not question:
                return self._question
            return self._go(answer, room, size, NO_LIMIT)

    def _go(self, answer: int, room: Any, size: int, limit: int) -> Union[Executed, Asked, None]:
        """Goes on, by whoever has the lock."""
        event = _calls.Event()
        passed(_calls.task_go(self._handle, answer, room, size, limit, event))
        asks = event.kind == _calls.ASKS
        self._question = Asked(event.helper, tuple(event.arguments)) if asks else None
        return Executed(event.r0, event.used) if event.kind == _calls.ENDED else self._question

    def _let_go(self) -> None:
        super()._let_go()
        self._question = None
