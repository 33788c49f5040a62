"""Programs that are verified once and run many times."""

from __future__ import annotations

from typing import Any, Iterable, Mapping, Optional, SupportsIndex, Union

from . import _calls
from ._arguments import (
    ReadableBuffer,
    WriteableBuffer,
    bytes_of,
    items_of,
    lent,
    mapping_of,
    number_of,
    of_kind,
    whole,
)
from ._errors import Error, passed
from ._held import Held
from ._records import Executed

# The first id of a host's helpers, and how many ids there are.
FIRST_HELPER, HELPERS = 64, 64


def executed(outcome: _calls.Outcome) -> Executed:
    """The result that an outcome tells, or its refusal."""
    passed(outcome.status)
    return Executed(outcome.r0, outcome.used)


def run_once(
    need: SupportsIndex,
    code: ReadableBuffer,
    memory: WriteableBuffer,
    argument: SupportsIndex = 0,
    credit: SupportsIndex = 2**31 - 1,
) -> Executed:
    """Verifies a program and runs it once on the memory, in place. Nothing is held afterwards.

    `need` is how many bytes of memory the program counts on, 0 to 65,536, and the memory has as
    many or more, at most 65,536. `argument` is what the program finds in R3, of 64 bits. `credit`
    is at least the program's cost, and at most 2,147,483,647.

    Error: that of the verdict, without its place; 42 the credit is under the cost, 43 the memory is
    shorter than the need, 65 over a limit, 99. The memory is as it was then.

    >>> memory = bytearray(1)
    >>> run_once(1, assemble("stxb [r1+0], r3\\nmov64 r0, 0\\nexit"), memory, argument=7)
    Executed(r0=0, used=3)
    >>> memory
    bytearray(b'\\x07')
    """
    code, outcome = bytes_of(code, "code"), _calls.Outcome()
    need, credit = number_of(need, _calls.WORD, "need"), number_of(credit, _calls.WORD, "credit")
    argument = number_of(argument, 2**64, "argument")
    room, size = lent(memory)
    _calls.run(need, code, len(code), credit, argument, room, size, outcome)
    return executed(outcome)


def arities_of(helpers: Mapping[int, int]) -> Any:
    """The number of arguments of each helper of a host's, by its id from 64 on."""
    words = (_calls.U32 * HELPERS)(*[_calls.NO_HELPER] * HELPERS)
    for helper, arity in dict(mapping_of(helpers, "helpers")).items():
        place = whole(helper, "a helper") - FIRST_HELPER
        if not 0 <= place < HELPERS:
            raise Error(44)
        words[place] = number_of(arity, _calls.NO_HELPER, "a number of arguments")
    return words


class Program(Held):
    """A program that was accepted, and that the library holds.

    need  the bytes of memory that a run needs, 0 to 65,536
    cost  the most that a run uses of its credit
    code  the bytes of the program

    `helpers` says how many arguments each helper of the host's takes, 0 to 5, by its id, 64 to 127.
    Such a program runs as a HostedTask.

    One call at a time uses a program. Calls from several threads wait for each other; share gives
    each thread one of its own, and those run side by side.

    Error: the number of the one reason why a program isn't accepted, 1 to 38, with its slot; 44, 45
    of a helper's id and number of arguments; 99.

    >>> with Program(1, assemble("ldxb r0, [r1+0]\\nexit")) as program:
    ...     program.execute(bytearray([42]))
    Executed(r0=42, used=2)
    """

    _HANDLE = _calls.ProgramHandle
    _FREE = staticmethod(_calls.program_unload)
    need: int = 0
    code: bytes = b""
    cost: int = 0

    def __init__(
        self,
        need: SupportsIndex,
        code: ReadableBuffer,
        helpers: Optional[Mapping[int, int]] = None,
    ) -> None:
        need, code = number_of(need, _calls.WORD, "need"), bytes_of(code, "code")
        given: tuple[Any, ...] = (need, code, len(code))
        load = _calls.program_load
        if helpers is not None:
            load, given = _calls.program_load_with, (*given, arities_of(helpers), HELPERS)
        verdict = _calls.Verdict()
        with self._lock:
            status = load(*given, self._handle, verdict)
        if status:
            raise Error(verdict.status, verdict.slot if verdict.has_slot else None)
        self.need, self.code, self.cost = need, code, verdict.cost

    def _credit(self, credit: Optional[SupportsIndex]) -> int:
        """The credit of a run, which is the cost where none is given."""
        return number_of(self.cost if credit is None else credit, _calls.WORD, "credit")

    def execute(
        self,
        memory: WriteableBuffer,
        argument: SupportsIndex = 0,
        credit: Optional[SupportsIndex] = None,
    ) -> Executed:
        """Runs the program once, in place, with the memory as its part.

        The memory has as many bytes as the program needs or more, at most 65,536. The argument is
        what the program finds in R3, of 64 bits. Where no credit is given, it is the cost.

        Error: 42 the credit is under the cost, 43 the memory is shorter than the need, 65 over
        65,536 bytes or a credit over 2,147,483,647, 48 the program may call helpers of the host's,
        41 it is closed. The memory is as it was then.
        """
        outcome, credit = _calls.Outcome(), self._credit(credit)
        argument = number_of(argument, 2**64, "argument")
        room, size = lent(memory)
        with self._lock:
            _calls.program_run(self._handle, credit, argument, room, size, outcome)
        return executed(outcome)

    def burst(
        self,
        memory: WriteableBuffer,
        pieces: Iterable[Iterable[SupportsIndex]],
        credit: Optional[SupportsIndex] = None,
    ) -> list[Union[Executed, Error]]:
        """Runs the program on each piece of the memory in turn, given as (start, length, argument).

        For each run there is an Executed, or the Error that it was refused by: those of `execute`,
        and 43 where the memory has no such piece. Error: 48 or 41, and nothing ran.
        """
        credit, asked = self._credit(credit), items_of(pieces, "pieces")
        runs = (_calls.Run * max(len(asked), 1))()
        for run, piece in zip(runs, asked):
            start, length, argument = items_of(piece, "a piece", 3)
            run.start = number_of(start, 2**64, "start")
            run.length = number_of(length, 2**64, "length")
            run.argument = number_of(argument, 2**64, "argument")
        room, size = lent(memory)
        with self._lock:
            passed(_calls.program_burst(self._handle, credit, room, size, runs, len(asked)))
        outcomes = [run.outcome for run in runs[: len(asked)]]
        return [Error(it.status) if it.status else Executed(it.r0, it.used) for it in outcomes]

    def share(self) -> Program:
        """One more owner of the same program, for another thread. Nothing is verified again.

        Error: 41 the program is closed, 99.
        """
        other = Program.__new__(Program)
        other.need, other.code, other.cost = self.need, self.code, self.cost
        with self._lock:
            passed(_calls.program_share(self._handle, other._handle))
        return other


class Machine:
    """Runs a program: its calls by another name. `close` closes the program, and `with` does.

    >>> with Machine(Program(0, assemble("mov64 r0, 7\\nexit"))) as machine:
    ...     machine.execute(bytearray())
    Executed(r0=7, used=2)
    """

    def __init__(self, program: Program) -> None:
        self.program = of_kind(Program, program, "program")

    def execute(
        self,
        memory: WriteableBuffer,
        argument: SupportsIndex = 0,
        credit: Optional[SupportsIndex] = None,
    ) -> Executed:
        """As `Program.execute`."""
        return self.program.execute(memory, argument, credit)

    def burst(
        self,
        memory: WriteableBuffer,
        pieces: Iterable[Iterable[SupportsIndex]],
        credit: Optional[SupportsIndex] = None,
    ) -> list[Union[Executed, Error]]:
        """As `Program.burst`."""
        return self.program.burst(memory, pieces, credit)

    def close(self) -> None:
        """Closes the program."""
        self.program.close()

    def __enter__(self) -> Machine:
        return self

    def __exit__(self, *_exception: object) -> None:
        self.close()
