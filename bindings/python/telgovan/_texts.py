"""Source texts to bytes, and back; and what is told of a program and of a run, as text."""

from __future__ import annotations

import ctypes
import json
from typing import Any, Callable, Optional, SupportsIndex

from . import _calls
from ._arguments import ReadableBuffer, bytes_of, number_of, text_of
from ._errors import Error

# The room of the longest program: 4,096 slots of 8 bytes.
LONGEST = 8 * 4096


def roomy(size: int, call: Callable[..., Any], *given: Any) -> tuple[int, _calls.Written, bytes]:
    """The status of a call, what it tells, and what it writes into a room of this size, or of the
    size that the call asks for."""
    told = _calls.Written()
    while True:
        room = ctypes.create_string_buffer(max(size, 1))
        status = call(*given, room, size, told)
        if told.length <= size:
            return status, told, room.raw[: told.length]
        size = told.length


def written(size: int, call: Callable[..., Any], *given: Any) -> bytes:
    """The bytes that a call writes."""
    status, told, text = roomy(size, call, *given)
    if status:
        raise refusal_of(status, told)
    return text


def refusal_of(status: int, told: _calls.Written) -> Error:
    """The refusal that a call tells, with its place."""
    return Error(status, told.place if told.has_place else None)


def steps_of(text: bytes) -> list[dict[str, Any]]:
    """The steps that the lines of a trace are."""
    return [json.loads(line) for line in text.splitlines()]


def assemble(source: str) -> bytes:
    """The bytes of the program that a source text says: 8 for each slot, at most 4,096 slots.

    Error: 11 to 13 at their line, 1 without an instruction, 3 over 4,096 slots.

    >>> assemble("mov64 r0, 42\\nexit").hex()
    'b70000002a0000009500000000000000'
    """
    text = text_of(source, "source")
    return written(LONGEST, _calls.assemble, text, len(text))


def disassemble(code: ReadableBuffer) -> str:
    """The lines of the program that the bytes spell.

    Error: 1 to 7, of which 4 to 7 tell their slot.

    >>> print(disassemble(bytes.fromhex("b70000002a0000009500000000000000")))
    mov64 r0, 42
    exit
    <BLANKLINE>
    """
    code = bytes_of(code, "code")
    return written(1 << 14, _calls.disassemble, code, len(code)).decode("ascii")


def _asked_of(need: SupportsIndex, code: ReadableBuffer, source: str) -> tuple[Any, ...]:
    """A program and its source text, as calls take them."""
    need, code = number_of(need, _calls.WORD, "need"), bytes_of(code, "code")
    text = text_of(source, "source")
    return need, code, len(code), text, len(text)


def explain(need: SupportsIndex, code: ReadableBuffer, source: str = "") -> Optional[str]:
    """Why a program is refused, as text for whoever wrote it, or None where it is accepted.

    `need` is how many bytes of memory the program counts on, 0 to 65,536. A source text gives the
    line of the slot. Error: 99.

    >>> print(explain(9, assemble("ldxb r0, [r1+9]\\nexit")).splitlines()[0])
    refused 33: access out of the part at slot 0
    """
    status, _, text = roomy(4096, _calls.explain, *_asked_of(need, code, source))
    if status == 99:
        raise Error(status)
    return text.decode() if status else None


def graph(need: SupportsIndex, code: ReadableBuffer, source: str = "") -> str:
    """The graph of a program as text in the language DOT: a box for each basic block, and red where
    an instruction isn't allowed.

    The arguments are those of `explain`. Error: that of the verdict where a program has no graph,
    99.

    >>> print(graph(0, assemble("mov64 r0, 1\\nexit")).splitlines()[0])
    digraph program {
    """
    status, told, text = roomy(1 << 14, _calls.graph, *_asked_of(need, code, source))
    if not told.length:
        raise refusal_of(status, told)
    return text.decode()


def trace(
    need: SupportsIndex,
    code: ReadableBuffer,
    memory: ReadableBuffer,
    argument: SupportsIndex = 0,
    credit: SupportsIndex = 2**31 - 1,
    source: str = "",
) -> list[dict[str, Any]]:
    """The steps of a program's run on this memory, which isn't changed, as dictionaries: the `slot`
    and the text `insn` of the instruction, its `line` in a source text, the `registers` that
    changed, the bytes of `stack` and `part` that did, with the place `at` which they stand, and
    what the run has `used`.

    The arguments are those of `run_once`. Error: that of the verdict, 42, 43, 65 or 99.

    >>> [step["registers"] for step in trace(0, assemble("mov64 r0, r3\\nexit"), b"", argument=7)]
    [{'r0': '7'}, {}]
    """
    given, memory = _asked_of(need, code, source), bytes_of(memory, "memory")
    credit = number_of(credit, _calls.WORD, "credit")
    argument = number_of(argument, 2**64, "argument")
    return steps_of(
        written(1 << 14, _calls.trace, *given, credit, argument, memory, len(memory))
    )
