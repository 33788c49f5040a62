"""The refusals of the library, as exceptions."""

from __future__ import annotations

from typing import Optional

from ._refusals import REFUSALS

# The refusals of a source text, which stand at a line.
_AT_A_LINE = (11, 12, 13)
_UNKNOWN = ("an unknown refusal", "see docs/refusals.md of the library's version")


class Error(Exception):
    """The library refuses a call, and nothing has changed.

    code     the number of the refusal, 1 to 255, of docs/refusals.md
    text     the fault, in a few words
    advice   a way to mend it
    slot     where it stands in a program: the slot, counted from 0, or None
    line     where it stands in a source text: the line, counted from 1, or None
    program  the place of the program of a job that it is about, from 0, or None

    `number` is the code by another name, and `place` the slot or the line, whichever there is. An
    Error is pickled and copied as it is.

    >>> try:
    ...     Program(9, assemble("ldxb r0, [r1+9]\\nexit"))
    ... except Error as error:
    ...     print(error.code, error.slot, error.text)
    33 0 an access may leave the bytes of the part that the program needs
    """

    def __init__(
        self, number: int, place: Optional[int] = None, program: Optional[int] = None
    ) -> None:
        super().__init__(number, place, program)
        self.number, self.place, self.program = number, place, program

    @property
    def code(self) -> int:
        """The number of the refusal, 1 to 255."""
        return self.number

    @property
    def text(self) -> str:
        """The fault, in a few words."""
        return REFUSALS.get(self.number, _UNKNOWN)[0]

    @property
    def advice(self) -> str:
        """A way to mend it."""
        return REFUSALS.get(self.number, _UNKNOWN)[1]

    @property
    def slot(self) -> Optional[int]:
        """The slot of the program where it stands, counted from 0, or None."""
        return None if self.number in _AT_A_LINE else self.place

    @property
    def line(self) -> Optional[int]:
        """The line of the source text where it stands, counted from 1, or None."""
        return self.place if self.number in _AT_A_LINE else None

    def __str__(self) -> str:
        slot = "" if self.slot is None else f" at slot {self.slot}"
        line = "" if self.line is None else f" in line {self.line}"
        program = "" if self.program is None else f" of program {self.program}"
        return f"refused {self.number}{slot}{line}{program}: {self.text}"


def passed(status: int) -> None:
    """Raises the refusal of a status that isn't 0."""
    if status:
        raise Error(status)
