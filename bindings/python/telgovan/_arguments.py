"""Arguments: each is looked at once, and the library is given what was found."""

from __future__ import annotations

import ctypes
import itertools
import operator
from typing import TYPE_CHECKING, Any, Iterable, Mapping, SupportsIndex, TypeVar

if TYPE_CHECKING:
    from _typeshed import ReadableBuffer as ReadableBuffer
    from _typeshed import WriteableBuffer as WriteableBuffer
else:
    # whatever has bytes: Python has no class for it ahead of 3.12
    ReadableBuffer = WriteableBuffer = object

# The most items of a sequence, and the most of a room that is taken unseen.
MOST_ITEMS, MANY = 2**22, 2**16
# The formats of elements that are plain numbers.
PLAIN_NUMBERS = frozenset("cbB?hHiIlLqQnNefd")

Kind = TypeVar("Kind")
Key = TypeVar("Key")
Value = TypeVar("Value")


def whole(value: SupportsIndex, name: str) -> int:
    """The number that a whole number is, also where it is of a class of the caller's."""
    try:
        return int.__index__(operator.index(value))
    except TypeError as error:
        raise TypeError(f"{name}: {error}") from None


def number_of(value: SupportsIndex, limit: int, name: str) -> int:
    """The number, which is under this limit: ctypes would cut one that is too large or negative."""
    number = whole(value, name)
    if not 0 <= number < limit:
        raise ValueError(f"{name} is out of range")
    return number


def of_kind(kind: type[Kind], value: object, name: str) -> Kind:
    """The value, which has to be of this kind."""
    if not isinstance(value, kind):
        raise TypeError(f"{name}: a {kind.__name__} is required, not {type(value).__name__!r}")
    return value


def mapping_of(value: Mapping[Key, Value], name: str) -> Mapping[Key, Value]:
    """The value, which has to be a mapping."""
    if not isinstance(value, Mapping):
        raise TypeError(f"{name}: a Mapping is required, not {type(value).__name__!r}")
    return value


def text_of(value: str, name: str) -> bytes:
    """The bytes of a text."""
    return str.encode(of_kind(str, value, name))


def view_of(value: ReadableBuffer, name: str) -> memoryview:
    """The bytes that an object has, where they are. A number or a list has none."""
    try:
        return memoryview(value)
    except (TypeError, ValueError) as error:  # the latter of elements that no format tells
        raise TypeError(f"{name}: {error}") from None


def bytes_of(value: ReadableBuffer, name: str) -> bytes:
    """A copy of bytes that are read: their owner may change them during the call."""
    return value if type(value) is bytes else view_of(value, name).tobytes()


def items_of(value: Iterable[Kind], name: str, most: int = MOST_ITEMS) -> list[Kind]:
    """A copy of a sequence, which may have another length at the next look, or no end."""
    try:
        items = list(itertools.islice(value, most + 1))
    except (TypeError, NotImplementedError, SystemError) as error:  # the latter two of memoryviews
        raise TypeError(f"{name}: {error}") from None
    if len(items) > most:
        raise ValueError(f"{name}: over {most} items")
    return items


def lent(memory: WriteableBuffer) -> tuple[Any, int]:
    """The address of the bytes of a bytearray, a memoryview, an array or the like, which are lent
    and not copied, and their number. What has them can't be resized as long as the first is held.
    Bytes that can't be written, that have gaps or that are pointers are refused by TypeError."""
    view = view_of(memory, "memory")
    if view.readonly:
        raise TypeError("the memory is written, so it can't be read-only")
    if not view.c_contiguous:
        raise TypeError("the memory has gaps, or its rows don't follow each other")
    if view.format.lstrip("@=<>!") not in PLAIN_NUMBERS:
        raise TypeError(f"the memory holds no plain numbers, but {view.format!r}")
    if view.nbytes == 0:
        return ctypes.create_string_buffer(1), 0
    return (ctypes.c_char * view.nbytes).from_buffer(view), view.nbytes
