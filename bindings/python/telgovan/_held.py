"""Objects that the library holds for its host, by handles."""

from __future__ import annotations

import ctypes
import threading
from typing import TYPE_CHECKING, Any, Callable, ClassVar, TypeVar

Made = TypeVar("Made", bound="Held")


class Held:
    """An object that the library holds. It has a handle from __new__ on, so there always is one.

    One call at a time uses it, and calls from other threads wait. One of the same thread comes from
    a signal or from what is thrown away, and never while the library runs, so it is let in."""

    if TYPE_CHECKING:  # so that help doesn't show them
        # the structure of the handle, and the function that lets go of what it holds
        _HANDLE: ClassVar[type[ctypes.Structure]]
        _FREE: ClassVar[Callable[[Any], Any]]
        _lock: Any
        _handle: Any

    def __new__(cls: type[Made], *_given: Any, **_named: Any) -> Made:
        made = super().__new__(cls)
        made._lock, made._handle = threading.RLock(), cls._HANDLE()
        return made

    def close(self) -> None:
        """Lets go of what the library holds, which is freed with its last owner. From then on calls
        are refused: those of a task by 47, and the others by 41. `with` closes at its end."""
        with self._lock:
            self._let_go()

    def _let_go(self) -> None:
        """Frees what the handle holds. Whoever calls this has the lock."""
        type(self)._FREE(self._handle)

    def __enter__(self: Made) -> Made:
        return self

    def __exit__(self, *_exception: object) -> None:
        self.close()

    def __del__(self) -> None:
        # nobody else has it any more, so the lock is free, unless somebody calls this by hand, or
        # in a forked child whose parent had a call under way
        lock = getattr(self, "_lock", None)
        if lock is not None and lock.acquire(blocking=False):
            self._let_go()
            lock.release()

    def __reduce__(self) -> Any:
        raise TypeError(f"a {type(self).__name__} that the library holds can't be copied")
