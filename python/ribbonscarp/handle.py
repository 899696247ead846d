"""What an object of the library is held by."""
from __future__ import annotations

import contextlib
import ctypes
import queue
import threading
import warnings
from collections.abc import Callable, Iterator
from typing import Any, TypeVar

from .codes import Reason, Status
from .errors import Refused, StatusError
from .library import library, reason_text, status_text

Self = TypeVar("Self", bound="Held")

STACK = 1 << 20
"""Bytes of stack, at least, of the thread on which objects are made. `ribbon_station_new_live` takes 412,000 of them, where
the library isn't proved."""


class Held:
    """An object of the library, which is freed by `close`, where a `with` ends, or once it is forgotten.

    Any thread may use it: a call waits until that of another thread is over.
    """

    def __init__(self, kind: str, handle: ctypes.Structure) -> None:
        self._library = library()
        self._kind = kind
        self._handle = handle
        self._is_held = True
        self._lock = threading.RLock()

    def _call(self, name: str, *arguments: Any) -> int:
        """A call of the library for such a handle. `StatusError` with `NOTHING_HELD` once it is closed."""
        with self._lock:
            if not self._is_held:
                raise closed(self)
            return int(getattr(self._library, f"ribbon_{self._kind}_{name}")(ctypes.byref(self._handle), *arguments))

    def close(self) -> None:
        """Frees it. A second call does nothing."""
        with self._lock:
            if self._is_held:
                self._is_held = False
                getattr(self._library, f"ribbon_{self._kind}_free")(ctypes.byref(self._handle))

    def __enter__(self: Self) -> Self:
        return self

    def __exit__(self, *error: object) -> None:
        self.close()

    def __del__(self) -> None:
        if getattr(self, "_is_held", False):
            warnings.warn(f"unclosed {type(self).__name__}", ResourceWarning, source=self)
            self.close()


class _Maker:
    """A thread on which objects of the library are made, which takes far more stack than any other call. A thread keeps
    what its stack has grown to, so that hundreds of them would keep as much each."""

    def __init__(self) -> None:
        self._lock = threading.Lock()
        self._asked: queue.SimpleQueue[Callable[[], int]] = queue.SimpleQueue()
        self._told: queue.SimpleQueue[int] = queue.SimpleQueue()
        self._thread: threading.Thread | None = None

    def made(self, call: Callable[[], int]) -> int:
        """What a call comes to there; on the main thread what it comes to here."""
        if threading.current_thread() is threading.main_thread():
            return call()
        with self._lock:
            if self._thread is None or not self._thread.is_alive():
                self._thread = threading.Thread(target=self._work, name="ribbonscarp", daemon=True)
                size = threading.stack_size()
                threading.stack_size(max(size, STACK) if size else 0)  # 0 is the system's, some megabytes.
                try:
                    self._thread.start()
                finally:
                    threading.stack_size(size)
            self._asked.put(call)
            return self._told.get()

    def _work(self) -> None:
        while True:
            self._told.put(self._asked.get()())


made_aside = _Maker().made


@contextlib.contextmanager
def lent(room: int) -> Iterator[Any]:
    """A buffer of so many bytes for the time of a call. It is kept for the next one, by whatever object."""
    kept = _buffers.setdefault(room, [])
    try:
        buffer = kept.pop()
    except IndexError:
        buffer = ctypes.create_string_buffer(room)
    try:
        yield buffer
    finally:
        kept.append(buffer)


_buffers: dict[int, list[Any]] = {}


def closed(thing: object) -> StatusError:
    """The error of a call on something that is closed."""
    text = f"this {type(thing).__name__} is closed: by close(), or since its `with` has ended"
    return StatusError(Status.NOTHING_HELD, text)


def check(status: int) -> None:
    """Raises what a status other than `DONE` means, where nothing more is to be said of it."""
    if status == Status.NO_MEMORY:
        raise MemoryError(status_text(status))
    if status != Status.DONE:
        raise StatusError(Status(status), status_text(status))


def refused(reason: int, place: int) -> Refused:
    """The error of a refused byte."""
    return Refused(Reason(reason), place, reason_text(reason))


def bytes_of(data: bytes) -> Any:
    """Bytes as the library takes them, so that a call can be given any rest of them."""
    return (ctypes.c_char * max(len(data), 1)).from_buffer_copy(data or b"\0")


def front(buffer: Any, length: int) -> bytes:
    """The bytes at the front of a buffer that a call has set."""
    return ctypes.string_at(buffer, length)
