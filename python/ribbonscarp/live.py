"""What live sessions over a socket have in common: they wait, are used by one thread at a time, and are closed."""
from __future__ import annotations

import contextlib
import threading
import time
from collections.abc import Iterator
from typing import TypeVar

from .connection import Connection
from .end import LATE, End, Goal, Wait
from .errors import ConnectionEnded
from .handle import closed
from .recording import StrPath

T = TypeVar("T")
Self = TypeVar("Self", bound="Live")

PENDING = 1 << 20
"""How many bytes are kept at most that have come and nobody has waited for."""


class Live:
    """A live session over a connected socket. It is closed by `close`, from any thread, or where a `with` ends.

    Any thread may use it: a call waits until that of another thread is over.
    """

    def __init__(self, end: End, connection: Connection) -> None:
        self.wait = connection.wait
        self._end = end
        self._connection = connection
        self._lock = threading.RLock()
        self._is_closed = False

    @property
    def has_ended(self) -> bool:
        """Whether nothing more comes: the other side has closed, a byte of it was refused, or this is closed."""
        with self._lock:
            if self._is_closed:
                return True
            while not self._end.has_ended and self._end.waiting < PENDING and self._hear(0.0):
                pass
            return self._end.has_ended

    def record_to(self, file: StrPath) -> str:
        """Records what crosses the connection from now on, in the form of the program's `--record`, and gives the name of
        the file: FILE, or with a number after it where that is there. The file holds what is typed into hidden
        fields. Where it can't be written the recording ends, and a later call raises `OSError`, once."""
        with self._in_use():
            return self._end.record_to(file)

    def close(self) -> None:
        """Closes the connection, and frees what the library holds; a wait on another thread ends. A second call does
        nothing."""
        self._is_closed = True
        if not self._lock.acquire(blocking=False):
            self._connection.wake()
            self._lock.acquire()
        try:
            self._connection.close()
            self._end.end_recording()
        finally:
            self._free()
            self._lock.release()

    def _free(self) -> None:
        """Frees what the library holds."""
        raise NotImplementedError

    def __enter__(self: Self) -> Self:
        return self

    def __exit__(self, *error: object) -> None:
        self.close()

    @contextlib.contextmanager
    def _in_use(self) -> Iterator[None]:
        """One thread's turn. `StatusError` with `NOTHING_HELD` once it is closed."""
        with self._lock:
            if self._is_closed:
                raise closed(self)
            yield

    def _wait(self, goal: Goal[T], wait: float | None) -> T:
        """Takes what comes until the goal is found, as `Wait.step` says."""
        with self._in_use():
            waiting = Wait(self._end, goal, self.wait if wait is None else wait)
            while (seconds := self._step(waiting)) is not None:
                self._hear(seconds)
            assert waiting.found is not None
            return waiting.found

    def _step(self, waiting: Wait[T]) -> float | None:
        try:
            return waiting.step()
        except ConnectionEnded:
            if self._is_closed:
                raise closed(self) from None
            raise
        finally:
            self._answer()

    def _hear(self, seconds: float) -> bool:
        """Lets come what does within so many seconds; whether something came."""
        data = self._connection.read(seconds)
        self._end.arrive(data)
        return bool(data)

    def _take_all(self) -> None:
        """Takes what has come."""
        end, over = self._end, time.monotonic() + LATE
        while time.monotonic() < over:
            try:
                if not end.take() and (end.has_ended or not self._hear(0.0)):
                    return
            finally:
                self._answer()

    def _write(self, data: bytes) -> None:
        self._connection.write(self._end.sends(data))

    def _answer(self) -> None:
        """Writes what answers bytes that came. That it isn't taken is told by the next read or write."""
        replies = self._end.replies()
        if replies:
            with contextlib.suppress(ConnectionEnded):
                self._write(replies)
