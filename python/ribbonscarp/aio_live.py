"""What live sessions with asyncio have in common: they wait, and are closed."""
from __future__ import annotations

import asyncio
import contextlib
from collections.abc import Callable, Coroutine
from typing import Any, TypeVar

from .connection import FAREWELL, prepare
from .end import End, Goal, Wait
from .errors import ConnectionEnded
from .handle import closed
from .live import PENDING
from .recording import StrPath

T = TypeVar("T")
Self = TypeVar("Self", bound="Live")

LIMIT = 16384
"""How many bytes a stream keeps, and how many are read at once."""

TURNS = 4
"""Turns of the loop by which bytes that the system has are here."""


async def within(work: Coroutine[Any, Any, T], seconds: float, drop: Callable[[T], object] = lambda result: None) -> T:
    """What some work comes to within so many seconds, or else `asyncio.TimeoutError`. Where this is cancelled at the moment
    at which the work ends, `drop` gets what it came to.

    (Before Python 3.12 `asyncio.wait_for` loses such a cancel.)
    """
    task = asyncio.ensure_future(work)

    def ended(_: object) -> None:
        if not task.cancelled() and task.exception() is None:
            drop(task.result())

    try:
        await asyncio.wait({task}, timeout=seconds)
        if not task.done():
            task.cancel()
            await asyncio.wait({task})
    except asyncio.CancelledError:
        task.cancel()
        task.add_done_callback(ended)
        raise
    if task.cancelled():
        raise asyncio.TimeoutError
    return task.result()


class Live:
    """A live session over streams. It is closed by `close`, or where an `async with` ends."""

    def __init__(self, end: End, reader: asyncio.StreamReader, writer: asyncio.StreamWriter, wait: float) -> None:
        self.wait = wait
        self._end = end
        self._reader, self._writer = reader, writer
        self._waiter: asyncio.Future[None] | None = None
        self._room = asyncio.Event()
        self._is_closed = False
        prepare(writer.get_extra_info("socket"))
        self._pump = asyncio.ensure_future(self._read())

    @property
    def has_ended(self) -> bool:
        """Whether nothing more comes: the other side has closed, a byte of it was refused, or this is closed."""
        return self._is_closed or self._end.has_ended

    def record_to(self, file: StrPath) -> str:
        """Records what crosses the connection from now on, as `ribbonscarp.Session.record_to` does."""
        self._check_open()
        return self._end.record_to(file)

    async def close(self) -> None:
        """Closes the connection, and frees what the library holds. A second call does nothing."""
        if self._is_closed:
            return
        self._is_closed = True
        self._wake()
        try:
            with contextlib.suppress(OSError):
                if self._writer.can_write_eof():
                    self._writer.write_eof()
                    self._room.set()
                    await asyncio.wait({self._pump}, timeout=FAREWELL)
        finally:
            # Also where this is cancelled: a second call does nothing.
            self._pump.cancel()
            self._writer.close()
            self._free()
            self._end.end_recording()
        with contextlib.suppress(OSError, asyncio.TimeoutError):
            await within(self._writer.wait_closed(), FAREWELL)

    async def __aenter__(self: Self) -> Self:
        return self

    async def __aexit__(self, *error: object) -> None:
        await self.close()

    def _free(self) -> None:
        raise NotImplementedError

    def _check_open(self) -> None:
        if self._is_closed:
            raise closed(self)

    async def _read(self) -> None:
        """Lets come what does, up to what may be kept, and wakes who waits for it."""
        data: bytes | None = b""
        while data is not None:
            try:
                data = await self._reader.read(LIMIT) or None
            except OSError:
                data = None
            if not self._is_closed:
                self._end.arrive(data)
                self._wake()
                if self._end.waiting > PENDING:
                    self._room.clear()
                    await self._room.wait()

    def _wake(self) -> None:
        if self._waiter is not None and not self._waiter.done():
            self._waiter.set_result(None)

    async def _wait(self, goal: Goal[T], wait: float | None) -> T:
        """Takes what comes until the goal is found, as `Wait.step` says. One task waits at a time."""
        self._check_open()
        if self._waiter is not None:
            raise RuntimeError(f"another task waits at this {type(self).__name__}")
        waiting = Wait(self._end, goal, self.wait if wait is None else wait)
        while (seconds := self._step(waiting)) is not None:
            await self._hear(seconds)
            self._check_open()
        assert waiting.found is not None
        return waiting.found

    def _step(self, waiting: Wait[T]) -> float | None:
        try:
            return waiting.step()
        finally:
            self._room.set()
            self._answer()

    async def _hear(self, seconds: float) -> None:
        """Lets come what does within so many seconds; within none, what has come."""
        for _ in range(TURNS if seconds <= 0 else 0):
            await asyncio.sleep(0)
        if seconds <= 0 or self._end.waiting:
            return
        loop = asyncio.get_running_loop()
        self._waiter = loop.create_future()
        timer = loop.call_later(seconds, self._wake)
        try:
            await self._waiter
        finally:
            timer.cancel()
            self._waiter = None

    def _take_all(self) -> None:
        """Takes what has come."""
        try:
            while self._end.take():
                pass
        finally:
            self._room.set()
            self._answer()

    def _answer(self) -> None:
        self._write_at_once(self._end.replies())

    def _write_at_once(self, data: bytes) -> None:
        """Writes, without a wait for the other side to take it."""
        if data and not self._writer.is_closing():
            self._writer.write(self._end.sends(data))

    async def _write(self, data: bytes) -> None:
        """Writes all. `ConnectionEnded` where the other side is gone, or doesn't take it in time."""
        if self._writer.is_closing():
            raise ConnectionEnded("what was written isn't taken")
        self._writer.write(self._end.sends(data))
        if self._writer.transport.get_write_buffer_size() == 0:
            return
        try:
            await within(self._writer.drain(), self.wait)
        except asyncio.TimeoutError:
            fault = f"the other side hasn't taken what was written within {self.wait:g} seconds"
            raise ConnectionEnded(fault) from None
        except OSError as cause:
            raise ConnectionEnded(f"what was written isn't taken: {cause}") from None
