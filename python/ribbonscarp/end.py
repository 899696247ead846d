"""What both ends of a live session have in common, without a socket: what has come, and waits for something of it."""
from __future__ import annotations

import contextlib
import math
import threading
import time
from abc import ABC, abstractmethod
from collections.abc import Callable
from dataclasses import dataclass
from typing import Generic, TypeVar

from .errors import ConnectionEnded, Refused, WaitedTooLong
from .recording import Recorder, StrPath
from .records import COMMAND
from .screen import Screen

T = TypeVar("T")

AROUND = 32
"""How many bytes before and after a refused one are told, at most."""

LATE = 0.5
"""For how many seconds a wait goes on with what has come, at most, once its time is over."""


@dataclass(frozen=True)
class Goal(Generic[T]):
    """Something to wait for: what it is called, how it is found in what was taken, and the earliest time at which it may
    be there though nothing more comes."""

    what: str
    find: Callable[[], T | None]
    due: Callable[[], float] = lambda: math.inf


class End(ABC):
    """One end of a session. `name` and `other` are its own name and that of the other end, as in recordings."""

    name, other = "host", "station"
    keeps_events = False
    """Whether what came before a refused byte is still found after it."""

    def __init__(self) -> None:
        self.refused: Refused | None = None
        self.has_closed = False
        self.heard = 0
        """How many bytes have come."""
        self.heard_at = time.monotonic()
        self._recorder: Recorder | None = None
        self._fault: OSError | None = None
        self._is_inside = self._is_recorded = False
        self._come = bytearray()
        self._replies = bytearray()
        self._record_begin = b""

    @abstractmethod
    def push(self, data: bytes) -> bytes:
        """Takes a piece, and gives what is written in answer. `Refused` at a byte that can't stand there."""

    def check(self) -> None:
        """Raises what was taken, and is to be told."""

    @property
    def screen(self) -> Screen | None:
        """What a station shows."""
        return None

    @property
    def waiting(self) -> int:
        """How many bytes have come and aren't taken."""
        return len(self._come)

    @property
    def has_ended(self) -> bool:
        """Whether nothing more comes."""
        return self.has_closed or self.refused is not None

    def arrive(self, data: bytes | None) -> None:
        """Bytes have come, or none; `None` where the other end has closed."""
        if data is None:
            self.has_closed = True
        elif data:
            self.heard += len(data)
            self.heard_at = time.monotonic()
            self._come += data

    def take(self) -> bool:
        """Takes what has come up to the end of the next record; whether there was anything. `Refused` as `push`, what
        `check` raises, and once `OSError` where the recording couldn't be written, which has ended it."""
        self._tell_fault()
        if not self._come or self.refused is not None:
            return False
        piece = self._next_piece()
        self._is_recorded |= not self._is_inside
        if self._is_recorded:
            self._record(self.other, piece)
        try:
            self._replies += self.push(piece)
        except Refused as refused:
            self._replies += refused.reply
            self._tell(refused, piece)
            raise
        begin = self._record_begin + piece
        is_whole = begin.endswith(b"\xff\xef")
        self._record_begin = b"" if is_whole else begin[-AROUND:]
        self._is_inside = not is_whole and (self._is_inside or COMMAND.sub(b"", piece) != b"")
        self.check()
        return True

    def replies(self) -> bytes:
        """What is to be written in answer to what was taken."""
        replies = bytes(self._replies)
        self._replies.clear()
        return replies

    def sends(self, data: bytes) -> bytes:
        """Bytes that are to be written, and are recorded."""
        self._record(self.name, data)
        return data

    def record_to(self, file: StrPath) -> str:
        """Records what is taken and sent from now on, beginning at a record or a Telnet command; the file's name."""
        self._tell_fault()
        recorder = Recorder(file)
        self.end_recording()
        self._recorder, self._is_recorded = recorder, False
        return recorder.file

    def end_recording(self) -> None:
        """Closes the recording's file, where there is one. `OSError` where it couldn't be written, if nobody was told."""
        if self._recorder is not None:
            self._recorder.close()
            self._recorder = None
        self._tell_fault()

    def _record(self, sender: str, data: bytes) -> None:
        """Records a piece. What can't be written ends the recording, and is told later, so that nothing is lost by it."""
        if self._recorder is not None:
            try:
                self._recorder.write(sender, data)
            except OSError as fault:
                self._fault = fault
                with contextlib.suppress(OSError):
                    self._recorder.close()
                self._recorder = None

    def _tell_fault(self) -> None:
        fault, self._fault = self._fault, None
        if fault is not None:
            raise fault

    def _next_piece(self) -> bytes:
        """Up to IAC EOR, or all. A cut within a record does no harm, so that its FF was doubled isn't looked for."""
        is_cut = self._come.startswith(b"\xef") and self._record_begin.endswith(b"\xff")
        at = -1 if is_cut else self._come.find(b"\xff\xef")
        end = 1 if is_cut else at + 2 if at >= 0 else len(self._come)
        piece = bytes(self._come[:end])
        del self._come[:end]
        return piece

    def _tell(self, refused: Refused, piece: bytes) -> None:
        """Keeps a refusal, with the bytes around its place."""
        at = refused.place - (self.heard - len(self._come) - len(piece))
        refused.before = (self._record_begin + piece[:at])[-AROUND:]
        refused.after = (piece[at:] + self._come[:AROUND])[:AROUND]
        refused.screen = self.screen
        self.refused = refused


class Wait(Generic[T]):
    """A wait at an end, for so many seconds in all. `found` is what it was for, once it is over."""

    def __init__(self, end: End, goal: Goal[T], seconds: float) -> None:
        self.seconds = check_wait(seconds)
        self.found: T | None = None
        self._end, self._goal = end, goal
        self._over = time.monotonic() + seconds
        self._heard_late = -1

    def step(self) -> float | None:
        """Takes what has come, a record at a time, until the goal is found; `None` then, and else for how many seconds
        more bytes are to be waited for.

        `WaitedTooLong` where the time is over and nothing more has come, `ConnectionEnded` where the other end has
        closed, `Refused` at a byte that can't stand there and from then on.
        """
        end = self._end
        while (found := self._goal.find() if end.refused is None or end.keeps_events else None) is None:
            if not end.take():
                return self._left()
        self.found = found
        return None

    def _left(self) -> float:
        end, now = self._end, time.monotonic()
        if end.refused is not None:
            raise end.refused.with_traceback(None)
        if end.has_closed:
            raise ConnectionEnded(f"{self._goal.what} hasn't come", end.screen)
        if now >= self._over:
            if end.heard == self._heard_late or now >= self._over + LATE:
                raise WaitedTooLong(self._goal.what, self.seconds, end.screen, self._hint())
            self._heard_late = end.heard
        return max(0.0, min(self._over, self._goal.due()) - now)

    def _hint(self) -> str:
        if self._end.heard:
            return ""
        return f": nothing at all has come from the {self._end.other}, as where a port isn't Telnet's, or is TLS's"


def check_wait(seconds: float, least: float = -math.inf) -> float:
    """A time in seconds; one below 0 is over. `ValueError` where it is none that can be waited for, or is below the
    least."""
    if not least <= seconds <= threading.TIMEOUT_MAX:
        raise ValueError(f"wait={seconds} is no number of seconds from 0 to {threading.TIMEOUT_MAX:.0f}")
    return seconds
