"""What goes wrong, and where."""
from __future__ import annotations

from collections.abc import Sequence
from typing import TYPE_CHECKING, Any

from .codes import Key, KeyRefusal, Reason, Status

if TYPE_CHECKING:
    from .decoder import Step
    from .host import Event
    from .screen import Screen


class RibbonscarpError(Exception):
    """Every error of this package. It goes to another process as it is."""

    def __reduce__(self) -> tuple[Any, ...]:
        return _bare, (type(self),), {"args": self.args} | self.__dict__


class LibraryNotFound(RibbonscarpError):
    """The shared library isn't there, or is of another version. `faults` tells it of each place."""

    def __init__(self, faults: Sequence[str]) -> None:
        super().__init__(
            "no libribbonscarp: " + "; ".join(faults) + "; RIBBONSCARP_LIBRARY is to name the file of the library"
        )
        self.faults = list(faults)


class StatusError(RibbonscarpError):
    """A call had no effect, as `status` says: nothing was sent, and nothing changed."""

    def __init__(self, status: Status, text: str) -> None:
        super().__init__(text)
        self.status = status


class Refused(RibbonscarpError):
    """A byte of the other end is refused; every further call on this end fails.

    `place` counts bytes from the first that came, 0. What was written in answer before that byte is in `reply`; what a
    host's end was told before it in `events`, what a decoder found before it in `steps`. Of a live session `before` has
    the bytes before that byte, from the begin of its record, 32 at most, `after` the byte and those after it; `screen`
    is a station's then.
    """

    def __init__(self, reason: Reason, place: int, text: str) -> None:
        super().__init__(f"byte {place} is refused: {text}")
        self.reason = reason
        self.place = place
        self.text = text
        self.reply = b""
        self.events: tuple[Event, ...] = ()
        self.steps: tuple[Step, ...] = ()
        self.before = self.after = b""
        self.screen: Screen | None = None

    def __str__(self) -> str:
        text = super().__str__()
        if self.after:
            around = self.before.hex(" "), self.after[:1].hex(), self.after[1:].hex(" ")
            text += "; it stands in " + "{} [{}] {}".format(*around).upper().strip()
        return text + _shown(self.screen)


class RecordRefused(RibbonscarpError):
    """A record of the host is refused, and was answered by a negative response; the session goes on. Raised where a test
    of a host asks for it. `place` says which of the record's own bytes is refused, from 0, a doubled FF as one."""

    def __init__(self, reason: Reason, place: int, text: str, screen: Screen | None = None) -> None:
        super().__init__(f"a record is refused at its byte {place}: {text}{_shown(screen)}")
        self.reason = reason
        self.place = place
        self.text = text
        self.screen = screen


class Truncated(RibbonscarpError):
    """A stream ends inside a command or a record, after `length` bytes."""

    def __init__(self, length: int) -> None:
        super().__init__(f"the stream ends inside a command or a record, after {length} bytes")
        self.length = length


class SendRefused(RibbonscarpError):
    """The screen can't take an element of a body, for `reason` (50 to 55). Nothing is sent."""

    def __init__(self, reason: Reason, text: str) -> None:
        super().__init__(text)
        self.reason = reason


class KeyRefused(RibbonscarpError):
    """The keyboard or the field refuses `key`, a `Key` or a character, whose text `is_hidden` leaves out. The cursor stood
    at `place`, and stays there. What keys of the same call had sent before is in `sent`."""

    def __init__(
        self, refusal: KeyRefusal, key: Key | str, place: tuple[int, int], text: str, is_hidden: bool = False
    ) -> None:
        name = "a hidden character" if is_hidden else f"key {key.name if isinstance(key, Key) else repr(key)}"
        super().__init__(f"{name} at row {place[0]}, column {place[1]}: {text}")
        self.refusal = refusal
        self.key = key
        self.place = place
        self.sent = b""


class FieldNotFound(RibbonscarpError, LookupError):
    """No field, or more than one, is what was asked for."""


class TextTooLong(RibbonscarpError, ValueError):
    """A field has no room for a text; nothing was typed."""


class WaitedTooLong(RibbonscarpError, TimeoutError):
    """The time of a wait is over. The session goes on, and nothing is lost; `screen` is a station's then."""

    def __init__(self, what: str, seconds: float, screen: Screen | None = None, hint: str = "") -> None:
        super().__init__(f"{what} hasn't come within {seconds:g} seconds{hint or _shown(screen)}")
        self.screen = screen


class ConnectionEnded(RibbonscarpError, ConnectionError):
    """The other side has closed the connection, or doesn't take what is written; `screen` is a station's then."""

    def __init__(self, fault: str, screen: Screen | None = None) -> None:
        super().__init__(f"the connection has ended: {fault}{_shown(screen)}")
        self.screen = screen


def _bare(kind: type[RibbonscarpError]) -> RibbonscarpError:
    """An error of a kind, without its text and attributes."""
    return kind.__new__(kind)


def _shown(screen: Screen | None) -> str:
    """What a screen shows, after an error's text."""
    if screen is None:
        return ""
    return f"; the screen shows\n{screen}" if str(screen) else "; the screen is empty"
