"""A host of a live session, and what is waited for at it."""
from __future__ import annotations

from collections import deque
from collections.abc import Callable

from .any_host import AnyHost
from .body import Body
from .end import End, Goal
from .errors import Refused
from .host import Answer, Event, EventKind, Host
from .records import Record


class HostEnd(End):
    """A host's end, and what its station has sent."""

    keeps_events = True

    def __init__(self, host: Host | AnyHost) -> None:
        super().__init__()
        self.host = host
        self.terminal: str | None = None
        self._events: deque[Event] = deque()
        self._replies += host.opening

    def push(self, data: bytes) -> bytes:
        try:
            heard = self.host.push(data)
        except Refused as refused:
            self._keep(refused.events)
            raise
        self._keep(heard.events)
        return heard.reply

    def spell(self, body: Body | bytes, opcode: int, flags: int) -> bytes:
        """The record of a body. `ValueError` where a host that keeps to the profile is asked for flags."""
        if isinstance(self.host, AnyHost):
            return self.host.send(bytes(body), opcode, flags)
        if flags:
            raise ValueError("flags are sent by a host with any=True alone")
        return self.host.send(body, opcode)

    def spell_bytes(self, data: bytes) -> bytes:
        """Bytes as they are. `ValueError` where the host keeps to the profile."""
        if isinstance(self.host, Host):
            raise ValueError("bytes as they are are sent by a host with any=True alone")
        return data

    def ready(self) -> Goal[str]:
        """That records may be sent: the name of the station's terminal."""
        return Goal("a station that is ready", lambda: self.terminal)

    def event(self) -> Goal[Event]:
        """What is told next."""
        return Goal("an event", lambda: self._next(lambda event: True))

    def answer(self) -> Goal[Answer]:
        """The next answer."""

        def find() -> Answer | None:
            event = self._next(lambda event: event.kind is EventKind.ANSWER)
            return None if event is None else event.answer

        return Goal("an answer", find)

    def record(self) -> Goal[Record]:
        """The next record, of a host that takes any."""
        if isinstance(self.host, Host):
            raise ValueError("records are told by a host with any=True alone")

        def find() -> Record | None:
            event = self._next(lambda event: event.record is not None)
            return None if event is None else event.record

        return Goal("a record", find)

    def _next(self, fits: Callable[[Event], bool]) -> Event | None:
        """Takes the first event that fits out of those that are kept."""
        event = next(filter(fits, self._events), None)
        if event is not None:
            self._events.remove(event)
        return event

    def _keep(self, events: tuple[Event, ...]) -> None:
        for event in events:
            if event.kind is EventKind.READY:
                self.terminal = event.terminal
            else:
                self._events.append(event)


def make_host(any: bool) -> Host | AnyHost:
    """A host that keeps to the profile, or one that takes any record."""
    return AnyHost() if any else Host()


