"""A host's end: records out; bytes of a station in, its answers out."""
from __future__ import annotations

import ctypes
import itertools
from dataclasses import dataclass
from enum import Enum
from typing import Any

from .body import Body
from .codes import AID, TERMINALS, Key, Opcode, Reason, Status
from .decoder import Decoder
from .errors import Refused, SendRefused
from .handle import Held, bytes_of, check, front, refused
from .library import (
    CANCEL_ROOM,
    CELLS,
    REPLY_ROOM,
    AnswerTold,
    EventTold,
    Handle,
    Pushed,
    ReadFieldTold,
    Told,
    reason_text,
)
from .records import END_OF_RECORD, HEADER, Record, escaped, spell_header


class EventKind(Enum):
    """What a host's end is told."""

    READY = 1
    ANSWER = 2
    ATTENTION = 3
    SYSTEM_REQUEST = 4
    CANCELLED = 5
    RECORD = 6
    """Of a host that takes any record: one that is none of these."""


@dataclass(frozen=True)
class AnswerField:
    """A field of an answer: its first cell, and its content in code page 037, without trailing nulls."""

    row: int
    column: int
    content: bytes

    @property
    def text(self) -> str:
        """Its content as characters, by Python's codec for code page 037."""
        return self.content.decode("cp037")


@dataclass(frozen=True)
class Answer:
    """What a station has answered to the asked read: the cursor, the key, and the fields that come with it."""

    cursor: tuple[int, int]
    key: Key
    fields: tuple[AnswerField, ...]

    def field(self, row: int, column: int) -> AnswerField | None:
        """The field that starts at a cell; `None` where none of them does."""
        return next((field for field in self.fields if (field.row, field.column) == (row, column)), None)


@dataclass(frozen=True)
class Event:
    """What a host's end was told: of `READY` the terminal's name, of `ANSWER` the answer; of a host that takes any
    record, the record."""

    kind: EventKind
    terminal: str | None = None
    answer: Answer | None = None
    record: Record | None = None


@dataclass(frozen=True)
class Heard:
    """What bytes of a station came to: what the host's end writes in answer, and what it was told, in order."""

    reply: bytes
    events: tuple[Event, ...]


class Host(Held):
    """A host's end. `opening` are the bytes that begin the session; they are to be sent first."""

    def __init__(self) -> None:
        super().__init__("host", Handle())
        opening, told = ctypes.create_string_buffer(REPLY_ROOM), Told()
        check(self._call("new", opening, REPLY_ROOM, ctypes.byref(told)))
        self.opening = front(opening, told.length)

    def push(self, data: bytes) -> Heard:
        """Takes bytes of the station.

        `Refused` at a byte that can't stand there, or at the end of a record that nobody asked for; its `reply` and
        `events` are what came before.
        """
        given, at = bytes_of(data), 0
        reply, events = bytearray(), list[Event]()
        room = int(self._library.ribbon_reply_room(len(data)))
        buffer, pushed, told = ctypes.create_string_buffer(max(room, 1)), Pushed(), EventTold()
        while at < len(data):
            rest = ctypes.byref(given, at), len(data) - at
            status = self._call("push", *rest, buffer, room, ctypes.byref(pushed), ctypes.byref(told))
            reply += front(buffer, pushed.replied)
            if status == Status.REFUSED:
                error = refused(pushed.reason, pushed.place)
                error.reply, error.events = bytes(reply), tuple(events)
                raise error
            check(status)
            at += pushed.taken
            if told.kind:
                events.append(self._event(told))
        return Heard(bytes(reply), tuple(events))

    def send(self, body: Body | bytes, opcode: int = Opcode.PUT_GET) -> bytes:
        """Gives the record of a body, the bytes of its commands and orders, which is to be sent.

        `SendRefused` where the screen can't take an element. `StatusError` with `NOT_READY` while records aren't
        allowed, `READ_OUTSTANDING` where a read is asked or a cancel is unanswered and the body isn't empty, `TOO_BIG`,
        or `FAILED` after a refused byte. `ValueError` where the bytes are no body, which tells the first wrong one, or
        where no record that is sent so has the opcode.
        Nothing is then sent, and the host is as it was.
        """
        spelled, told = bytes(body), Told()
        with self._lock:
            status = self._call("send", opcode, spelled, len(spelled), ctypes.byref(told))
            if status == Status.REFUSED:
                raise SendRefused(Reason(told.reason), reason_text(told.reason))
            if status == Status.BAD_ARGUMENT:
                raise ValueError(f"no record of opcode {opcode:02X} has this body: {_fault_of(spelled)}")
            check(status)
            record = ctypes.create_string_buffer(told.length)
            check(self._call("sent", record, told.length, ctypes.byref(told)))
        return record.raw

    def cancel(self) -> bytes:
        """Gives the record that cancels the asked read, which is to be sent. The read ends with an answer that has
        crossed it, or with `CANCELLED`.

        `StatusError` with `NO_READ_TO_CANCEL`, `NOT_READY` or `FAILED`.
        """
        record, told = ctypes.create_string_buffer(CANCEL_ROOM), Told()
        check(self._call("cancel", record, CANCEL_ROOM, ctypes.byref(told)))
        return front(record, told.length)

    def _event(self, told: Any) -> Event:
        kind = EventKind(told.kind)
        if kind is EventKind.READY:
            return Event(kind, terminal=TERMINALS[told.terminal - 1])
        if kind is EventKind.ANSWER:
            return Event(kind, answer=self._answer())
        return Event(kind)

    def _answer(self) -> Answer:
        told = AnswerTold()
        check(self._call("answer", ctypes.byref(told)))
        fields = tuple(self._answer_field(index) for index in range(told.field_count))
        return Answer((told.cursor_row, told.cursor_column), Key((AID, told.aid)), fields)

    def _answer_field(self, index: int) -> AnswerField:
        content, told = ctypes.create_string_buffer(CELLS), ReadFieldTold()
        check(self._call("answer_field", index, content, CELLS, ctypes.byref(told)))
        return AnswerField(told.row, told.column, front(content, told.length))


def _fault_of(body: bytes) -> str:
    """Where a body goes wrong, and why."""
    record = spell_header(len(body), Opcode.PUT_GET) + body
    with Decoder(strict=True) as decoder:
        try:
            decoder.push(escaped(record) + END_OF_RECORD)
        except Refused as error:
            # Places count an FF twice.
            ends = itertools.accumulate(1 + (byte == 0xFF) for byte in record)
            at = next((at for at, end in enumerate(ends) if end > error.place), len(record)) - HEADER
            if at >= len(body):
                return f"it ends inside an element, after its {len(body)} bytes ({error.text})"
            return f"its byte {at}, {body[at]:02X}, is wrong ({error.text})"
    return "the body is right, but such a record isn't sent"
