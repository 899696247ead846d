"""A decoder of a host's stream, which only tells what it holds, and where it goes wrong."""
from __future__ import annotations

import ctypes
from dataclasses import dataclass
from typing import Any, TypeAlias

from .codes import Opcode, Status
from .elements import Operands, name_of, operands_of
from .errors import Truncated
from .handle import Held, bytes_of, check, refused
from .library import Handle, StepTold

_MORE, _HEADER, _ELEMENT, _RECORD, _TELNET = range(5)

_ROOM = 4096
"""How many bytes of a run of cells are handed out at a time."""


@dataclass(frozen=True)
class Header:
    """A record begins. `place` is that of its header's last byte, `length` the one that it declares."""

    place: int
    flags: int
    length: int
    opcode: Opcode


@dataclass(frozen=True)
class Element:
    """A command or an order of the open record's body, by its bytes. `place` is that of the last."""

    place: int
    spelling: bytes

    @property
    def name(self) -> str:
        """Its name, as `t5250 show` prints it: `WRITE`, `SBA`."""
        return name_of(self.spelling)

    @property
    def operands(self) -> Operands:
        """Its operands by their names, as `row` and `column` of `SBA`."""
        return operands_of(self.spelling)


@dataclass(frozen=True)
class Cells:
    """A run of elements of the open record's body that each put one byte into the next cell: characters of code page 037,
    attributes (20 to 3F) and other bytes. `place` is that of the last. A run also ends where a piece does."""

    place: int
    data: bytes

    @property
    def text(self) -> str:
        """What the bytes show: an attribute and a null as a blank."""
        return self.data.decode("cp037").translate(_BLANKS)


@dataclass(frozen=True)
class RecordEnd:
    """The open record is complete, with its IAC EOR, whose second byte stands at `place`."""

    place: int


@dataclass(frozen=True)
class Command:
    """A Telnet command, by its bytes; it may stand inside a record. `place` is that of its last byte."""

    place: int
    spelling: bytes


Step: TypeAlias = Header | Element | Cells | RecordEnd | Command
"""What is complete in a stream. Places count bytes from 0."""


class Decoder(Held):
    """A decoder of a host's stream, in any pieces. It takes what live hosts send; `strict` keeps to the profile."""

    def __init__(self, *, strict: bool = False) -> None:
        super().__init__("decoder", Handle())
        check(self._call("new" if strict else "new_extended"))
        self._unit = (ctypes.c_char * _ROOM)()
        self._taken = 0

    def push(self, data: bytes) -> list[Step]:
        """Takes bytes, and gives what is complete with them.

        `Refused` at the first byte after which the bytes begin no stream; its `steps` are those before it. From then on
        every call raises `StatusError` with `FAILED`.
        """
        steps: list[Step] = []
        told, given, at, size = StepTold(), bytes_of(data), 0, len(data)
        with self._lock:
            while at < size:
                status = self._call(
                    "push", ctypes.byref(given, at), size - at, self._unit, _ROOM, ctypes.byref(told)
                )
                at += told.taken
                self._taken += told.taken
                self._append(told, steps)
                if status == Status.REFUSED:
                    error = refused(told.reason, told.place)
                    error.steps = tuple(steps)
                    raise error
                check(status)
        return steps

    def finish(self) -> None:
        """Says that the stream ends here. `Truncated` where it ends inside a command or a record."""
        place = ctypes.c_uint64()
        status = self._call("finish", ctypes.byref(place))
        if status == Status.TRUNCATED:
            raise Truncated(place.value)
        check(status)

    def _append(self, told: StepTold, steps: list[Step]) -> None:
        """What is told: cells, and what is complete after them, whose last byte is then the last one taken."""
        place, cells, kind = self._taken - 1, told.cells, told.kind
        given = ctypes.string_at(self._unit, cells + told.length)
        if cells:
            steps.append(Cells(place - (kind != _MORE), given[:cells]))
        if kind == _ELEMENT:
            steps.append(Element(place, given[cells:]))
        elif kind == _HEADER:
            steps.append(Header(place, told.flags, told.record_length, Opcode(told.opcode)))
        elif kind == _RECORD:
            steps.append(RecordEnd(place))
        elif kind == _TELNET:
            steps.append(Command(place, given[cells:]))


_BLANKS = {code: " " for code in map(ord, bytes(range(0x40)).decode("cp037"))}
