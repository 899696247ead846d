"""A host's end for tests of stations: it takes any terminal and any record, sends any, and judges none."""
from __future__ import annotations

from .codes import AID, Key, Opcode
from .host import Answer, AnswerField, Event, EventKind, Heard
from .records import Record, Tokens, spell_record

_DO, _DONT, _WILL, _WONT, _SUB = 0xFD, 0xFE, 0xFB, 0xFC, 0xFA
_BINARY, _TERMINAL_TYPE, _RECORDS = 0x00, 0x18, 0x19
_REFUSALS = {_WILL: _DONT, _DO: _WONT}
_ASKED = bytes((0xFF, _DO, _RECORDS, 0xFF, _WILL, _RECORDS, 0xFF, _DO, _BINARY, 0xFF, _WILL, _BINARY))

_ATTENTION, _SYSTEM_REQUEST, _CANCEL = 0x4000, 0x0400, 0x0A
_ADDRESS = b"\x11"
_AIDS = {key.value[1]: key for key in Key if key.value[0] == AID}


class AnyHost:
    """A host's end that only agrees on records (RFC 4777); every event of a record has the record.

    `opening` are the bytes that begin the session; they are to be sent first.
    """

    opening = bytes((0xFF, _DO, _TERMINAL_TYPE))

    def __init__(self) -> None:
        self._tokens = Tokens()
        self._terminal: str | None = None
        self._is_ready = False
        self._agreed: set[tuple[int, int]] = set()

    def push(self, data: bytes) -> Heard:
        """Takes bytes of the station. No byte is refused."""
        reply, events = bytearray(), list[Event]()
        for token in self._tokens.push(data):
            if isinstance(token, Record):
                events.append(event_of(token))
                continue
            reply += self._answer(token)
            if not self._is_ready and self._terminal is not None and len(self._agreed) == 4:
                self._is_ready = True
                events.append(Event(EventKind.READY, terminal=self._terminal))
        return Heard(bytes(reply), tuple(events))

    def send(self, body: bytes, opcode: int = Opcode.PUT_GET, flags: int = 0) -> bytes:
        """Gives the record of any body, any opcode and any flags. `ValueError` where it would be too long."""
        return spell_record(bytes(body), opcode, flags)

    def cancel(self) -> bytes:
        """Gives the record that cancels a read."""
        return spell_record(b"", _CANCEL)

    def close(self) -> None:
        """Does nothing: it holds nothing of the library's."""

    def _answer(self, command: bytes) -> bytes:
        """What is written in answer to a Telnet command."""
        verb, option = command[1], command[2] if len(command) > 2 else 0
        if verb == _SUB and command[2:4] == bytes((_TERMINAL_TYPE, 0)) and self._terminal is None:
            self._terminal = command[4:-2].decode("ascii", "backslashreplace")
            return _ASKED
        if verb == _WILL and option == _TERMINAL_TYPE:
            return bytes((0xFF, _SUB, _TERMINAL_TYPE, 1, 0xFF, 0xF0))
        if verb in _REFUSALS and option in (_BINARY, _RECORDS):
            self._agreed.add((verb, option))
        elif verb in _REFUSALS:
            return bytes((0xFF, _REFUSALS[verb], option))
        return b""


def event_of(record: Record) -> Event:
    """What a record of a station tells: an answer where it has the form of one, a key that interrupts, or itself."""
    if record.flags & _ATTENTION:
        return Event(EventKind.ATTENTION, record=record)
    if record.flags & _SYSTEM_REQUEST:
        return Event(EventKind.SYSTEM_REQUEST, record=record)
    if record.opcode == _CANCEL:
        return Event(EventKind.CANCELLED, record=record)
    answer = answer_of(record.body)
    return Event(EventKind.RECORD if answer is None else EventKind.ANSWER, answer=answer, record=record)


def answer_of(body: bytes) -> Answer | None:
    """The answer that a body spells: the cursor, a key, and fields after their addresses; `None` where it is none.

    The content of an answer to Read Input Fields stands after no address, and in the record's body alone.
    """
    if len(body) < 3 or not (1 <= body[0] <= 24 and 1 <= body[1] <= 80) or body[2] not in _AIDS:
        return None
    head, *fields = body[3:].split(_ADDRESS)
    if head:
        fields = []
    return Answer(
        (body[0], body[1]),
        _AIDS[body[2]],
        tuple(AnswerField(field[0], field[1], field[2:]) for field in fields if len(field) >= 2),
    )
