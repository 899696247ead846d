"""A display station: bytes of a host in, replies and a screen out; keys in, answers out."""
from __future__ import annotations

import ctypes
import re
from collections.abc import Iterable
from typing import Any, NamedTuple

from .cells import is_hiding
from .codes import AID, CHARACTER, CODE_PAGES, INSERTED_CHARACTER, TERMINALS, Key, KeyRefusal, Read, Reason, Status
from .errors import KeyRefused
from .fields import Field, Which
from .filling import keys_to_fill, refusal_of, typed_of
from .handle import Held, bytes_of, check, front, lent, made_aside, refused
from .library import (
    ANSWER_ROOM,
    CELLS,
    COLUMNS,
    NO_FIELD,
    PUSH_ROOM,
    ROWS,
    CellTold,
    FieldTold,
    Identity,
    Pushed,
    StateTold,
    StationHandle,
    Told,
    refusal_text,
)
from .screen import Screen, State


class RefusedRecord(NamedTuple):
    """Why a record was refused, and which of its own bytes, from 0, a doubled FF as one."""

    reason: Reason
    place: int


class Station(Held):
    """A live display station of a terminal type, one of `TERMINALS`.

    It takes what live hosts send, and answers what they ask. A record that it refuses is answered by a negative response,
    and ends nothing. It acts on what fields ask of an operator, as field exit required, auto enter and mandatory fill.
    To a host that asks it says its `device` name, if it has one, `keyboard` type and `code_page`, by which characters are
    typed and shown (RFC 4777).

    One that is `strict` keeps to the profile, has no identity, and is ended by each refused record.

    `ValueError` where there is no such terminal type, name, keyboard or code page.
    """

    def __init__(
        self,
        terminal: str = "IBM-3179-2",
        *,
        strict: bool = False,
        device: str | None = None,
        code_page: int = 37,
        keyboard: str | None = None,
    ) -> None:
        if strict and (device, code_page, keyboard) != (None, 37, None):
            raise ValueError("a strict station has no device name, code page or keyboard")
        if code_page not in CODE_PAGES:
            raise ValueError(f"no code page is {code_page!r}; there are {', '.join(map(str, CODE_PAGES))}")
        super().__init__("station", StationHandle())
        self.is_strict = strict
        self.code_page = code_page
        self._refused_records: list[RefusedRecord] = []
        self._refusal: KeyRefusal | None = None
        name = _ascii(terminal)
        if strict:
            status = made_aside(lambda: self._call("new", name))
        else:
            identity = ctypes.byref(Identity(_ascii(device), _ascii(keyboard), code_page))
            status = made_aside(lambda: self._call("new_live", name, identity))
        if status == Status.BAD_ARGUMENT:
            self.close()
            raise ValueError(_fault(terminal, device, keyboard))
        check(status)

    def push(self, data: bytes) -> bytes:
        """Takes bytes of the host, and gives what the station writes in answer.

        `Refused` at a byte that can't stand there, and of a strict station at the end of a record that the screen can't
        take: its `reply` is what was written before. The screen is then as it was, and can still be looked at.
        """
        given, at, written = bytes_of(data), 0, bytearray()
        pushed, status = Pushed(), int(Status.DONE)
        with self._lock, lent(PUSH_ROOM) as reply:
            for end in self._ends(data):
                status = int(Status.NO_ROOM)
                while status == Status.NO_ROOM:
                    rest = ctypes.byref(given, at), end - at
                    status = self._call("push", *rest, reply, PUSH_ROOM, ctypes.byref(pushed))
                    at += pushed.taken
                    written += front(reply, pushed.replied)
                if status != Status.DONE:
                    break
                self._hear_refusal()
        if status == Status.REFUSED:
            error = refused(pushed.reason, pushed.place)
            error.reply = bytes(written)
            raise error
        check(status)
        return bytes(written)

    def press(self, key: Key | str) -> bytes:
        """Presses a key, also by its name as `Key.named` takes it, and gives what it sends to the host; most keys send
        nothing.

        `KeyRefused` where the keyboard or the field refuses it; `StatusError` with `NOT_READY` at a key that sends
        while records aren't allowed yet, and with `FAILED` after a refused byte. The station is then as it was.
        """
        key = Key.named(key) if isinstance(key, str) else key
        return self._press(key, *key.value)

    def type(self, text: str) -> bytes:
        """Types characters, one after another, and gives what they send: of a field that asks for it Enter follows the
        last. The first that is refused ends it, as `press` does."""
        return self._press_all((character, CHARACTER, ord(character)) for character in text)

    def insert(self, text: str) -> bytes:
        """Types characters in insert mode, as `type` does: what stands from the cursor on makes room."""
        return self._press_all((character, INSERTED_CHARACTER, ord(character)) for character in text)

    def fill(self, which: Which, text: str) -> bytes:
        """Puts a text into a field in place of what it held, by the keys that `keys_to_fill` names, and gives what they
        send.

        `FieldNotFound` where there is no such field, `TextTooLong` where it has no room for the text, `KeyRefused` where
        the keyboard is locked, the field is protected, or it doesn't take a character: no key is then pressed.
        """
        with self._lock:
            screen = self.screen
            field = screen.field(which)
            self._look_before(field, screen.is_locked, typed_of(field, text))
            return self._press_all(map(_key_told, keys_to_fill(field, screen.cursor, text)))

    def move_cursor(self, row: int, column: int) -> None:
        """Moves the cursor to a cell, by the cursor keys. `ValueError` where there is no such cell."""
        if not (1 <= row <= ROWS and 1 <= column <= COLUMNS):
            raise ValueError(f"no cell is at row {row}, column {column}")
        self._stroke("move_cursor", row, column)

    def new_line(self) -> None:
        """Moves the cursor to the first field that keys enter and that begins in a row below, as New Line does."""
        self._stroke("new_line")

    def erase_eof(self) -> None:
        """Empties the cells from the cursor to the end of its field. `KeyRefused` where it stands in no field that keys
        enter."""
        self._stroke("erase_eof")

    @property
    def state(self) -> State:
        """The cursor, the keyboard's lock, the lights, whether records are allowed, a host's error, and its alarms."""
        told = self._told_state()
        return State(
            (told.cursor_row, told.cursor_column),
            told.is_ready,
            told.is_locked,
            told.is_message_lit,
            told.is_blinking,
            Read(told.pending_read),
            told.records,
            told.field_count,
            told.error_row or None,
            told.alarms,
            told.is_full,
        )

    @property
    def alarms(self) -> int:
        """How many alarms the host has sounded since the station was made.

        One is a Write to Display whose second control character has the bit for it, in a record that wasn't refused.
        """
        return int(self._told_state().alarms)

    @property
    def refused_records(self) -> list[RefusedRecord]:
        """The records that were refused, and answered by a negative response: why, and at which of their own bytes. Of a
        strict station there are none."""
        with self._lock:
            return list(self._refused_records)

    @property
    def names_refused(self) -> int:
        """How often the host has refused the device's name, as one that is in use."""
        return int(self._told_state().names_refused)

    @property
    def missing(self) -> Field | None:
        """The first field that has to be entered or filled, where the last key was refused for that; else, and of a
        strict station, `None`."""
        with self._lock:
            index = ctypes.c_uint16(NO_FIELD)
            if self._refusal is not None and not self.is_strict:
                check(self._call("missing", self._refusal, ctypes.byref(index)))
            return None if index.value == NO_FIELD else self.screen.fields[index.value]

    @property
    def screen(self) -> Screen:
        """The screen as it stands now. What comes later doesn't change it."""
        cells, field, fields = (CellTold * CELLS)(), FieldTold(), []
        with self._lock:
            state = self.state
            check(self._call("cells", 1, ROWS, cells, CELLS))
            for index in range(state.field_count):
                check(self._call("field", index, ctypes.byref(field)))
                fields.append((field.row, field.column, field.length, field.format))
        return Screen(state, bytes(cells), fields)

    def changed_rows(self) -> list[int]:
        """The rows that show something else than when this was last asked; at first, than an empty screen."""
        rows = ctypes.c_uint32()
        check(self._call("changed", ctypes.byref(rows)))
        return [row for row in range(1, ROWS + 1) if rows.value >> (row - 1) & 1]

    def _ends(self, data: bytes) -> Iterable[int]:
        """Where pieces end, each with one record at most, so that each refused one is seen."""
        at = -1 if self.is_strict else data.find(b"\xff\xef")
        while at >= 0:
            yield at + 2
            at = data.find(b"\xff\xef", at + 2)
        yield len(data)

    def _hear_refusal(self) -> None:
        """Keeps why the last record was refused, if it was."""
        told = self._told_state()
        if told.refused_records > len(self._refused_records):
            self._refused_records.append(RefusedRecord(Reason(told.record_reason), int(told.record_place)))

    def _told_state(self) -> Any:
        told = StateTold()
        check(self._call("state", ctypes.byref(told)))
        return told

    def _look_before(self, field: Field, is_locked: bool, typed: str) -> None:
        """Raises why the keys that fill a field would be refused, before the first is pressed."""
        refusal = (KeyRefusal.LOCKED, 0) if is_locked else refusal_of(field, typed, self.code_page)
        if refusal is not None:
            reason, at = refusal
            row, column = divmod(field.column - 1 + at, COLUMNS)
            raise self._refused(reason, typed[at] if typed else Key.DELETE, (field.row + row, column + 1))

    def _press_all(self, keys: Iterable[tuple[Key | str, int, int]]) -> bytes:
        """Presses keys up to the first that is refused, and gives what they send."""
        sent = b""
        with self._lock:
            for key, kind, value in keys:
                try:
                    sent += self._press(key, kind, value)
                except KeyRefused as error:
                    error.sent = sent
                    raise
        return sent

    def _press(self, key: Key | str, kind: int, value: int) -> bytes:
        told = Told()
        self._refusal = None
        with lent(ANSWER_ROOM) as answer:
            status = self._call("key", kind, value, answer, ANSWER_ROOM, ctypes.byref(told))
            sent = front(answer, told.length)
        if status == Status.BAD_ARGUMENT and kind != AID:
            # Half of a surrogate pair, which is no character.
            status, told.reason = int(Status.KEY_REFUSED), int(KeyRefusal.WRONG_CHARACTER)
        if status == Status.KEY_REFUSED:
            self._refusal = KeyRefusal(told.reason)
            raise self._refused(self._refusal, key, self.state.cursor)
        check(status)
        return sent

    def _stroke(self, name: str, *arguments: int) -> None:
        """Presses a stroke of several keys."""
        told = Told()
        status = self._call(name, *arguments, ctypes.byref(told))
        if status == Status.KEY_REFUSED:
            raise self._refused(KeyRefusal(told.reason), name, self.state.cursor)
        check(status)

    def _refused(self, refusal: KeyRefusal, key: Key | str, place: tuple[int, int]) -> KeyRefused:
        text, row = refusal_text(refusal), self.state.error_row
        if refusal is KeyRefusal.LOCKED and row is not None:
            text += f", since an error of the host's stands on row {row}: press Key.RESET"
        return KeyRefused(refusal, key, place, text, isinstance(key, str) and len(key) == 1 and self._hides(*place))

    def _hides(self, row: int, column: int) -> bool:
        """Whether nothing is shown of what a cell holds."""
        cells = (CellTold * COLUMNS)()
        check(self._call("cells", row, row, cells, COLUMNS))
        return is_hiding(cells[column - 1].attribute)


def _key_told(key: Key | str) -> tuple[Key | str, int, int]:
    """A key or a character, with its kind and its value in the library."""
    kind, value = key.value if isinstance(key, Key) else (CHARACTER, ord(key))
    return key, kind, value


def _ascii(name: str | None) -> bytes | None:
    """A name as the library takes it. What isn't ASCII becomes what no name has."""
    return None if name is None else name.encode("ascii", "replace")


def _fault(terminal: str, device: str | None, keyboard: str | None) -> str:
    """What of a station's names is none."""
    if terminal.upper() not in TERMINALS:
        return f"no terminal type is {terminal!r}; there are {', '.join(TERMINALS)}"
    if device is not None and not re.fullmatch(r"[A-Za-z$#@][A-Za-z0-9$#@_.]{0,9}", device, re.ASCII):
        return f"no device name is {device!r}: 1 to 10 letters, digits, $, #, @, _ and ., first a letter, $, # or @"
    return f"no keyboard type is {keyboard!r}: three letters and digits"
