"""A live session: a station at a host."""
from __future__ import annotations

import re
import socket
from collections.abc import Callable
from typing import TYPE_CHECKING

from .codes import Key
from .connection import Connection, check_port, open_line
from .errors import KeyRefused
from .fields import Field, Which
from .live import Live
from .screen import Screen
from .station import RefusedRecord, Station
from .station_end import Sought, StationEnd

if TYPE_CHECKING:
    from .tls import Tls


def connect(
    host: str,
    port: int | None = None,
    *,
    tls: Tls = False,
    terminal: str = "IBM-3179-2",
    wait: float = 30.0,
    strict: bool = False,
    device: str | None = None,
    code_page: int = 37,
    keyboard: str | None = None,
    raise_refusals: bool = False,
) -> Session:
    """A session at a host, of a live station: one that takes what live hosts send, and that no refused record ends. A
    `strict` one keeps to the profile.

    Where the host asks it is told the `device` name, if there is one, the `keyboard` type and the `code_page`, as
    `Station` has them. With `raise_refusals`, for tests of hosts, each refused record raises a `RecordRefused` once.

    The port is 23, and 992 with `tls`, which is `True` or a context of `ssl`. `wait` is how many seconds connecting may
    take, over all addresses of a name together, and then each wait and each write. Looking the name up has no limit.

    `OSError` where the host can't be reached in time, and `ssl.SSLError`, which is one, where its certificate isn't
    trusted, has expired or is another's; `ValueError` where there is no such terminal type, port, device name, code page or
    keyboard.
    """
    port = check_port(port, tls)
    station = Station(terminal, strict=strict, device=device, code_page=code_page, keyboard=keyboard)
    try:
        line = open_line(host, port, wait, tls)
        return Session(line, station=station, wait=wait, raise_refusals=raise_refusals)
    except BaseException:
        station.close()
        raise


class Session(Live):
    """A station at a host, over a connected socket, which it closes. It takes what the host sends while it waits, and
    where the screen is asked for.

    It is closed by `close`, from any thread, or where a `with` ends. Any thread may use it: a call waits until that of
    another thread is over.
    """

    def __init__(
        self,
        sock: socket.socket,
        *,
        station: Station | None = None,
        wait: float = 30.0,
        raise_refusals: bool = False,
    ) -> None:
        connection = Connection(sock, wait)
        self.station = Station() if station is None else station
        self._station_end = StationEnd(self.station, raise_refusals)
        super().__init__(self._station_end, connection)

    def type(self, text: str) -> None:
        """Types characters, and sends what they send, where Enter follows the last of a field. `KeyRefused` at the first
        that is refused; those before it stand."""
        self._send(lambda: self.station.type(text))

    def insert(self, text: str) -> None:
        """Types characters in insert mode."""
        self._send(lambda: self.station.insert(text))

    def press(self, key: Key | str) -> None:
        """Presses a key, also by its name as `Key.named` takes it, and sends what it sends. `KeyRefused`, or
        `StatusError`, as `Station.press`; `ConnectionEnded` where it sends and the host has closed: the screen is then as
        it was."""
        key = Key.named(key) if isinstance(key, str) else key
        with self._in_use():
            if key.sends:
                self._check_line()
            self._write(self.station.press(key))

    def fill(self, which: Which, text: str) -> None:
        """Puts a text into a field in place of what it held; the field is named as `Screen.field` says. Where an error is
        raised nothing was typed."""
        self._send(lambda: self.station.fill(which, text))

    def move_cursor(self, row: int, column: int) -> None:
        """Moves the cursor to a cell, by the cursor keys."""
        with self._in_use():
            self.station.move_cursor(row, column)

    def new_line(self) -> None:
        """Moves the cursor to the first field that begins in a row below, as New Line does."""
        with self._in_use():
            self.station.new_line()

    def erase_eof(self) -> None:
        """Empties the cells from the cursor to the end of its field."""
        with self._in_use():
            self.station.erase_eof()

    @property
    def refused_records(self) -> list[RefusedRecord]:
        """The records that were refused, of all that have come so far, and answered by a negative response: why, and at
        which of their own bytes."""
        with self._in_use():
            self._take_all()
            return self.station.refused_records

    @property
    def names_refused(self) -> int:
        """How often the host has refused the device's name, as one that is in use."""
        with self._in_use():
            self._take_all()
            return self.station.names_refused

    @property
    def missing(self) -> Field | None:
        """The first field that has to be entered or filled, where the last key was refused for that."""
        with self._in_use():
            return self.station.missing

    @property
    def screen(self) -> Screen:
        """The screen, with all that has come so far. `Refused` at a byte of the host that can't stand there; after that,
        and where the host has closed, what it showed last."""
        with self._in_use():
            self._take_all()
            return self.station.screen

    @property
    def fields(self) -> tuple[Field, ...]:
        """The fields of the screen."""
        return self.screen.fields

    def field(self, which: Which) -> Field:
        """A field of the screen, by its number, the label before it, or a cell of it, as `Screen.field` says."""
        return self.screen.field(which)

    def wait_unlocked(self, wait: float | None = None) -> Screen:
        """Takes what comes until the keyboard is unlocked, or an error of the host's stands, which waits for Reset;
        nothing where it is so."""
        return self._wait(self._station_end.unlocked(), wait)

    def wait_record(self, wait: float | None = None) -> Screen:
        """Takes what comes until one record more was carried out, and leaves what comes after that."""
        return self._wait(self._station_end.record(), wait)

    def wait_text(
        self, text: str | re.Pattern[str], at: tuple[int, int] | None = None, wait: float | None = None
    ) -> Screen:
        """Takes what comes until a row shows a text, or a match of a compiled regular expression, or it stands at a row
        and a column; nothing where it does. It looks after each record."""
        return self._wait(self._station_end.text(text, at), wait)

    def wait_any(self, *sought: Sought, wait: float | None = None) -> Sought:
        """Takes what comes until one of several is there, and gives the first that is: texts and compiled regular
        expressions that a row shows, functions of the screen that are true."""
        return self._wait(self._station_end.any_of(sought), wait)

    def wait_quiet(self, seconds: float, wait: float | None = None) -> Screen:
        """Takes what comes until nothing has come for so many seconds."""
        return self._wait(self._station_end.quiet(seconds), wait)

    def wait_for(self, fits: Callable[[Screen], bool], what: str = "the screen", wait: float | None = None) -> Screen:
        """Takes what comes until the screen is one that fits, and gives it; nothing where it does. The text of an error
        calls it `what`."""
        return self._wait(self._station_end.screen_that(fits, what), wait)

    def _send(self, press: Callable[[], bytes]) -> None:
        """Presses keys, and sends what they send, also where one of them is refused."""
        with self._in_use():
            try:
                sent = press()
            except KeyRefused as refused:
                if refused.sent:
                    self._write(refused.sent)
                raise
            if sent:
                self._check_line()
                self._write(sent)

    def _check_line(self) -> None:
        if self.has_ended:
            self._station_end.check_line()

    def _free(self) -> None:
        self.station.close()
