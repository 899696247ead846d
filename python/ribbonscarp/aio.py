"""Live sessions with asyncio, over its streams: `connect` and `listen`, with the calls of `Session` and `HostSession`.

What waits is awaited; what doesn't, as `screen`, `fill` and `type`, is called as there.
"""
from __future__ import annotations

import asyncio
import re
import ssl
from collections.abc import Callable

from .aio_live import LIMIT, Live, within
from .body import Body
from .codes import Key, Opcode
from .connection import BACKLOG, check_port
from .end import check_wait
from .errors import KeyRefused, WaitedTooLong
from .fields import Field, Which
from .handle import closed
from .host import Answer, Event
from .host_end import HostEnd, make_host
from .records import Record
from .screen import Screen
from .station import RefusedRecord, Station
from .station_end import Sought, StationEnd
from .tls import Tls, context_of, late_handshake


async def connect(
    host: str,
    port: int | None = None,
    *,
    tls: Tls = False,
    terminal: str = "IBM-3179-2",
    wait: float = 30.0,
    strict: bool = False,
    device: str | None = None,
    code_page: int = 37,
    keyboard: str | None = None,
    raise_refusals: bool = False,
) -> Session:
    """A session at a host, as `ribbonscarp.connect` gives one."""
    check_wait(wait, 0)
    port, context = check_port(port, tls), context_of(tls)
    station = Station(terminal, strict=strict, device=device, code_page=code_page, keyboard=keyboard)
    try:
        opening = asyncio.open_connection(host, port, ssl=context, limit=LIMIT)
        streams = await within(opening, wait, lambda streams: streams[1].close())
        return Session(*streams, station=station, wait=wait, raise_refusals=raise_refusals)
    except BaseException as cause:
        station.close()
        if isinstance(cause, asyncio.TimeoutError) and context is not None:
            raise late_handshake(host, port, wait) from None
        if isinstance(cause, asyncio.TimeoutError):
            raise TimeoutError(f"{host} port {port} can't be reached within {wait:g} seconds") from None
        raise


async def listen(
    address: str = "127.0.0.1",
    port: int = 0,
    *,
    tls: ssl.SSLContext | None = None,
    wait: float = 30.0,
    any: bool = False,
) -> Listener:
    """Listens for stations at an address, as `ribbonscarp.listen` does."""
    listener = Listener(wait, any)
    check_port(port, first=0)
    listener._server = await asyncio.start_server(listener._came, address, port, ssl=tls, limit=LIMIT, backlog=BACKLOG)
    listener.port = listener._server.sockets[0].getsockname()[1]
    return listener


class Session(Live):
    """A station at a host, over streams, with the calls of `ribbonscarp.Session`."""

    def __init__(
        self,
        reader: asyncio.StreamReader,
        writer: asyncio.StreamWriter,
        *,
        station: Station | None = None,
        wait: float = 30.0,
        raise_refusals: bool = False,
    ) -> None:
        check_wait(wait, 0)
        self.station = Station() if station is None else station
        self._station_end = StationEnd(self.station, raise_refusals)
        super().__init__(self._station_end, reader, writer, wait)

    def type(self, text: str) -> None:
        """Types characters."""
        self._send(lambda: self.station.type(text))

    def insert(self, text: str) -> None:
        """Types characters in insert mode."""
        self._send(lambda: self.station.insert(text))

    async def press(self, key: Key | str) -> None:
        """Presses a key, and sends what it sends."""
        key = Key.named(key) if isinstance(key, str) else key
        self._check_open()
        if key.sends:
            await self._hear(0)
            self._check_open()
            self._station_end.check_line()
        sent = self.station.press(key)
        if sent:
            await self._write(sent)

    def fill(self, which: Which, text: str) -> None:
        """Puts a text into a field in place of what it held."""
        self._send(lambda: self.station.fill(which, text))

    def move_cursor(self, row: int, column: int) -> None:
        """Moves the cursor to a cell."""
        self._check_open()
        self.station.move_cursor(row, column)

    def new_line(self) -> None:
        """Moves the cursor to the first field that begins in a row below."""
        self._check_open()
        self.station.new_line()

    def erase_eof(self) -> None:
        """Empties the cells from the cursor to the end of its field."""
        self._check_open()
        self.station.erase_eof()

    @property
    def refused_records(self) -> list[RefusedRecord]:
        """The records that were refused, of all that have come so far."""
        self._check_open()
        self._take_all()
        return self.station.refused_records

    @property
    def names_refused(self) -> int:
        """How often the host has refused the device's name."""
        self._check_open()
        self._take_all()
        return self.station.names_refused

    @property
    def missing(self) -> Field | None:
        """The first field that has to be entered or filled, where the last key was refused for that."""
        self._check_open()
        return self.station.missing

    @property
    def screen(self) -> Screen:
        """The screen, with all that has come so far."""
        self._check_open()
        self._take_all()
        return self.station.screen

    @property
    def fields(self) -> tuple[Field, ...]:
        """The fields of the screen."""
        return self.screen.fields

    def field(self, which: Which) -> Field:
        """A field of the screen."""
        return self.screen.field(which)

    async def wait_unlocked(self, wait: float | None = None) -> Screen:
        """Until the keyboard is unlocked, or an error of the host's stands."""
        return await self._wait(self._station_end.unlocked(), wait)

    async def wait_record(self, wait: float | None = None) -> Screen:
        """Until one record more was carried out."""
        return await self._wait(self._station_end.record(), wait)

    async def wait_text(
        self, text: str | re.Pattern[str], at: tuple[int, int] | None = None, wait: float | None = None
    ) -> Screen:
        """Until a row shows a text or a match, or it stands at a row and a column."""
        return await self._wait(self._station_end.text(text, at), wait)

    async def wait_any(self, *sought: Sought, wait: float | None = None) -> Sought:
        """Until one of several is there; the first that is."""
        return await self._wait(self._station_end.any_of(sought), wait)

    async def wait_quiet(self, seconds: float, wait: float | None = None) -> Screen:
        """Until nothing has come for so many seconds."""
        return await self._wait(self._station_end.quiet(seconds), wait)

    async def wait_for(
        self, fits: Callable[[Screen], bool], what: str = "the screen", wait: float | None = None
    ) -> Screen:
        """Until the screen is one that fits."""
        return await self._wait(self._station_end.screen_that(fits, what), wait)

    def _send(self, press: Callable[[], bytes]) -> None:
        """Presses keys, and sends what they send, also where one of them is refused."""
        self._check_open()
        try:
            sent = press()
        except KeyRefused as refused:
            self._write_at_once(refused.sent)
            raise
        if sent:
            self._station_end.check_line()
            self._write_at_once(sent)

    def _free(self) -> None:
        self.station.close()


class Listener:
    """Takes stations that connect, with the calls of `ribbonscarp.Listener`."""

    port = 0
    _server: asyncio.Server

    def __init__(self, wait: float, any: bool) -> None:
        self.wait = check_wait(wait, 0)
        self._any = any
        self._is_closed = False
        self._come: asyncio.Queue[HostSession | None] = asyncio.Queue()

    async def accept(self, wait: float | None = None) -> HostSession:
        """The session of the next station."""
        seconds = check_wait(self.wait if wait is None else wait)
        session = None
        try:
            if not self._is_closed:
                session = await within(self._come.get(), seconds, self._come.put_nowait)
        except asyncio.TimeoutError:
            raise WaitedTooLong("a station", seconds) from None
        if session is None:
            raise closed(self)
        return session

    async def close(self) -> None:
        """Listens no more; an `accept` of another task ends. Sessions that were accepted go on."""
        self._is_closed = True
        self._server.close()
        while not self._come.empty():
            session = self._come.get_nowait()
            if session is not None:
                await session.close()
        self._come.put_nowait(None)

    async def __aenter__(self) -> Listener:
        return self

    async def __aexit__(self, *error: object) -> None:
        await self.close()

    def _came(self, reader: asyncio.StreamReader, writer: asyncio.StreamWriter) -> None:
        self._come.put_nowait(HostSession(reader, writer, wait=self.wait, any=self._any))


class HostSession(Live):
    """A host's end of a session with a station, over streams, with the calls of `ribbonscarp.HostSession`."""

    def __init__(
        self, reader: asyncio.StreamReader, writer: asyncio.StreamWriter, *, wait: float = 30.0, any: bool = False
    ) -> None:
        check_wait(wait, 0)
        self.host = make_host(any)
        self._host_end = HostEnd(self.host)
        super().__init__(self._host_end, reader, writer, wait)
        self._answer()

    @property
    def terminal(self) -> str | None:
        """The name of the station's terminal, once records may be sent."""
        return self._host_end.terminal

    async def send(self, body: Body | bytes, opcode: int = Opcode.PUT_GET, flags: int = 0) -> None:
        """Sends a record of a body."""
        self._check_open()
        await self._write(self._host_end.spell(body, opcode, flags))

    async def send_bytes(self, data: bytes) -> None:
        """Sends bytes as they are. `ValueError` unless the session takes `any`."""
        self._check_open()
        await self._write(self._host_end.spell_bytes(data))

    async def cancel(self) -> None:
        """Cancels the asked read."""
        self._check_open()
        await self._write(self.host.cancel())

    async def wait_ready(self, wait: float | None = None) -> str:
        """Until records may be sent: the name of the station's terminal."""
        return await self._wait(self._host_end.ready(), wait)

    async def wait_answer(self, wait: float | None = None) -> Answer:
        """The answer to the asked read."""
        return await self._wait(self._host_end.answer(), wait)

    async def wait_event(self, wait: float | None = None) -> Event:
        """What is told next."""
        return await self._wait(self._host_end.event(), wait)

    async def wait_record(self, wait: float | None = None) -> Record:
        """The next record. `ValueError` unless the session takes `any`."""
        return await self._wait(self._host_end.record(), wait)

    def _free(self) -> None:
        self.host.close()
