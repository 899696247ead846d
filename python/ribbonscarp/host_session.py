"""Live sessions from the host's side: stations connect, are sent records, and answer."""
from __future__ import annotations

import contextlib
import socket
import time
from typing import TYPE_CHECKING

from .body import Body
from .codes import Opcode
from .connection import BACKLOG, Connection, check_port
from .end import LATE, check_wait
from .errors import WaitedTooLong
from .handle import closed
from .host import Answer, Event
from .host_end import HostEnd, make_host
from .live import Live
from .records import Record

if TYPE_CHECKING:
    import ssl

HANDSHAKE = 10.0
"""For how many seconds a station may keep others waiting before it speaks TLS, at most."""


def listen(
    address: str = "127.0.0.1",
    port: int = 0,
    *,
    tls: ssl.SSLContext | None = None,
    wait: float = 30.0,
    any: bool = False,
) -> Listener:
    """Listens for stations at an address; port 0 takes a free one, which `Listener.port` tells. `wait` is how many
    seconds a station may take to connect, and then each wait and each write. With `tls` stations speak by TLS, and the
    context has the host's certificate. With `any` the sessions take and send any record.

    `OSError` where the address can't be listened at."""
    check_port(port, first=0)
    check_wait(wait, 0)
    family = socket.AF_INET6 if ":" in address else socket.AF_INET
    return Listener(socket.create_server((address, port), family=family, backlog=BACKLOG), wait=wait, tls=tls, any=any)


class Listener:
    """Takes stations that connect, one after another. It is closed by `close`, from any thread, or where a `with`
    ends."""

    def __init__(
        self, sock: socket.socket, *, wait: float = 30.0, tls: ssl.SSLContext | None = None, any: bool = False
    ) -> None:
        self._sock = sock
        self._tls, self._any = tls, any
        self._is_closed = False
        self._shaking: set[ssl.SSLSocket] = set()
        self.wait = check_wait(wait, 0)
        self.port: int = sock.getsockname()[1]

    def accept(self, wait: float | None = None) -> HostSession:
        """The session of the next station; one that doesn't speak TLS as it is to is left out. `WaitedTooLong` where none
        comes in time; `StatusError` where the listener is closed, also meanwhile."""
        seconds = check_wait(self.wait if wait is None else wait)
        over, left, hint = time.monotonic() + seconds, max(seconds, 0.0), ""
        while left >= 0:
            try:
                self._sock.settimeout(left)
                line, _ = self._sock.accept()
            except (TimeoutError, BlockingIOError):
                break
            except OSError:
                if self._is_closed:
                    raise closed(self) from None
                raise
            ready = line if self._tls is None else self._secured(line, self._tls, over)
            if not isinstance(ready, OSError):
                return HostSession(ready, wait=self.wait, any=self._any)
            left, hint = over - time.monotonic(), f"; one hasn't spoken TLS as it is to: {ready}"
        raise WaitedTooLong("a station", seconds, hint=hint)

    def close(self) -> None:
        """Listens no more; an `accept` on another thread ends. Sessions that were accepted go on."""
        self._is_closed = True
        for line in (self._sock, *self._shaking):
            with contextlib.suppress(OSError):
                socket.socket.shutdown(line, socket.SHUT_RDWR)
        self._sock.close()

    def __enter__(self) -> Listener:
        return self

    def __exit__(self, *error: object) -> None:
        self.close()

    def _secured(self, line: socket.socket, tls: ssl.SSLContext, over: float) -> socket.socket | OSError:
        """A connection after its TLS handshake, or why that fails: also where its time is over, or this is closed."""
        try:
            with line:
                line.settimeout(min(max(over - time.monotonic(), LATE), HANDSHAKE))
                secured = tls.wrap_socket(line, server_side=True, do_handshake_on_connect=False)
        except OSError as fault:
            return fault
        self._shaking.add(secured)
        try:
            if self._is_closed:
                socket.socket.shutdown(secured, socket.SHUT_RDWR)
            secured.do_handshake()
            return secured
        except OSError as fault:
            secured.close()
            return fault
        finally:
            self._shaking.discard(secured)


class HostSession(Live):
    """A host's end of a session with a station, over a connected socket, which it closes. It takes what the station sends
    while it waits.

    With `any` it takes any terminal and any record, sends any, and judges none: a host for tests. It is closed by
    `close`, from any thread, or where a `with` ends. Any thread may use it: a call waits until that of another thread is
    over.
    """

    def __init__(self, sock: socket.socket, *, wait: float = 30.0, any: bool = False) -> None:
        connection = Connection(sock, wait)
        self.host = make_host(any)
        self._host_end = HostEnd(self.host)
        super().__init__(self._host_end, connection)
        self._answer()

    @property
    def terminal(self) -> str | None:
        """The name of the station's terminal, once records may be sent."""
        return self._host_end.terminal

    def send(self, body: Body | bytes, opcode: int = Opcode.PUT_GET, flags: int = 0) -> None:
        """Sends a record of a body. What `Host.send` refuses isn't sent; with `any` nothing is refused."""
        with self._in_use():
            self._write(self._host_end.spell(body, opcode, flags))

    def send_bytes(self, data: bytes) -> None:
        """Sends bytes as they are, which may be no record. `ValueError` unless the session takes `any`."""
        with self._in_use():
            self._write(self._host_end.spell_bytes(data))

    def cancel(self) -> None:
        """Cancels the asked read; `EventKind.CANCELLED`, or an answer that has crossed it, is told later."""
        with self._in_use():
            self._write(self.host.cancel())

    def wait_ready(self, wait: float | None = None) -> str:
        """Waits until records may be sent, and gives the name of the station's terminal."""
        return self._wait(self._host_end.ready(), wait)

    def wait_answer(self, wait: float | None = None) -> Answer:
        """Waits for the answer to the asked read. What else is told before it is kept for `wait_event`."""
        return self._wait(self._host_end.answer(), wait)

    def wait_event(self, wait: float | None = None) -> Event:
        """Waits for what is told next: an answer, Attention, System Request, the end of a cancel."""
        return self._wait(self._host_end.event(), wait)

    def wait_record(self, wait: float | None = None) -> Record:
        """Waits for the next record, whatever it is. `ValueError` unless the session takes `any`."""
        return self._wait(self._host_end.record(), wait)

    def _free(self) -> None:
        self.host.close()
