"""A connection with a time for everything, also by TLS."""
from __future__ import annotations

import contextlib
import socket
import time
from typing import TYPE_CHECKING

from .end import check_wait
from .errors import ConnectionEnded

if TYPE_CHECKING:
    from .tls import Tls

PIECE = 4096
"""How many bytes are read at once, at most."""

FAREWELL = 1.0
"""Seconds for what the other side still sends when a session is closed."""

PORT, TLS_PORT = 23, 992
"""The ports of Telnet and of Telnet over TLS."""

BACKLOG = 1024
"""How many stations may have connected and wait to be accepted; of further ones some would be lost."""


def check_port(port: int | None, tls: Tls = False, *, first: int = 1) -> int:
    """A port's number; of `None` the one for Telnet, by TLS or without. `ValueError` where it is none."""
    if port is None:
        return TLS_PORT if tls else PORT
    if not first <= port <= 65535:
        raise ValueError(f"port {port} isn't {first} to 65535")
    return port


def open_line(host: str, port: int, wait: float, tls: Tls = False) -> socket.socket:
    """A connection to a host within so many seconds, which its addresses share: each gets its part of what is left.

    `OSError` of the last address where none takes it, and where the host's certificate isn't trusted or is another's.
    Looking a name up has no limit.
    """
    check_wait(wait, 0)
    addresses = socket.getaddrinfo(host, port, type=socket.SOCK_STREAM)
    end = time.monotonic() + wait
    fault = OSError(f"no address of {host}")
    for count, (family, kind, protocol, _, address) in zip(range(len(addresses), 0, -1), addresses):
        line = socket.socket(family, kind, protocol)
        line.settimeout(max((end - time.monotonic()) / count, 0.001))
        try:
            line.connect(address)
        except OSError as cause:
            line.close()
            fault = cause
            continue
        if not tls:
            return line
        from .tls import secured

        line.settimeout(max(end - time.monotonic(), 0.001))
        return secured(line, host, port, wait, tls)
    raise fault


def prepare(sock: socket.socket) -> None:
    """Sets what a connection by TCP needs: small pieces at once, and a word now and then while nothing is said."""
    if sock.family in (socket.AF_INET, socket.AF_INET6):
        sock.setsockopt(socket.IPPROTO_TCP, socket.TCP_NODELAY, 1)
        sock.setsockopt(socket.SOL_SOCKET, socket.SO_KEEPALIVE, 1)
        # A data mark that is sent as urgent data (Telnet Synch, RFC 854) stays in its place.
        sock.setsockopt(socket.SOL_SOCKET, socket.SO_OOBINLINE, 1)


class Connection:
    """A connected socket. `wait` is the time of a write, in seconds. `ValueError` where it is none, or the socket is
    closed."""

    def __init__(self, sock: socket.socket, wait: float) -> None:
        if sock.fileno() < 0:
            raise ValueError(f"sock is closed: {sock}")
        self._sock = sock
        self.wait = check_wait(wait, 0)
        self._fault: str | None = None
        self._waits: tuple[type[OSError], ...] = (TimeoutError, BlockingIOError)
        self._is_tls = hasattr(sock, "unwrap")
        if self._is_tls:
            from .tls import WAITS

            self._waits += WAITS
        prepare(sock)

    def read(self, seconds: float) -> bytes | None:
        """What has come, or comes within so many seconds; nothing where none does, `None` where the other side has
        closed."""
        self._sock.settimeout(seconds)
        try:
            return self._sock.recv(PIECE) or None
        except self._waits:
            return b""
        except OSError:
            return None

    def write(self, data: bytes) -> None:
        """Writes all. `ConnectionEnded` where the other side is gone, or doesn't take it in time, and from then on."""
        if data and self._fault is None:
            self._sock.settimeout(self.wait)
            try:
                self._sock.sendall(data)
            except TimeoutError:
                self._fault = f"the other side hasn't taken what was written within {self.wait:g} seconds"
            except OSError as cause:
                self._fault = f"what was written isn't taken: {cause}"
        if data and self._fault is not None:
            raise ConnectionEnded(self._fault)

    def wake(self) -> None:
        """Ends a read or a write that waits on another thread."""
        with contextlib.suppress(OSError):
            socket.socket.shutdown(self._sock, socket.SHUT_RDWR)

    def close(self) -> None:
        """Closes it, once the other side has what was written. A second call does nothing."""
        if self._sock.fileno() >= 0:
            with contextlib.suppress(OSError):
                self._take_leave()
            self._sock.close()

    def _take_leave(self) -> None:
        """Says that nothing more is written, and reads what still comes, for a second at most."""
        if self._is_tls:
            from .tls import end_tls

            end_tls(self._sock)
        # What comes is read as it is: nobody looks at it.
        socket.socket.shutdown(self._sock, socket.SHUT_WR)
        end = time.monotonic() + FAREWELL
        while (left := end - time.monotonic()) > 0:
            self._sock.settimeout(left)
            if not socket.socket.recv(self._sock, PIECE):
                return
