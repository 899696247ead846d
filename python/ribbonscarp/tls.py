"""Telnet over TLS. This module alone loads `ssl`, which takes some megabytes, where it is asked for."""
from __future__ import annotations

import contextlib
import socket
import ssl
from typing import TypeAlias

Tls: TypeAlias = bool | ssl.SSLContext
"""Whether a host is spoken to by TLS, and how: `True` is by the certificates that the system trusts."""

WAITS: tuple[type[OSError], ...] = (ssl.SSLWantReadError, ssl.SSLWantWriteError)
"""What a read raises where bytes have yet to come."""


def context_of(tls: Tls) -> ssl.SSLContext | None:
    """What TLS is spoken by; `None` where it isn't."""
    if isinstance(tls, ssl.SSLContext):
        return tls
    return ssl.create_default_context() if tls else None


def late_handshake(host: str, port: int, wait: float) -> TimeoutError:
    """The error of a host that says nothing to the first words of TLS."""
    return TimeoutError(f"{host} port {port} hasn't spoken TLS within {wait:g} seconds")


def secured(sock: socket.socket, host: str, port: int, wait: float, tls: Tls) -> socket.socket:
    """A connection after its TLS handshake, whose certificate is the host's."""
    context = context_of(tls)
    assert context is not None
    try:
        return context.wrap_socket(sock, server_hostname=host)
    except TimeoutError:
        raise late_handshake(host, port, wait) from None
    finally:
        # Where it was wrapped this does nothing: the wrapped one has the socket.
        sock.close()


def end_tls(sock: socket.socket) -> None:
    """Says that nothing more is written, and doesn't wait for the other side's word."""
    assert isinstance(sock, ssl.SSLSocket)
    sock.settimeout(0)
    with contextlib.suppress(OSError):
        sock.unwrap()
