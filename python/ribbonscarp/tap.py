"""A tap between an emulator and its host: it passes bytes on as they come, records both ends, prints what passes."""
from __future__ import annotations

import asyncio
import contextlib
import os
import socket
import struct
import sys
import time
from typing import TextIO

from .aio_live import within
from .connection import PIECE, prepare
from .lines import HostLines, StationLines
from .recording import Recorder, StrPath

_OTHER = {"host": "station", "station": "host"}

_AT_ONCE = struct.pack("ii", 1, 0)
"""Of SO_LINGER: a close resets the connection."""


class Tap:
    """Takes connections one after another, each to a connection of its own to the host. The next one waits until one is
    over.

    What passes is printed on `out`, what goes wrong on `err`. Each connection is recorded in a new file of the name
    `file`, from its first byte on. Bytes pass before they are printed; while one end takes none, none are read of the
    other.
    """

    def __init__(
        self,
        host: str,
        port: int,
        file: StrPath,
        *,
        wait: float = 10.0,
        silence: float = 30.0,
        out: TextIO = sys.stdout,
        err: TextIO = sys.stderr,
    ) -> None:
        """The host is to take a connection within `wait` seconds. Where one end has closed and the other says nothing
        for `silence` seconds the connection is over."""
        self.host, self.port, self.file = host, port, file
        self.wait, self.silence = wait, silence
        self._out, self._err = out, err

    async def serve(self, listener: socket.socket) -> None:
        """Serves what connects at a listening socket, until it is cancelled."""
        loop = asyncio.get_running_loop()
        listener.setblocking(False)
        while True:
            try:
                station, address = await loop.sock_accept(listener)
            except ConnectionAbortedError:
                continue
            with station:
                self.print(f"connection from {spelled(address)}")
                await self._carry(station)

    async def _carry(self, station: socket.socket) -> None:
        begun = time.monotonic()
        try:
            host = await self._reached()
        except OSError as fault:
            self.warn(f"no connection to {spelled((self.host, self.port))}: {cause_of(fault)}")
            return
        with host:
            for sock in (station, host):
                sock.setblocking(False)
                prepare(sock)
            with _Passing(self, {"station": station, "host": host}, begun) as passing:
                await passing.run()

    async def _reached(self) -> socket.socket:
        """A connection to the host. `OSError` of its last address where none takes it in time."""
        loop = asyncio.get_running_loop()
        found = await loop.getaddrinfo(self.host, self.port, type=socket.SOCK_STREAM)
        end, fault = time.monotonic() + self.wait, OSError(f"no address of {self.host}")
        for count, (family, kind, protocol, _, address) in zip(range(len(found), 0, -1), found):
            sock = socket.socket(family, kind, protocol)
            try:
                sock.setblocking(False)
                await within(loop.sock_connect(sock, address), max((end - time.monotonic()) / count, 0.001))
                return sock
            except asyncio.TimeoutError:
                fault = OSError(f"no answer within {self.wait:g} seconds")
            except OSError as cause:
                fault = cause
            except BaseException:
                sock.close()
                raise
            sock.close()
        raise fault

    def print(self, line: str) -> None:
        """Prints a line of what passes."""
        print(line, file=self._out, flush=True)

    def warn(self, line: str) -> None:
        """Tells what goes wrong, and the names of recordings."""
        print(line, file=self._err, flush=True)


class _Passing:
    """A connection of a station to a host, which are at these sockets."""

    def __init__(self, tap: Tap, ends: dict[str, socket.socket], begun: float) -> None:
        self._tap, self._ends, self._begun = tap, ends, begun
        self._lines: dict[str, HostLines | StationLines] = {"host": HostLines(), "station": StationLines()}
        self._recorder: Recorder | None = None
        self._is_recorded, self._is_lost = True, False
        self._pieces = 0

    def __enter__(self) -> _Passing:
        return self

    def __exit__(self, *error: object) -> None:
        for lines in self._lines.values():
            lines.finish()
        if self._recorder is not None:
            self._recorder.close()

    async def run(self) -> None:
        """Passes on what both ends send, until both have closed, one is lost, or one has closed and the other is
        silent."""
        tasks = {asyncio.ensure_future(self._pass(sender)) for sender in self._ends}
        try:
            done, left = await asyncio.wait(tasks, return_when=asyncio.FIRST_COMPLETED)
            while all(task.result() for task in done) and left:
                pieces = self._pieces
                done, left = await asyncio.wait(left, timeout=self._tap.silence)
                if not done and self._pieces == pieces:
                    self._tap.warn(f"one end has closed, and the other is silent for {self._tap.silence:g} seconds")
                    return
        finally:
            for task in tasks:
                task.cancel()
            await asyncio.gather(*tasks, return_exceptions=True)

    async def _pass(self, sender: str) -> bool:
        """Passes on what one end sends. Whether it has closed, and not one of them is lost."""
        loop, receiver = asyncio.get_running_loop(), _OTHER[sender]
        source, sink = self._ends[sender], self._ends[receiver]
        while True:
            try:
                data = await loop.sock_recv(source, PIECE)
            except OSError as fault:
                return self._lost(sender, fault)
            if self._is_lost:
                return False
            if not data:
                self._print(sender, [*self._lines[sender].finish(), "closed"])
                with contextlib.suppress(OSError):
                    sink.shutdown(socket.SHUT_WR)
                return True
            passed = _sent(sink, data)
            self._tell(sender, data)
            try:
                if passed < len(data):
                    await loop.sock_sendall(sink, data[passed:])
            except OSError as fault:
                return self._lost(receiver, fault)

    def _lost(self, end: str, fault: OSError) -> bool:
        """An end is lost: the other one's connection is reset, as this one was. Only one of the two that pass meets the
        fault, and the other an end."""
        if self._is_lost:
            return False
        self._is_lost = True
        is_reset = isinstance(fault, (ConnectionResetError, BrokenPipeError))
        what = "reset" if is_reset else f"lost: {cause_of(fault)}"
        self._print(end, [*self._lines[end].finish(), what])
        self._ends[_OTHER[end]].setsockopt(socket.SOL_SOCKET, socket.SO_LINGER, _AT_ONCE)
        return False

    def _tell(self, sender: str, data: bytes) -> None:
        """Records and prints what has come."""
        self._pieces += 1
        try:
            if self._is_recorded:
                self._record(sender, data)
        except OSError as fault:
            self._is_recorded = False
            self._tap.warn(f"not recorded any more: cannot write {self._tap.file}: {cause_of(fault)}")
        self._print(sender, self._lines[sender].push(data))

    def _record(self, sender: str, data: bytes) -> None:
        if self._recorder is None:
            self._recorder = Recorder(self._tap.file, self._begun)
            self._tap.warn(f"recording {self._recorder.file}")
        self._recorder.write(sender, data)

    def _print(self, sender: str, lines: list[str]) -> None:
        """Prints lines, with the time and the end before each that isn't of the record before it."""
        before = f"+{time.monotonic() - self._begun:.3f} {sender} "
        if lines:
            self._tap.print("\n".join(line if line.startswith("  ") else before + line for line in lines))


def _sent(sink: socket.socket, data: bytes) -> int:
    """How many bytes a socket takes at once. A fault is met by the next call."""
    try:
        return sink.send(data)
    except OSError:
        return 0


def cause_of(fault: OSError) -> str:
    """What a fault is, in the system's words."""
    if fault.errno is None or isinstance(fault, socket.gaierror):
        return fault.strerror or str(fault)
    return os.strerror(fault.errno)


def spelled(address: tuple[object, ...]) -> str:
    """An address and its port, as the program prints them."""
    host, port, *_ = address
    return f"[{host}]:{port}" if ":" in str(host) else f"{host}:{port}"
