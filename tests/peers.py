"""The other side of a connection: a host or a station in Python."""
from __future__ import annotations

import contextlib
import socket
import threading
import time
from collections.abc import Callable, Iterator

from records import negotiation


def expect(got: object, wanted: object, what: str) -> None:
    if got != wanted:
        raise AssertionError(f"{what}: got {got!r}, and not {wanted!r}")


class Side:
    """A connected socket: what it has sent and heard, and what of that isn't taken yet."""

    def __init__(self, stream: socket.socket, seconds: float = 60) -> None:
        self.stream = stream
        self.stream.settimeout(seconds)
        # Each send by itself.
        self.stream.setsockopt(socket.IPPROTO_TCP, socket.TCP_NODELAY, 1)
        self.sent = self.heard = self.rest = b""

    def send(self, data: bytes, pieces: int = 0) -> None:
        """Sends all at once, or in pieces of this length."""
        self.sent += data
        pieces = pieces or max(len(data), 1)
        for at in range(0, len(data), pieces):
            self.stream.sendall(data[at:at + pieces])
            time.sleep(0.001)

    def read(self) -> bytes:
        """What comes next; nothing where the other side has closed."""
        piece = self.stream.recv(4096)
        self.heard, self.rest = self.heard + piece, self.rest + piece
        return piece

    def get(self, length: int) -> bytes:
        """The next bytes, fewer where the other side has closed."""
        while len(self.rest) < length and self.read():
            pass
        got, self.rest = self.rest[:length], self.rest[length:]
        return got

    def take(self, wanted: bytes, what: str = "what came over the line") -> None:
        expect(self.get(len(wanted)), wanted, what)

    def take_end(self) -> None:
        """The other side closes its half, and nothing came before."""
        expect(self.get(1), b"", "what came over the line before its end")

    def close(self) -> None:
        self.stream.close()


def negotiate_as_host(side: Side, pieces: int = 0, name: bytes = b"IBM-3179-2") -> None:
    for asked, answer in negotiation(name):
        side.send(asked, pieces)
        side.take(answer)


def negotiate_as_station(side: Side, name: bytes = b"IBM-3179-2", pieces: int = 0) -> None:
    for asked, answer in negotiation(name):
        side.take(asked)
        side.send(answer, pieces)


@contextlib.contextmanager
def swallowed(*addresses: str) -> Iterator[int]:
    """A port at which these addresses answer to no connection: their queues are full."""
    with contextlib.ExitStack() as kept:
        port = 0
        for address in addresses:
            listener = kept.enter_context(socket.socket())
            listener.bind((address, port))
            listener.listen(0)
            port = listener.getsockname()[1]
            for _ in range(4):
                filler = kept.enter_context(socket.socket())
                filler.setblocking(False)
                filler.connect_ex((address, port))
        time.sleep(0.1)
        yield port


@contextlib.contextmanager
def refusing() -> Iterator[int]:
    """A port at which nobody listens until the test does: no other program is given it meanwhile."""
    with socket.socket() as bound:
        bound.setsockopt(socket.SOL_SOCKET, socket.SO_REUSEADDR, 1)
        bound.bind(("127.0.0.1", 0))
        yield bound.getsockname()[1]


class Host:
    """A listening socket, at which a function plays the host in a thread of its own."""

    def __init__(
        self, play: Callable[[Side], object], address: str = "127.0.0.1", port: int = 0, narrow: bool = False
    ) -> None:
        family = socket.AF_INET6 if ":" in address else socket.AF_INET
        self.listener = socket.create_server((address, port), family=family)
        if narrow:
            # Little is under way then before a write has to wait.
            self.listener.setsockopt(socket.SOL_SOCKET, socket.SO_RCVBUF, 4096)
            self.listener.setsockopt(socket.IPPROTO_TCP, socket.TCP_MAXSEG, 536)
        self.port: int = self.listener.getsockname()[1]
        self.fault: Exception | None = None
        self.thread = threading.Thread(target=self.run, args=(play,), daemon=True)
        self.thread.start()

    def run(self, play: Callable[[Side], object]) -> None:
        try:
            with self.listener.accept()[0] as stream:
                play(Side(stream))
        except Exception as error:
            self.fault = error

    def end(self) -> None:
        self.thread.join(timeout=120)
        self.listener.close()
        if self.thread.is_alive():
            raise AssertionError("the host goes on")
        if self.fault is not None:
            raise AssertionError(f"the host met: {self.fault!r}")
