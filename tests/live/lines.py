"""Live sessions: `connect` at a host of Python, and `serve` with a station of Python."""
import contextlib
import socket
import struct

from live.program import Run
from live.screens import SIGN_ON
from peers import Host, Side, expect, negotiate_as_host, negotiate_as_station
from records import OPENING, record

READY, NAMED = "host ready IBM-3179-2\n", "terminal IBM-3179-2\n"
# The words of both kinds of a host, and what each tells first.
KINDS = ([], READY), (["--any"], NAMED)


def sending(*bodies, opcode=3, then=b"", answer=b"", closes=False):
    """What a host does that sends records, and other bytes, takes what answers them, and then closes, or waits for the
    station's end."""
    def play(side):
        negotiate_as_host(side)
        side.send(b"".join(record(body, opcode) for body in bodies) + then)
        side.take(answer)
        if not closes:
            side.take_end()
    return play


def trickling(data, seconds, over):
    """What a host does that sends the same in such steps, until it is over or nobody takes it."""
    def play(side):
        negotiate_as_host(side)
        with contextlib.suppress(OSError):
            while not over.wait(seconds):
                side.send(data)
    return play


def at_host(play, words, text, status, printed, error="", at="127.0.0.1", host_ends=True, **more):
    """Runs `connect` at a host that a function plays, by its address or name."""
    host = Host(play, "::1" if at == "[::1]" else "127.0.0.1")
    run = Run(["connect", *words, "%s:%d" % (at, host.port)], text, **more)
    run.end(status, printed, error)
    if host_ends:
        host.end()
    return run


def address_of(serve, seconds=60):
    """Where a `serve` listens, which has begun. It reads its script first."""
    line = serve.line(seconds)
    if not line.startswith("listening "):
        raise AssertionError("no address: %r" % line)
    host, port = line.split()[1].rsplit(":", 1)
    return host.strip("[]"), int(port)


def station_at(serve, seconds=60):
    return Side(socket.create_connection(address_of(serve, seconds), timeout=60))


def served(text, *words, wait=60, script=None, keep_open=False, is_ready=True, at="127.0.0.1:0", **negotiated):
    """A `serve` with some lines or a script, and a station whose records are allowed, or that has its first token."""
    serve = Run(["serve", "--wait", str(wait), *words, at], text, script, keep_open)
    side = station_at(serve)
    if is_ready:
        negotiate_as_station(side, **negotiated)
    else:
        side.take(OPENING)
    return serve, side


def reset(side):
    """Closes a connection so that the other side is told of a fault."""
    side.stream.setsockopt(socket.SOL_SOCKET, socket.SO_LINGER, struct.pack("ii", 1, 0))
    side.close()


def settled_serve(wait):
    """A `serve` line by line, which has told its first event, and its station."""
    serve, side = served("await\n", "--ready", wait=wait, keep_open=True)
    expect(serve.line() + serve.line(), READY + "ok\n", "await")
    return serve, side


def settled_connect(play, wait):
    """A `connect` line by line at a host that sends the sign-on, and then plays."""
    def begin(side):
        negotiate_as_host(side)
        side.send(record(SIGN_ON))
        play(side)
    host = Host(begin)
    connect = Run(["connect", "--ready", "--wait", str(wait), "127.0.0.1:%d" % host.port], "", keep_open=True)
    expect(connect.asked("await"), "", "await")
    return connect, host
