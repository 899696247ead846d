"""A live host for stations: `t5250 connect`, and sessions of this package."""
from __future__ import annotations

import contextlib
import functools
import pathlib
import socket
import threading
import time
import unittest

from ribbonscarp import Body, ConnectionEnded, EventKind, HostSession, Key, Reason, Refused, WaitedTooLong
from ribbonscarp import connect, listen
from support import FORM, Beside, run_connect


class ConnectTest(unittest.TestCase):
    """Against the program."""

    def test_answer(self) -> None:
        with listen(wait=60) as listener:
            station = run_connect(listener.port, "await\ntype BOB\nkey F5\nawait\nkey Attention\nkey Help\nshow\n")
            with listener.accept() as host:
                self.assertEqual(host.wait_ready(), "IBM-3179-2")
                self.assertEqual(host.terminal, "IBM-3179-2")
                host.send(FORM)
                answer = host.wait_answer()
                self.assertEqual((answer.key, answer.cursor), (Key.F5, (6, 56)))
                self.assertEqual([(field.row, field.column, field.text) for field in answer.fields], [(6, 53, "BOB")])
                host.send(FORM)
                # An answer is waited for past Attention, which is kept.
                self.assertIs(host.wait_answer().key, Key.HELP)
                self.assertIs(host.wait_event().kind, EventKind.ATTENTION)
                with self.assertRaises(ConnectionEnded):
                    host.wait_event()
            printed, _ = station.communicate(timeout=120)
        self.assertEqual(station.returncode, 0)
        self.assertEqual(printed, "screen\ncursor 6 53, locked, message off, blink off, fields 1\n")

    def test_cancel(self) -> None:
        with listen(wait=60) as listener:
            station = run_connect(listener.port, "await record\nawait record\n", "--terminal", "IBM-5251-11")
            with listener.accept() as host:
                self.assertEqual(host.wait_ready(), "IBM-5251-11")
                host.send(FORM)
                host.cancel()
                self.assertIs(host.wait_event().kind, EventKind.CANCELLED)
            station.communicate(timeout=120)
        self.assertEqual(station.returncode, 0)


class EachOtherTest(unittest.TestCase):
    """A station and a host of this package, each on its thread."""

    def test_session(self) -> None:
        told: list[str] = []

        def work(port: int) -> None:
            with connect("127.0.0.1", port, wait=60) as session:
                for name in ("ONE", "TWO", "THREE"):
                    session.wait_unlocked()
                    session.fill(1, name)
                    session.press(Key.ENTER)
                session.wait_text("Bye")
                told.append(session.screen.row(24))

        with listen(wait=60) as listener:
            port = listener.port
            beside = Beside(lambda: work(port))
            with listener.accept() as host:
                host.wait_ready()
                names = []
                for _ in range(3):
                    host.send(FORM)
                    names += [field.text for field in host.wait_answer().fields]
                host.send(bytes.fromhex("04110000 111802") + "Bye".encode("cp037"))
                with self.assertRaises(ConnectionEnded):
                    host.wait_answer()
            beside.finish()
        self.assertEqual(names, ["ONE", "TWO", "THREE"])
        self.assertEqual(told, [" Bye"])

    def test_many_stations(self) -> None:
        """Fifty at once, each on a thread of its own, as is each host's end."""
        told: list[str] = []

        def work(name: str, port: int) -> None:
            with connect("127.0.0.1", port, wait=60) as session:
                session.wait_unlocked()
                session.fill(1, name)
                session.press(Key.ENTER)
                told.append(session.wait_text("Bye").row(24).split()[1])

        def play(host: HostSession) -> None:
            with host, contextlib.suppress(ConnectionEnded):
                host.wait_ready()
                host.send(FORM)
                name = host.wait_answer().fields[0].text
                host.send(Body().write(0, 0).text(24, 2, f"Bye {name}"))
                host.wait_event()

        names = [f"N{number}" for number in range(50)]
        with listen(wait=60) as listener:
            besides = [Beside(functools.partial(work, name, listener.port)) for name in names]
            besides += [Beside(functools.partial(play, listener.accept())) for _ in names]
            for beside in besides:
                beside.finish()
        self.assertEqual(sorted(told), sorted(names))

    def test_many_at_once(self) -> None:
        """Hundreds that have connected before the first is accepted."""
        most = int(pathlib.Path("/proc/sys/net/core/somaxconn").read_text(encoding="ascii"))
        with listen(wait=60) as listener, contextlib.ExitStack() as lines:
            for _ in range(min(300, most)):
                lines.enter_context(socket.create_connection(("127.0.0.1", listener.port), timeout=60))

    def test_two_stations(self) -> None:
        """One after another at one listener, also at an address of IPv6."""

        def work(address: str, port: int) -> None:
            with connect(address, port, terminal="IBM-5292-2", wait=60) as session:
                session.wait_for(lambda screen: screen.state.is_ready)

        for address in ("127.0.0.1", "::1"):
            try:
                listener = listen(address, wait=60)
            except OSError:
                self.assertEqual(address, "::1")  # The machine has none.
                continue
            with listener:
                for _ in range(2):
                    beside = Beside(functools.partial(work, address, listener.port))
                    with listener.accept() as host:
                        self.assertEqual(host.wait_ready(), "IBM-5292-2")
                    beside.finish()

    def test_waits(self) -> None:
        with listen(wait=60) as listener:
            begun = time.monotonic()
            with self.assertRaisesRegex(WaitedTooLong, "a station hasn't come within 0.1 seconds"):
                listener.accept(wait=0.1)
            with socket.create_connection(("127.0.0.1", listener.port)) as line, listener.accept() as host:
                with self.assertRaisesRegex(WaitedTooLong, "a station that is ready hasn't come within 0.1 seconds"):
                    host.wait_ready(wait=0.1)
                self.assertLess(time.monotonic() - begun, 30)
                # A terminal that isn't supported.
                line.sendall(bytes.fromhex("FFFB18 FFFA1800") + b"IBM-3477-FC" + bytes.fromhex("FFF0"))
                with self.assertRaises(Refused) as caught:
                    host.wait_ready()
                self.assertEqual((caught.exception.reason, caught.exception.place), (Reason.UNSUPPORTED_TERMINAL, 19))
                line.close()

    def test_flood(self) -> None:
        """Bytes that don't end don't lengthen a wait."""

        is_over = threading.Event()

        def flood(port: int) -> None:
            with socket.create_connection(("127.0.0.1", port)) as line:
                with contextlib.suppress(OSError):  # The host may close before it has all.
                    while not is_over.is_set():
                        line.sendall(b"\xff\xf1" * 500000)

        with listen(wait=60) as listener:
            beside = Beside(functools.partial(flood, listener.port))
            with listener.accept() as host:
                with self.assertRaises(WaitedTooLong):  # and not that the station has closed
                    host.wait_ready(wait=0.3)
                is_over.set()
            beside.finish()

    def test_told_before_a_refusal(self) -> None:
        """What came before a refused byte is told after the refusal."""
        attention = bytes.fromhex("000A12A0000004400000FFEF")
        with listen(wait=60) as listener:
            with socket.create_connection(("127.0.0.1", listener.port)) as line, listener.accept() as host:
                name = bytes.fromhex("FFFA1800") + b"IBM-3179-2" + bytes.fromhex("FFF0")
                line.sendall(bytes.fromhex("FFFB18") + name + bytes.fromhex("FFFB19FFFD19FFFB00FFFD00") + attention)
                line.sendall(bytes.fromhex("000A13"))
                with self.assertRaises(Refused):
                    while True:
                        host.wait_answer()
                self.assertIs(host.wait_event().kind, EventKind.ATTENTION)
                self.assertEqual(host.terminal, "IBM-3179-2")
                line.close()
