"""A station at a live host: `t5250 serve`, and a socket that is slow, late, mad or gone."""
from __future__ import annotations

import contextlib
import socket
import struct
import threading
import time
import unittest
import unittest.mock
from collections.abc import Callable

from ribbonscarp import ConnectionEnded, Key, KeyRefused, Reason, Refused, Session, WaitedTooLong, connect
from support import ASKED, EXAMPLES, FORM, PAST_END, Beside, Serve, record, refusing

INQUIRY = (EXAMPLES / "inquiry.serve").read_text(encoding="utf-8")


def read_to_end(line: socket.socket) -> bytes:
    """What a station sends until it closes."""
    line.settimeout(60)
    got = b""
    while data := line.recv(4096):
        got += data
    return got


class ServeTest(unittest.TestCase):
    """Against the program."""

    def test_inquiry(self) -> None:
        with Serve(INQUIRY) as serve:
            with connect("127.0.0.1", serve.port, wait=60) as session:
                session.wait_text("Sign On")
                session.fill("User", "QUSER")
                session.fill("Password", "SECRET")
                labels = [(field.label, field.text, field.content) for field in session.fields]
                self.assertEqual(labels[0], ("User", "QUSER", "QUSER".encode("cp037") + bytes(5)))
                self.assertEqual(labels[1], ("Password", "", "SECRET".encode("cp037") + bytes(4)))
                session.press(Key.ENTER)
                screen = session.wait_text("Item inquiry", at=(1, 35))
                with self.assertRaisesRegex(WaitedTooLong, "the text 'Item inquiry' at row 1, column 34 hasn't come"):
                    session.wait_text("Item inquiry", at=(1, 34), wait=0)
                self.assertEqual(screen.cursor, (3, 20))
                session.type("4711")
                session.press(Key.F5)
                screen = session.wait_unlocked()
                self.assertEqual(screen.row(5), " Price  . . . .   12.50")
                session.press(Key.F3)
        self.assertEqual(serve.printed, (EXAMPLES / "inquiry.served").read_text(encoding="utf-8"))
        self.assertEqual(serve.status, 0)

    def test_terminal(self) -> None:
        with Serve("await\n") as serve:
            with connect("localhost", serve.port, terminal="IBM-5291-1", wait=60) as session:
                session.wait_for(lambda screen: screen.state.is_ready)
        self.assertEqual(serve.printed, "host ready IBM-5291-1\n")

    def test_key_refused(self) -> None:
        with Serve("await\nsend 3 " + FORM.hex() + "\nawait\n") as serve:
            with connect("127.0.0.1", serve.port, wait=60) as session:
                session.wait_unlocked()
                with self.assertRaises(KeyRefused):
                    session.press(Key.DUP)
                session.type("BO")
                session.press(Key.LEFT)
                session.insert("O")
                self.assertEqual(session.field(1).text, "BOO")
                session.press(Key.F1)
        self.assertEqual(serve.printed.splitlines()[1:], ["answer 6 55 31", "  field 6 53 C2D6D6 BOO"])


class SocketTest(unittest.TestCase):
    """Against a socket."""

    def begin(self, play: Callable[[socket.socket], None], wait: float = 60.0, strict: bool = False) -> Session:
        """A session at a host that plays so, and then closes."""
        server = socket.create_server(("127.0.0.1", 0))

        def accept() -> None:
            line, _ = server.accept()
            with line, server:
                line.sendall(ASKED)
                play(line)

        self.host = Beside(accept)
        session = connect("127.0.0.1", server.getsockname()[1], wait=wait, strict=strict)
        self.addCleanup(self.host.finish)
        self.addCleanup(session.close)
        return session

    def begin_with_form(self) -> Session:
        """A session at a host that has sent a form, and then sends nothing."""
        has_sent = threading.Event()

        def play(line: socket.socket) -> None:
            line.sendall(record(FORM))
            has_sent.set()
            read_to_end(line)

        session = self.begin(play)
        self.assertTrue(has_sent.wait(60))
        return session

    def test_late(self) -> None:
        """A wait that is over loses nothing, and the next one goes on from there."""

        goes_on = threading.Event()

        def play(line: socket.socket) -> None:
            line.sendall(record(FORM)[:-1])
            goes_on.wait(60)
            line.sendall(record(FORM)[-1:])
            read_to_end(line)

        session = self.begin(play)
        with self.assertRaises(WaitedTooLong) as caught:
            session.wait_unlocked(wait=0.1)
        goes_on.set()
        self.assertEqual(str(caught.exception).splitlines()[0],
                         "an unlocked keyboard hasn't come within 0.1 seconds; the screen is empty")
        assert caught.exception.screen is not None
        self.assertTrue(caught.exception.screen.is_locked)
        self.assertEqual(session.wait_unlocked().cursor, (6, 53))
        self.assertIsInstance(caught.exception, TimeoutError)

    def test_time_of_a_whole_wait(self) -> None:
        """Bytes that trickle or flood don't lengthen a wait."""
        for count, pause in ((1, 0.02), (500000, 0.0)):
            is_over = threading.Event()

            def play(line: socket.socket, count: int = count, pause: float = pause) -> None:
                with contextlib.suppress(OSError):  # The session may close before it has all.
                    while not is_over.wait(pause):
                        line.sendall(b"\xff\xf1" * count)

            session = self.begin(play)
            begun = time.monotonic()
            with self.assertRaises(WaitedTooLong):  # and not that the host has closed
                session.wait_text("Hi", wait=0.3)
            self.assertGreaterEqual(time.monotonic() - begun, 0.3)
            is_over.set()
            session.close()
            self.host.finish()

    def test_no_time(self) -> None:
        """With no time at all what has come counts."""
        session = self.begin_with_form()
        self.assertEqual(session.wait_unlocked(wait=0).cursor, (6, 53))
        with self.assertRaises(WaitedTooLong):
            session.wait_record(wait=0)

    def test_screen_takes_what_has_come(self) -> None:
        session = self.begin_with_form()
        self.assertEqual(len(session.fields), 1)
        self.assertEqual(session.screen.state.records, 1)

    def test_ended(self) -> None:
        """What came before the end is there."""
        session = self.begin(lambda line: line.sendall(record(FORM)))
        with self.assertRaises(ConnectionEnded) as caught:
            session.wait_text("Hi")
        self.assertIn("the text 'Hi' hasn't come", str(caught.exception))
        assert caught.exception.screen is not None
        self.assertEqual(len(caught.exception.screen.fields), 1)
        self.assertEqual(len(session.fields), 1)
        self.assertTrue(session.has_ended)
        self.assertIsInstance(caught.exception, ConnectionError)
        session.wait_unlocked()

    def test_refused(self) -> None:
        """The place counts from the connection's first byte."""
        bad = record(FORM) + b"\xff\xfd\x27" + record(PAST_END)
        answers: list[bytes] = []

        def play(line: socket.socket) -> None:
            line.sendall(bad)
            answers.append(read_to_end(line))

        session = self.begin(play, strict=True)
        with self.assertRaises(Refused) as caught:
            session.wait_text("Hi")
        self.assertEqual(caught.exception.reason, Reason.PAST_END)
        self.assertEqual(caught.exception.place, len(ASKED) + len(bad) - 1)
        self.assertEqual(len(session.station.screen.fields), 1)
        session.close()
        self.host.finish()
        self.assertTrue(answers[0].endswith(b"\xff\xfc\x27"))

    def test_urgent(self) -> None:
        """A data mark that comes as urgent data (Telnet Synch, RFC 854) stands where it was sent."""

        def play(line: socket.socket) -> None:
            line.sendall(b"\xff")
            line.send(b"\xf2", socket.MSG_OOB)
            line.sendall(record(FORM))
            read_to_end(line)

        self.assertEqual(self.begin(play).wait_unlocked().cursor, (6, 53))

    def test_gone(self) -> None:
        """A host that has closed takes no key."""
        session = self.begin(lambda line: line.sendall(record(FORM)))
        session.wait_unlocked()
        self.host.finish()
        with self.assertRaises(ConnectionEnded):
            for _ in range(100):
                session.press(Key.ATTENTION)
                time.sleep(0.01)

    def test_reset(self) -> None:
        """A connection that breaks has ended."""

        def play(line: socket.socket) -> None:
            line.recv(4096)
            line.setsockopt(socket.SOL_SOCKET, socket.SO_LINGER, struct.pack("ii", 1, 0))

        with self.assertRaises(ConnectionEnded):
            self.begin(play).wait_text("Hi")

    def test_last_key_arrives(self) -> None:
        """What was written comes through, though the host's last bytes are never read."""
        got: list[bytes] = []
        has_sent = threading.Event()

        def play(line: socket.socket) -> None:
            line.sendall(record(FORM))
            got.append(line.recv(4096))
            line.sendall(b"\xff\xf1" * 5000)
            has_sent.set()
            got.append(read_to_end(line))

        session = self.begin(play)
        session.wait_unlocked()
        self.assertTrue(has_sent.wait(60))
        session.press(Key.F1)
        session.close()
        self.host.finish()
        self.assertTrue(b"".join(got).endswith(record(bytes.fromhex("063531"))))

    def test_nobody(self) -> None:
        with refusing() as port, self.assertRaises(ConnectionRefusedError):
            connect("127.0.0.1", port, wait=60)

    def test_addresses_share_the_time(self) -> None:
        """One that swallows leaves time for the next."""
        with socket.socket() as full, contextlib.ExitStack() as waiting, Serve("await\n") as serve:
            full.bind(("127.0.0.1", 0))
            full.listen(0)
            for _ in range(3):
                line = waiting.enter_context(socket.socket())
                line.setblocking(False)
                line.connect_ex(full.getsockname())
            ports = (full.getsockname()[1], serve.port)
            addresses = [(socket.AF_INET, socket.SOCK_STREAM, 6, "", ("127.0.0.1", port)) for port in ports]
            with unittest.mock.patch("socket.getaddrinfo", return_value=addresses):
                begun = time.monotonic()
                with connect("host", wait=8) as session:
                    self.assertLess(time.monotonic() - begun, 7.5)
                    session.wait_for(lambda screen: screen.state.is_ready)

    def test_closed_twice(self) -> None:
        session = self.begin(lambda line: None)
        session.close()
        session.close()
