"""Waits of a live session: they look after each record, end at once where nothing can come, and say what is wrong."""
from __future__ import annotations

import asyncio
import gc
import math
import re
import socket
import time
import unittest
import warnings
from collections.abc import Callable

from ribbonscarp import ConnectionEnded, HostSession, Key, KeyRefusal, KeyRefused, Reason, Refused, Session, StatusError
from ribbonscarp import Station, WaitedTooLong, aio, connect, listen
from support import ASKED, FORM, PAST_END, Beside, record


def text(word: str) -> bytes:
    """A record that writes a word at row 1 and clears what stood there."""
    return record(bytes.fromhex("0440 04110008 110101") + word.encode("cp037"), 2)


class PairTest(unittest.TestCase):
    """A session over one end of a pair of sockets, whose other end the test has."""

    strict = False

    def setUp(self) -> None:
        line, self.host = socket.socketpair()
        self.session = Session(sock=line, station=Station(strict=self.strict), wait=60)
        self.addCleanup(self.session.close)
        self.addCleanup(self.host.close)

    def send(self, *pieces: bytes) -> None:
        self.host.sendall(b"".join(pieces))


class RecordsTest(PairTest):
    def test_two_in_one_segment(self) -> None:
        self.send(ASKED, text("ONE"), text("TWO"))
        self.assertEqual(self.session.wait_text("ONE").row(1), "ONE")
        self.assertEqual(self.session.wait_text("TWO").row(1), "TWO")
        with self.assertRaises(WaitedTooLong):
            self.session.wait_text("ONE", wait=0)

    def test_record_by_record(self) -> None:
        self.send(ASKED, text("ONE"), text("TWO"), text("THREE"))
        words = [self.session.wait_record().row(1) for _ in range(3)]
        self.assertEqual(words, ["ONE", "TWO", "THREE"])
        with self.assertRaises(WaitedTooLong):
            self.session.wait_record(wait=0)

    def test_screen_takes_all(self) -> None:
        self.send(ASKED, text("ONE"), text("TWO"))
        self.session.wait_text("ONE")
        self.assertEqual(self.session.screen.row(1), "TWO")

    def test_no_time_takes_all(self) -> None:
        """More than one read has come."""
        self.send(ASKED, *[text("A" * 1900)] * 4, text("LAST"))
        self.assertEqual(self.session.wait_text("LAST", wait=0).row(1), "LAST")
        self.assertEqual(self.session.screen.state.records, 5)

    def test_cut_anywhere(self) -> None:
        """Also between IAC and EOR, and where a record has bytes that look like its end."""
        odd = record(bytes.fromhex("0440 04110008 110101 D6D5C5 EF"), 2).replace(b"\xef\xff", b"\xff\xff\xef\xff")
        odd = odd.replace(odd[:2], (int.from_bytes(odd[:2], "big") + 1).to_bytes(2, "big"), 1)
        self.send(ASKED)
        for at in range(1, len(odd)):
            self.send(odd[:at])
            with self.assertRaises(WaitedTooLong):
                self.session.wait_record(wait=0)
            self.send(odd[at:] + text("TWO"))
            self.assertIn("ONE", self.session.wait_record())
            self.assertIn("TWO", self.session.wait_record())


class GoalsTest(PairTest):
    def test_any(self) -> None:
        self.send(ASKED, text("Sign-on refused, code 4711"), text("MAIN MENU"))
        failed = re.compile(r"code (\d+)")
        self.assertIs(self.session.wait_any("MAIN MENU", failed), failed)
        match = self.session.station.screen.search(failed)
        self.assertEqual(match and match[1], "4711")
        self.assertEqual(self.session.wait_any(failed, "MAIN MENU", wait=1), failed)
        self.assertEqual(self.session.wait_record().row(1), "MAIN MENU")
        self.assertEqual(self.session.wait_any(failed, "MAIN MENU", lambda screen: True), "MAIN MENU")
        with self.assertRaisesRegex(WaitedTooLong, "a match of 'x.y' or the text 'Z' hasn't come within 0 seconds"):
            self.session.wait_any(re.compile("x.y"), "Z", wait=0)
        with self.assertRaisesRegex(ValueError, "there is nothing to wait for"):
            self.session.wait_any()
        with self.assertRaisesRegex(TypeError, r"sought=\['Z'\] is no text, no compiled"):
            self.session.wait_any("Y", ["Z"])  # type: ignore[arg-type]

    def test_regular_expression(self) -> None:
        self.send(ASKED, text("Job 004711"))
        self.assertEqual(self.session.wait_text(re.compile(r"Job \d{6}")).row(1), "Job 004711")
        self.assertEqual(self.session.wait_text(re.compile(r"\d+"), at=(1, 5), wait=0).row(1), "Job 004711")
        with self.assertRaises(WaitedTooLong):
            self.session.wait_text(re.compile(r"\d+"), at=(1, 1), wait=0)
        for at in ((0, 1), (25, 1), (1, 0), (1, 81)):
            with self.assertRaisesRegex(ValueError, rf"at=\({at[0]}, {at[1]}\) is no row and column of the screen"):
                self.session.wait_text(re.compile(" *"), at=at)
        with self.assertRaisesRegex(TypeError, r"text=\['Job'\] is no text"):
            self.session.wait_text(["Job"])  # type: ignore[arg-type]

    def test_quiet(self) -> None:
        def work() -> None:
            for word in ("ONE", "TWO", "THREE"):
                self.send(text(word))
                time.sleep(0.1)

        self.send(ASKED)
        begun, beside = time.monotonic(), Beside(work)
        screen = self.session.wait_quiet(3)
        self.assertEqual(screen.row(1), "THREE")
        self.assertGreaterEqual(time.monotonic() - begun, 3.1)
        beside.finish()
        with self.assertRaisesRegex(WaitedTooLong, "quiet of 9 seconds"):
            self.session.wait_quiet(9, wait=0.1)

    def test_strokes(self) -> None:
        body = bytes.fromhex("0440 04110008 110501 1D40002000 05 C1C2C3C4C5 110701 1D40002000 05 04520000")
        self.send(ASKED, record(body))
        self.session.wait_unlocked()
        self.session.move_cursor(5, 4)
        self.session.erase_eof()
        self.assertEqual((self.session.field(1).text, self.session.screen.cursor), ("AB", (5, 4)))
        self.session.new_line()
        self.assertEqual(self.session.screen.cursor, (7, 2))
        self.session.move_cursor(20, 1)
        with self.assertRaises(KeyRefused) as caught:
            self.session.erase_eof()
        self.assertEqual((caught.exception.refusal, caught.exception.key), (KeyRefusal.PROTECTED, "erase_eof"))
        for row, column in ((0, 1), (25, 1), (1, 81), (300, -1)):
            with self.assertRaisesRegex(ValueError, f"no cell is at row {row}, column {column}"):
                self.session.move_cursor(row, column)


class RefusedTest(PairTest):
    """A strict station is ended by a record that it refuses."""

    strict = True

    def test_refused(self) -> None:
        """Every wait from then on ends at once, and says where, why, and with which bytes."""
        sent = ASKED + record(FORM) + record(PAST_END)
        self.send(sent)
        for _ in range(2):
            begun = time.monotonic()
            with self.assertRaises(Refused) as caught:
                self.session.wait_text("never", wait=60)
            self.assertLess(time.monotonic() - begun, 30)
            error = caught.exception
            self.assertEqual((error.reason, error.place), (Reason.PAST_END, len(sent) - 1))
            self.assertEqual((error.before, error.after), (record(PAST_END)[:-1], b"\xef"))
            self.assertIsNotNone(error.screen)
            self.assertRegex(str(error), "is refused: 51: .*; it stands in 00 13 12 A0 .* C1 C1 FF .EF.; the screen")
        for wait in (self.session.wait_unlocked, self.session.wait_record):
            with self.assertRaises(Refused):
                wait()
        self.assertTrue(self.session.has_ended)
        self.assertEqual(len(self.session.screen.fields), 1)
        with self.assertRaises(StatusError):
            self.session.press(Key.ENTER)


class EndedTest(PairTest):
    def test_closed_host(self) -> None:
        self.send(ASKED, record(FORM))
        self.session.wait_unlocked()
        self.assertFalse(self.session.has_ended)
        self.host.close()
        self.assertTrue(self.session.has_ended)
        begun = time.monotonic()
        with self.assertRaisesRegex(ConnectionEnded, "the text 'never' hasn't come"):
            self.session.wait_text("never", wait=60)
        self.assertLess(time.monotonic() - begun, 30)
        self.assertEqual(len(self.session.screen.fields), 1)

    def test_key_at_a_closed_host(self) -> None:
        """One that sends is told of the end, also the second time, and leaves the screen as it is."""
        self.send(ASKED, record(FORM))
        self.session.wait_unlocked()
        self.send(text("ONE"))
        self.host.close()
        for key in (Key.ENTER, Key.ENTER, Key.ATTENTION):
            with self.assertRaisesRegex(ConnectionEnded, "the host takes no key any more; the screen"):
                self.session.press(key)
        self.session.press(Key.TAB)
        self.assertEqual((self.session.station.state.is_locked, self.session.screen.row(1)), (False, "ONE"))

    def test_auto_enter_at_a_closed_host(self) -> None:
        self.send(ASKED, record(FORM.replace(b"\x1d\x40\x00", b"\x1d\x40\x80")))
        self.session.wait_unlocked()
        self.host.close()
        self.session.fill(1, "BOB")
        with self.assertRaisesRegex(ConnectionEnded, "the host takes no key any more; the screen"):
            self.session.fill(1, "ABCDEFGHIJ")


class SaidTest(PairTest):
    """What errors say."""

    def test_error_of_the_host(self) -> None:
        self.send(ASKED, record(FORM), record(bytes.fromhex("0421 22C2C1C4"), 2))
        self.session.wait_text("BAD")
        with self.assertRaisesRegex(KeyRefused, "the keyboard is locked, since an error .* row 24: press Key.RESET"):
            self.session.fill(1, "BOB")
        self.session.press("Reset")
        self.session.fill(1, "BOB")

    def test_closed(self) -> None:
        self.send(ASKED, record(FORM))
        self.session.close()
        calls: list[Callable[[], object]] = [self.session.wait_unlocked, lambda: self.session.screen]
        calls.append(lambda: self.session.press(Key.ENTER))
        self.assertTrue(self.session.has_ended)
        for call in calls:
            with self.assertRaisesRegex(StatusError, "this Session is closed"):
                call()

    def test_closed_by_another_thread(self) -> None:
        """A wait ends then."""
        self.send(ASKED)
        told: list[str] = []

        def work() -> None:
            try:
                self.session.wait_text("never", wait=60)
            except StatusError as error:
                told.append(str(error))

        begun, beside = time.monotonic(), Beside(work)
        time.sleep(0.2)
        self.session.close()
        beside.finish()
        self.assertLess(time.monotonic() - begun, 30)
        self.assertEqual(len(told), 1)
        self.assertIn("this Session is closed", told[0])

    def test_threads(self) -> None:
        """A session that one thread made is used by others, one at a time."""
        self.send(ASKED, record(FORM))
        self.session.wait_unlocked()

        def work() -> None:
            for _ in range(100):
                self.session.fill(1, "BOB")
                self.assertEqual(self.session.field(1).text, "BOB")

        for beside in [Beside(work) for _ in range(4)]:
            beside.finish()

    def test_closed_while_it_writes(self) -> None:
        """A write that the host doesn't take ends then too."""
        self.send(ASKED, record(FORM))
        self.session.wait_unlocked()

        def work() -> None:
            with self.assertRaises((ConnectionEnded, StatusError)):
                while True:
                    self.session.press(Key.ATTENTION)

        self.session._connection.wait = 60
        begun, beside = time.monotonic(), Beside(work)
        time.sleep(0.5)
        self.session.close()
        beside.finish()
        self.assertLess(time.monotonic() - begun, 30)

    def test_forgotten(self) -> None:
        """A session that is forgotten is freed."""
        line, host = socket.socketpair()
        with warnings.catch_warnings():
            warnings.simplefilter("ignore")
            handle = Session(sock=line).station._handle
            del line
            gc.collect()
        self.assertFalse(handle.handle.is_open)
        self.assertEqual(host.recv(1), b"")
        host.close()

    def test_time(self) -> None:
        for wait in (math.inf, math.nan, 1e30):
            with self.assertRaisesRegex(ValueError, "wait=.* is no number of seconds"):
                self.session.wait_unlocked(wait=wait)
            with self.assertRaisesRegex(ValueError, "wait=.* is no number of seconds"):
                connect("127.0.0.1", 1, wait=wait)

    def test_nothing_is_left(self) -> None:
        """Where arguments are refused all is closed that was made."""
        line = socket.socket()
        closed = socket.socket()
        closed.close()

        async def connect_aio() -> None:
            await aio.connect("127.0.0.1", 1, wait=math.inf)

        async def session_aio() -> None:
            ours, theirs = socket.socketpair()
            reader, writer = await asyncio.open_connection(sock=ours)
            for kind in (aio.Session, aio.HostSession):
                with self.assertRaisesRegex(ValueError, "wait=-1 is no number of seconds from 0"):
                    kind(reader, writer, wait=-1)
            writer.close()
            theirs.close()
            raise ValueError("wait=")

        calls: list[Callable[[], object]] = [
            lambda: connect("127.0.0.1", 1, wait=-1),
            lambda: listen(wait=math.inf),
            lambda: Session(line, wait=math.inf),
            lambda: HostSession(line, wait=math.inf),
            lambda: Session(closed),
            lambda: HostSession(closed),
            lambda: asyncio.run(connect_aio()),
            lambda: asyncio.run(session_aio()),
        ]
        with warnings.catch_warnings(record=True) as told:
            warnings.simplefilter("always")
            for call in calls:
                with self.assertRaisesRegex(ValueError, "wait=|sock is closed"):
                    call()
                gc.collect()
        line.close()
        self.assertEqual(list(map(str, told)), [])

    def test_port(self) -> None:
        for port in (99999, 0, -1):
            with self.assertRaisesRegex(ValueError, f"port {port} isn't 1 to 65535"):
                connect("127.0.0.1", port)
        with self.assertRaisesRegex(ValueError, "port 99999 isn't 0 to 65535"):
            listen(port=99999)

    def test_silent_port(self) -> None:
        with self.assertRaisesRegex(WaitedTooLong, "nothing at all has come from the host, as where a port isn't Telnet"):
            self.session.wait_unlocked(wait=0.1)
        self.send(ASKED)
        with self.assertRaisesRegex(WaitedTooLong, "hasn't come within 0.1 seconds; the screen is empty"):
            self.session.wait_unlocked(wait=0.1)

    def test_key(self) -> None:
        self.send(ASKED, record(FORM))
        self.session.wait_unlocked()
        with self.assertRaisesRegex(ValueError, "no key is 'Entr'; .* the keys are LEFT, .*ENTER"):
            self.session.press("Entr")
        self.session.press("Enter")
        self.assertTrue(self.session.screen.is_locked)

    def test_keepalive(self) -> None:
        with socket.create_server(("127.0.0.1", 0)) as server:
            line = socket.create_connection(server.getsockname())
            peer, _ = server.accept()
            with Session(sock=line):
                self.assertEqual(line.getsockopt(socket.SOL_SOCKET, socket.SO_KEEPALIVE), 1)
                peer.close()


class ListenerTest(unittest.TestCase):
    def test_closed(self) -> None:
        """An `accept` on another thread ends."""
        told: list[str] = []
        listener = listen(wait=60)

        def work() -> None:
            try:
                listener.accept()
            except StatusError as error:
                told.append(str(error))

        beside = Beside(work)
        time.sleep(0.2)
        begun = time.monotonic()
        listener.close()
        beside.finish()
        self.assertLess(time.monotonic() - begun, 30)
        self.assertEqual(len(told), 1)
        self.assertIn("this Listener is closed", told[0])
