"""A live session: a refused record ends none, the host is told who the station is, and fields ask for what they do."""
from __future__ import annotations

import asyncio
import socket
import unittest
from collections.abc import Callable

from peers import Host, Side, negotiate_as_host
from ribbonscarp import CODE_PAGES, Key, KeyRefusal, KeyRefused, Reason, RecordRefused, Refused, Session, Station
from ribbonscarp import WaitedTooLong, aio, connect
from support import ASKED, FORM, PAST_END, ready_station, record

# Negative responses: to a command, and to all else (RFC 1205, flag ERR).
TO_COMMAND = bytes.fromhex("000E12A0 00000480 0000 10030101 FFEF")
TO_OTHER = bytes.fromhex("000E12A0 00000480 0000 10050121 FFEF")
ROLL = record("04 23 61 01 05")
DO, WILL, SEND = bytes.fromhex("FFFD27"), bytes.fromhex("FFFB27"), bytes.fromhex("FFFA2701FFF0")


def told(**variables: str) -> bytes:
    """What a station says of itself (RFC 1572, section 2)."""
    said = b"".join(b"\x03" + name.encode() + b"\x01" + value.encode() for name, value in variables.items())
    return b"\xff\xfa\x27\x00" + said + b"\xff\xf0"


def form(first: str, second: str = "4000", cells: int = 2) -> bytes:
    """A record with fields of two format words at 6 53 and 8 53, the first of which holds the cursor, and a read."""
    fields = "".join(f"11{row:02X}34 1D{word}2000{cells:02X}" for row, word in ((6, first), (8, second)))
    return record(f"0440 04110008 {fields} 130635 04520000")


class LiveTest(unittest.TestCase):
    """Against a host in Python."""

    def begin(self, play: Callable[[Side], object], **how: object) -> Session:
        """A session at a host that plays so, once records are allowed."""

        def whole(side: Side) -> None:
            negotiate_as_host(side)
            play(side)
            while side.read():
                pass

        self.host = Host(whole)
        session = connect("127.0.0.1", self.host.port, wait=60, **how)  # type: ignore[arg-type]
        self.addCleanup(self.host.end)
        self.addCleanup(session.close)
        return session

    def test_refused_records(self) -> None:
        """Each is answered, and the session goes on; what came of it is told once all has come."""

        def play(side: Side) -> None:
            for data, answer in ((ROLL, TO_COMMAND), (record(PAST_END), TO_OTHER), (record(b"\x04\xff"), TO_COMMAND)):
                side.send(data, 3)
                side.take(answer)
            side.send(record(FORM))
            side.take(record("0635F1"))

        session = self.begin(play)
        session.wait_unlocked()
        self.assertEqual(
            session.refused_records, [(Reason.ROLL, 12), (Reason.PAST_END, 19), (Reason.UNKNOWN_COMMAND, 11)]
        )
        self.assertEqual((session.refused_records[0].reason, session.refused_records[0].place), (Reason.ROLL, 12))
        self.assertEqual((session.screen.state.records, session.has_ended), (1, False))
        session.press(Key.ENTER)

    def test_many(self) -> None:
        """Ten thousand of them in a row."""
        session = self.begin(lambda side: side.send(ROLL * 10000 + record(FORM), 1 << 16))
        session.wait_unlocked()
        self.assertEqual(session.refused_records, [(Reason.ROLL, 12)] * 10000)

    def test_raised(self) -> None:
        """For a test of a host, each once and in its place; the session goes on after it."""
        session = self.begin(lambda side: side.send(ROLL + record(PAST_END) + record(FORM)), raise_refusals=True)
        for reason, place, said in ((Reason.ROLL, 12, "33: "), (Reason.PAST_END, 19, "51: ")):
            with self.assertRaisesRegex(RecordRefused, f"a record is refused at its byte {place}: {said}") as caught:
                session.wait_unlocked()
            self.assertEqual((caught.exception.reason, caught.exception.place), (reason, place))
            self.assertIsNotNone(caught.exception.screen)
        self.assertEqual(session.wait_unlocked().cursor, (6, 53))
        self.assertEqual(len(session.refused_records), 2)

    def test_identity(self) -> None:
        def play(side: Side) -> None:
            side.send(DO)
            side.take(WILL)
            side.send(SEND)
            side.take(told(DEVNAME="ANNA1", KBDTYPE="AGB", CODEPAGE="1141", CHARSET="695"))
            side.send(SEND + record(FORM))
            side.take(told(KBDTYPE="AGB", CODEPAGE="1141", CHARSET="695"))
            side.take(record("0637F1 110635 9F5A"))

        session = self.begin(play, device="anna1", code_page=1141)
        session.wait_unlocked()
        self.assertEqual(session.names_refused, 1)
        session.fill(1, "€Ü")
        self.assertEqual((session.field(1).text, session.field(1).content[:2]), ("€Ü", b"\x9f\x5a"))
        self.assertEqual(session.screen.rows[5][52:55], "€Ü ")
        with self.assertRaises(KeyRefused) as caught:
            session.fill(1, "¤")
        self.assertIs(caught.exception.refusal, KeyRefusal.WRONG_CHARACTER)
        session.press(Key.ENTER)

    def test_own_page(self) -> None:
        """Without a name it is 037, and the host is told so."""

        def play(side: Side) -> None:
            side.send(DO + SEND)
            side.take(WILL + told(KBDTYPE="X1Z", CODEPAGE="037", CHARSET="697"))
            side.send(record(FORM))

        session = self.begin(play, keyboard="x1z")
        session.wait_unlocked()
        session.fill(1, "¤")
        self.assertEqual(session.names_refused, 0)

    def test_auto_enter(self) -> None:
        """The character that fills the field sends Enter, and so does what fills it; also where a key after it is
        refused."""

        def play(side: Side) -> None:
            for turn in range(3):
                side.send(form("4080"))
                side.take(record("0835F1 110635 C1C2" if turn == 0 else "0835F1 110635 C3C4"))

        session = self.begin(play)
        session.wait_unlocked()
        session.type("AB")
        self.assertTrue(session.station.state.is_locked)
        session.wait_unlocked()
        session.fill(1, "CD")
        session.wait_unlocked()
        with self.assertRaises(KeyRefused) as caught:
            session.type("CDE")
        self.assertIs(caught.exception.refusal, KeyRefusal.LOCKED)

    def test_strict(self) -> None:
        """One that keeps to the profile says nothing of itself, and is ended."""

        def play(side: Side) -> None:
            side.send(DO + ROLL)
            side.take(bytes.fromhex("FFFC27"))

        session = self.begin(play, strict=True)
        with self.assertRaises(Refused):
            session.wait_unlocked()
        self.assertEqual(session.station.refused_records, [])
        with self.assertRaisesRegex(ValueError, "a strict station has no device name"):
            Station(strict=True, device="ANNA1")


class StationTest(unittest.TestCase):
    """Without a line."""

    def test_field_exit(self) -> None:
        with ready_station() as station:
            station.push(form("4040"))
            station.type("AB")
            self.assertTrue(station.state.is_full)
            with self.assertRaises(KeyRefused) as caught:
                station.type("C")
            self.assertIs(caught.exception.refusal, KeyRefusal.FIELD_EXIT_REQUIRED)
            self.assertIn("a key has to leave it", str(caught.exception))
            self.assertIsNone(station.missing)
            station.press(Key.FIELD_EXIT)
            self.assertEqual((station.state.is_full, station.state.cursor), (False, (8, 53)))

    def test_missing(self) -> None:
        """The field that a refusal names, until the next key."""
        for format, refusal in (("4008", KeyRefusal.MANDATORY_ENTER), ("4007", KeyRefusal.MANDATORY_FILL)):
            with self.subTest(refusal), ready_station() as station:
                station.push(form("4000", format))
                self.assertIsNone(station.missing)
                if refusal is KeyRefusal.MANDATORY_FILL:
                    station.fill(2, "A")
                with self.assertRaises(KeyRefused) as caught:
                    station.press(Key.ENTER)
                self.assertIs(caught.exception.refusal, refusal)
                assert station.missing is not None
                self.assertEqual((station.missing.number, station.missing.row), (2, 8))
                station.press(Key.HOME)
                self.assertIsNone(station.missing)

    def test_several_in_a_push(self) -> None:
        """All are told, also of one push, and in pieces."""
        data = ROLL + record(PAST_END) + record(FORM) + ROLL
        for size in (1, 7, len(data)):
            with self.subTest(size), ready_station() as station:
                reply = b"".join(station.push(data[at : at + size]) for at in range(0, len(data), size))
                self.assertEqual(reply, TO_COMMAND + TO_OTHER + TO_COMMAND)
                self.assertEqual(station.refused_records, [(Reason.ROLL, 12), (Reason.PAST_END, 19), (Reason.ROLL, 12)])

    def test_before_records(self) -> None:
        """What comes before records are allowed ends it."""
        with Station() as station:
            with self.assertRaises(Refused) as caught:
                station.push(ROLL)
            self.assertEqual((caught.exception.reason, caught.exception.place), (Reason.ROLL, 12))
            self.assertEqual(station.refused_records, [])

    def test_pages(self) -> None:
        self.assertEqual(len(CODE_PAGES), 20)
        for page in CODE_PAGES:
            with self.subTest(page), Station(code_page=page) as station:
                station.push(ASKED + form("4000", cells=4))
                euro = page >= 1140
                with self.assertRaises(KeyRefused):
                    station.type("¤" if euro else "€")
                station.type("€@" if euro else "¤@")
                self.assertEqual(station.screen.rows[5][52:55], ("€" if euro else "¤") + "@ ")

    def test_bad_identities(self) -> None:
        names = ("", "1ANNA", "_A", "ANNA 1", "ANNA1234567", "ÄNNA", "A\n")
        for name in names[1:]:
            with self.assertRaisesRegex(ValueError, "no device name is"):
                Station(device=name)
        for keyboard in ("US", "USBX", "U-B", "ÜSB"):
            with self.assertRaisesRegex(ValueError, "no keyboard type is"):
                Station(keyboard=keyboard)
        for page in (0, 38, -1, 1150, 65573):
            with self.assertRaisesRegex(ValueError, "no code page is"):
                Station(code_page=page)
        for name in ("A", "ANNA123456", "#1_2.$@"):
            Station(device=name, keyboard="u1B").close()


class AioTest(unittest.IsolatedAsyncioTestCase):
    async def test_live(self) -> None:
        """The same with asyncio."""
        line, host = socket.socketpair()
        self.addCleanup(host.close)
        host.sendall(ASKED + DO + ROLL + form("4080", "4008"))
        station = Station(device="ANNA1")
        session = aio.Session(*await asyncio.open_connection(sock=line), station=station, wait=60, raise_refusals=True)
        self.addAsyncCleanup(session.close)
        with self.assertRaises(RecordRefused):
            await session.wait_unlocked()
        await session.wait_unlocked()
        self.assertEqual((session.refused_records, session.names_refused), ([(Reason.ROLL, 12)], 0))
        with self.assertRaises(KeyRefused):
            await session.press(Key.ENTER)
        assert session.missing is not None
        self.assertEqual(session.missing.number, 2)
        session.fill(2, "X")
        session.fill(1, "AB")
        with self.assertRaises(WaitedTooLong):
            await session.wait_unlocked(wait=0.1)
        host.setblocking(False)
        self.assertTrue(host.recv(4096).endswith(record("0835F1 110635 C1C2 110835 E7")))


if __name__ == "__main__":
    unittest.main()
