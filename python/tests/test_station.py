"""A station in Python: bytes, keys, what they are refused for, and what is seen of it."""
from __future__ import annotations

import contextlib
import gc
import unittest
import warnings
from collections.abc import Callable

from ribbonscarp import Key, KeyRefusal, KeyRefused, Read, Reason, Refused, Station, Status, StatusError
from support import ASKED, FORM, PAST_END, Beside, ready_station, record


class StationTest(unittest.TestCase):
    def test_opening(self) -> None:
        """The answers of the negotiation, in one piece and byte by byte."""
        wanted = bytes.fromhex("FFFB18 FFFA1800") + b"IBM-5291-1" + bytes.fromhex("FFF0 FFFB19 FFFD19 FFFB00 FFFD00")
        with Station("ibm-5291-1") as station:
            self.assertFalse(station.state.is_ready)
            self.assertEqual(station.push(ASKED), wanted)
            self.assertTrue(station.state.is_ready)
        with Station("IBM-5291-1") as station:
            self.assertEqual(b"".join(station.push(bytes([byte])) for byte in ASKED), wanted)
            self.assertEqual(station.push(b""), b"")

    def test_live_host(self) -> None:
        """A query, a saved screen that comes back, and an error that Reset takes away."""
        query = record(bytes.fromhex("04F30005D97000"))
        reply = bytes.fromhex(
            "000088003AD97080 0600010100" + "00" * 16 + "01F3F1F7F9F0F0F2 020000 00615000 0100 000000 23110000" + "00" * 8
        )
        with ready_station(FORM) as station:
            self.assertEqual(station.push(query), record(reply, opcode=0))
            station.type("BO")
            saved = station.push(record(bytes.fromhex("0402"), opcode=4))
            self.assertEqual(saved[9:14], bytes.fromhex("04 0412 0440"))
            before = station.screen
            self.assertEqual(station.push(record(bytes.fromhex("0440"), opcode=2)), b"")
            self.assertEqual(station.push(saved[:9] + b"\x05" + saved[10:]), b"")
            self.assertEqual((station.screen.rows, station.state.cursor), (before.rows, before.cursor))
            self.assertIsNone(station.state.error_row)
            station.push(record(bytes.fromhex("0421 130635 22C5D9D9")))
            self.assertEqual((station.state.error_row, station.screen.rows[23][:4]), (24, " ERR"))
            with self.assertRaises(KeyRefused) as caught:
                station.type("B")
            self.assertIs(caught.exception.refusal, KeyRefusal.LOCKED)
            self.assertEqual(station.press(Key.RESET), b"")
            self.assertEqual((station.state.error_row, station.screen.rows[23].strip()), (None, ""))
            self.assertEqual(station.press(Key.ENTER), record(bytes.fromhex("0635F1 110635 C2D6")))
        with Station(strict=True) as station:
            station.push(ASKED)
            with self.assertRaises(Refused) as refused:
                station.push(query)
            self.assertIs(refused.exception.reason, Reason.STRUCTURED_FIELD)

    def test_alarms(self) -> None:
        """A Write with the bit 04 counts, in each record that isn't refused; nothing else does."""
        for strict in (False, True):
            with Station(strict=strict) as station:
                station.push(ASKED)
                self.assertEqual(station.alarms, 0)
                station.push(record(bytes.fromhex("04110000 0440 04110008 0452 0004")))
                self.assertEqual(station.alarms, 0)
                station.push(record(bytes.fromhex("04110004 04110004 0411200C")))
                self.assertEqual((station.alarms, station.state.alarms), (3, 3))
                ends: contextlib.AbstractContextManager[object] = contextlib.nullcontext()
                with self.assertRaises(Refused) if strict else ends:
                    station.push(record(bytes.fromhex("04110004") + PAST_END))
                self.assertEqual(station.alarms, 3)

    def test_terminal(self) -> None:
        with self.assertRaisesRegex(ValueError, "no terminal type is 'IBM-3477-FC'; there are IBM-5251-11, "):
            Station("IBM-3477-FC")
        with self.assertRaises(ValueError):
            Station("IBM-3179-2é")

    def test_answer(self) -> None:
        with ready_station(FORM) as station:
            self.assertEqual(station.state.cursor, (6, 53))
            self.assertIs(station.state.pending_read, Read.MDT_FIELDS)
            station.type("BOB")
            answer = station.press(Key.ENTER)
            self.assertEqual(answer, record(bytes.fromhex("0638F1 110635 C2D6C2")))
            self.assertTrue(station.state.is_locked)
            self.assertIs(station.state.pending_read, Read.NONE)
            self.assertEqual(station.press(Key.ATTENTION), bytes.fromhex("000A12A0000004400000FFEF"))
            self.assertEqual(station.press(Key.SYSTEM_REQUEST), bytes.fromhex("000A12A0000004040000FFEF"))

    def test_keys(self) -> None:
        """Every key that is no attention key is taken, and sends nothing."""
        with ready_station(FORM) as station:
            station.type("AC")
            station.press(Key.LEFT)
            station.insert("B")
            self.assertEqual(station.screen.fields[0].text, "ABC")
            for key in (Key.LEFT, Key.RIGHT, Key.UP, Key.DOWN, Key.HOME, Key.TAB, Key.BACK_TAB, Key.DELETE):
                self.assertEqual(station.press(key), b"", key)
            self.assertEqual(station.press(Key.ERASE_INPUT), b"")
            self.assertEqual(station.screen.fields[0].text, "")

    def test_key_refused(self) -> None:
        rows: list[tuple[Key | str, KeyRefusal, str | None]] = [
            ("€", KeyRefusal.WRONG_CHARACTER, "key '€' at row 6, column 53: the field doesn't take this character"),
            ("\ud800", KeyRefusal.WRONG_CHARACTER, None),
            (Key.DUP, KeyRefusal.DUP_NOT_ALLOWED, "key DUP at row 6, column 53: the field doesn't take Dup"),
        ]
        with ready_station(FORM) as station:
            for key, refusal, text in rows:
                with self.assertRaises(KeyRefused) as caught:
                    station.press(key) if isinstance(key, Key) else station.type(key)
                error = caught.exception
                self.assertEqual((error.refusal, error.key, error.place), (refusal, key, (6, 53)))
                self.assertIn(text or "", str(error))
            station.press(Key.LEFT)
            with self.assertRaises(KeyRefused) as caught:
                station.type("A")
            self.assertEqual((caught.exception.refusal, caught.exception.place), (KeyRefusal.PROTECTED, (6, 52)))

    def test_early(self) -> None:
        """Before the host has sent anything."""
        with Station() as station:
            with self.assertRaises(StatusError) as caught:
                station.press(Key.ENTER)
            self.assertEqual(caught.exception.status, Status.NOT_READY)
            with self.assertRaises(KeyRefused) as refused:
                station.type("A")
            self.assertEqual(refused.exception.refusal, KeyRefusal.LOCKED)

    def test_refused(self) -> None:
        """The screen is as it was, and what was answered before the byte is there."""
        with ready_station(FORM, strict=True) as station:
            before = station.screen
            taken = len(ASKED) + len(record(FORM))
            bad = bytes.fromhex("FFFD27") + record(PAST_END)
            with self.assertRaises(Refused) as caught:
                station.push(bad)
            error = caught.exception
            self.assertEqual((error.reason, error.place), (Reason.PAST_END, taken + len(bad) - 1))
            self.assertEqual(error.reply, bytes.fromhex("FFFC27"))
            self.assertEqual(station.screen.rows, before.rows)
            calls: list[Callable[[], object]] = [lambda: station.push(b"A"), lambda: station.press(Key.TAB)]
            for call in calls:
                with self.assertRaises(StatusError) as failed:
                    call()
                self.assertEqual(failed.exception.status, Status.FAILED)

    def test_changed_rows(self) -> None:
        with ready_station(FORM) as station:
            self.assertEqual(station.changed_rows(), [6])
            self.assertEqual(station.changed_rows(), [])
            station.push(record(bytes.fromhex("04110000 110A50 24"), 2))
            self.assertEqual(station.changed_rows(), list(range(10, 25)))

    def test_many_bytes(self) -> None:
        """No piece lacks room for its answers, also one that asks for a terminal's name again and again."""
        ask = bytes.fromhex("FFFA1801FFF0")
        name = bytes.fromhex("FFFA1800") + b"IBM-3179-2" + bytes.fromhex("FFF0")
        with ready_station() as station:
            self.assertEqual(station.push(ask * 20000), name * 20000)

    def test_closed(self) -> None:
        station = Station()
        station.close()
        station.close()
        calls: list[Callable[[], object]] = [lambda: station.push(b"A"), lambda: station.press(Key.TAB)]
        calls.append(lambda: station.screen)
        for call in calls:
            with self.assertRaises(StatusError) as caught:
                call()
            self.assertEqual(caught.exception.status, Status.NOTHING_HELD)

    def test_threads(self) -> None:
        """A station is used by several threads, one call at a time, and closed by another than made it."""
        station = ready_station(FORM)

        def work() -> None:
            for _ in range(300):
                station.fill(1, "BOB")
                self.assertEqual(station.screen.fields[0].text, "BOB")
                station.push(b"\xff\xf1" * 50)

        for beside in [Beside(work) for _ in range(4)]:
            beside.finish()
        self.assertEqual(station.screen.fields[0].text, "BOB")
        Beside(station.close).finish()
        with self.assertRaisesRegex(StatusError, "this Station is closed"):
            station.type("A")

    def test_forgotten_elsewhere(self) -> None:
        """One that is forgotten on another thread than made it is freed there."""
        kept = [Station()]
        handle = kept[0]._handle

        def forget() -> None:
            kept.clear()
            gc.collect()

        with warnings.catch_warnings():
            warnings.simplefilter("ignore")
            Beside(forget).finish()
        self.assertFalse(handle.handle.is_open)

    def test_unclosed(self) -> None:
        """One that is forgotten is freed, and warned of."""
        with warnings.catch_warnings(record=True) as caught:
            warnings.simplefilter("always")
            handle = Station()._handle
            gc.collect()
        self.assertEqual([str(warning.message) for warning in caught], ["unclosed Station"])
        self.assertFalse(handle.handle.is_open)
