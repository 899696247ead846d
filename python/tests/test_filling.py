"""The keys that fill a field, and what the field holds then."""
from __future__ import annotations

import unittest

from ribbonscarp import Key, KeyRefusal, KeyRefused, RibbonscarpError, Shift, TextTooLong, keys_to_fill
from ribbonscarp.filling import takes
from support import ready_station


def form(format: str, length: int, content: bytes = b"") -> bytes:
    """A write of a field at 6 53 with a content and of one at 8 10 with X, where the cursor goes; Read MDT Fields."""
    head = bytes.fromhex("0440 04110008 110634 1D" + format + "20") + length.to_bytes(2, "big") + content
    return head + bytes.fromhex("110809 1D4000200004 E7 13080A 04520000")


class FillingTest(unittest.TestCase):
    def test_keys(self) -> None:
        with ready_station(form("4000", 10, b"\xc1\x00\xc2")) as station:
            screen = station.screen
            self.assertEqual(screen.cursor, (8, 10))
            keys = keys_to_fill(screen.fields[0], screen.cursor, "BOB")
            self.assertEqual(keys, [Key.UP] * 2 + [Key.RIGHT] * 43 + [Key.DELETE] * 3 + ["B", "O", "B"])

    def test_filled(self) -> None:
        """A format word, what the field of 6 cells held, the text, and what it then holds."""
        rows = [
            ("4000", "", "BOB", "C2D6C2000000"),
            ("4000", "C1C2C3C4C5C6", "BOB", "C2D6C2000000"),
            ("4000", "C1C2C3C4C5C6", "ABCDEF", "C1C2C3C4C5C6"),
            ("4000", "C10000C4", "", "000000000000"),
            ("4000", "", "", "000000000000"),
            ("4000", "", "-1-", "60F160000000"),
            ("4020", "", "bob", "C2D6C2000000"),
            ("4300", "F9F9F9", "1.5", "F14BF5000000"),
            # Right adjusted, with zeros and with blanks.
            ("4305", "F9F9F9F9F9F9", "12", "F0F0F0F0F1F2"),
            ("4006", "C1C1", "AB", "40404040C1C2"),
            ("4305", "", "123456", "F1F2F3F4F5F6"),
            ("4305", "F1", "", "000000000000"),
            # Signed: five digits, and the sign.
            ("4700", "F9F9F9F9F960", "12", "404040F1F240"),
            ("4700", "F9F9F9F9F960", "-12", "404040F1F260"),
            ("4700", "", "12-", "404040F1F260"),
            ("4705", "", "12345", "F1F2F3F4F540"),
            ("4705", "", "-12", "F0F0F0F1F260"),
            ("4700", "F9F9F9F9F960", "", "000000000000"),
        ]
        for format, held, text, wanted in rows:
            with self.subTest(format=format, held=held, text=text):
                with ready_station(form(format, 6, bytes.fromhex(held))) as station:
                    station.fill((6, 53), text)
                    field = station.screen.fields[0]
                    self.assertEqual(field.content.hex().upper(), wanted)
                    self.assertEqual(field.is_modified, bool(held or text))
                    self.assertEqual(station.screen.fields[1].text, "X")

    def test_too_long(self) -> None:
        """No key is pressed."""
        for format, text, room in (("4000", "ABCDEFG", 6), ("4700", "123456", 5), ("4700", "-123456", 5)):
            with ready_station(form(format, 6, b"\xf1")) as station:
                with self.assertRaisesRegex(ValueError, f"field 1 takes {room} characters"):
                    station.fill(1, text)
                self.assertEqual(station.screen.fields[0].content, b"\xf1" + bytes(5))
                self.assertEqual(station.screen.cursor, (8, 10))

    def test_hidden(self) -> None:
        """No error shows what was to be typed into a hidden field, and no cell what was."""
        body = bytes.fromhex("0440 04110008 110634 1D4000270006 04520000")
        for text, kind, said in (
            ("SECRETS", TextTooLong, "field 1 takes 6 characters, and not 7"),
            ("ABC\u20ac", KeyRefused, "a hidden character at row 6, column 56: "),
        ):
            with ready_station(body) as station, self.assertRaises(RibbonscarpError) as caught:
                station.fill(1, text)
            self.assertIsInstance(caught.exception, kind)
            self.assertIn(said, str(caught.exception))
            self.assertNotRegex(str(caught.exception), "SECRET|\u20ac")
        with ready_station(body) as station:
            station.type("S")
            with self.assertRaisesRegex(KeyRefused, "a hidden character at row 6, column 54: "):
                station.type("\u20ac")
            self.assertEqual(repr(station.screen.cell(6, 53)), "Cell(character=' ', attribute=39, field=1)")
            station.move_cursor(5, 1)
            with self.assertRaisesRegex(KeyRefused, "key 'S' at row 5, column 1: "):
                station.type("S")

    def test_refused(self) -> None:
        """Before any key is pressed: the field and the cursor stay as they were."""
        rows = [
            ("6000", "A", KeyRefusal.PROTECTED, "A", (6, 53)),
            ("6000", "", KeyRefusal.PROTECTED, Key.DELETE, (6, 53)),
            ("4300", "1A", KeyRefusal.WRONG_CHARACTER, "A", (6, 54)),
            ("4700", "1.5", KeyRefusal.WRONG_CHARACTER, ".", (6, 54)),
            ("4000", "AB\u20ac", KeyRefusal.WRONG_CHARACTER, "\u20ac", (6, 55)),
            ("4000", "\ud800", KeyRefusal.WRONG_CHARACTER, "\ud800", (6, 53)),
        ]
        for format, text, refusal, key, place in rows:
            with self.subTest(format=format, text=text), ready_station(form(format, 6, b"\xf1")) as station:
                before = station.screen
                with self.assertRaises(KeyRefused) as caught:
                    station.fill(1, text)
                error = caught.exception
                self.assertEqual((error.refusal, error.key, error.place), (refusal, key, place))
                self.assertEqual(station.screen, before)

    def test_locked(self) -> None:
        with ready_station(form("4000", 6, b"\xf1")) as station:
            station.press(Key.ENTER)
            before = station.screen
            with self.assertRaises(KeyRefused) as caught:
                station.fill(1, "A")
            self.assertEqual((caught.exception.refusal, caught.exception.key), (KeyRefusal.LOCKED, "A"))
            self.assertEqual(station.screen, before)

    def test_takes(self) -> None:
        """What `fill` looks for is what keys are refused for, of each shift and each character of Latin 1."""
        for shift in Shift:
            with ready_station(form(f"4{int(shift)}00", 6)) as station:
                for code in [*range(0x180), 0x20AC, 0xFFFF, 0x10FFFF]:
                    station.move_cursor(6, 53)
                    try:
                        station.type(chr(code))
                        is_taken = True
                    except KeyRefused:
                        is_taken = False
                    self.assertEqual(takes(shift, chr(code)), is_taken, (shift, code))

    def test_large(self) -> None:
        """A field of nearly the whole screen."""
        body = bytes.fromhex("0440 04110008 110101 1D400020077E 04520000")
        with ready_station(body) as station:
            text = "ABCDEFGHIJ" * 191
            station.fill(1, text)
            self.assertEqual(station.screen.fields[0].text, text)
            station.fill(1, "B")
            self.assertEqual(station.screen.fields[0].text, "B")
