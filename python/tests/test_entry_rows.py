"""What format words ask of an operator at a live station: worked examples beside those of tests/live/entry_tests.py."""
from __future__ import annotations

import unittest

from ribbonscarp import CODE_PAGES, Key, KeyRefusal, KeyRefused, Station
from support import ASKED, ready_station, record

# What a shift lets in that doesn't let in every character.
LETTERS = "ABCDEFGHIJKLMNOPQRSTUVWXYZabcdefghijklmnopqrstuvwxyz0123456789,.-+ "


def formed(format: str, cells: int) -> Station:
    """A station with a field of a format word at 6 53, of so many cells, another at 6 73, and a read."""
    fields = f"110634 1D{format}20{cells:04X} 110648 1D4000200004"
    return ready_station(bytes.fromhex(f"0440 04110008 {fields} 04520000"))


class EntryRowsTest(unittest.TestCase):
    def refuses(self, station: Station, key: Key) -> None:
        """A key is refused, since a field is filled in part."""
        with self.assertRaises(KeyRefused) as caught:
            station.press(key)
        self.assertIs(caught.exception.refusal, KeyRefusal.MANDATORY_FILL)

    def test_a_cursor_key_lifts_a_full_field(self) -> None:
        with formed("4040", 3) as station:
            station.type("ABC")
            station.press(Key.LEFT)
            station.press(Key.RIGHT)
            station.type("D")
            self.assertEqual(station.screen.cell(6, 55).byte, 0xC4)

    def test_auto_enter_that_is_refused_leaves_the_field(self) -> None:
        """The field's other bits ask that it is filled."""
        with formed("4087", 3) as station:
            station.type("A")
            self.refuses(station, Key.FIELD_EXIT)
            station.press(Key.RIGHT)
            self.assertEqual(station.type("C"), b"")
            self.assertEqual(station.state.cursor, (6, 73))

    def test_a_field_has_to_be_filled(self) -> None:
        with formed("4007", 4) as station:
            station.type("AB")
            self.refuses(station, Key.ENTER)
            assert station.missing is not None
            self.assertEqual((station.missing.row, station.missing.column), (6, 53))
            station.type("CD")
            self.assertEqual(station.press(Key.ENTER), record("0649F1 110635 C1C2C3C4"))

    def test_what_shifts_let_in_has_one_byte_on_all_pages(self) -> None:
        """So a shift judges the same character at any page."""
        form = record(f"0440 04110008 1D400020{len(LETTERS):04X}")
        for page in CODE_PAGES:
            with self.subTest(page), Station(code_page=page) as station:
                station.push(ASKED + form)
                station.type(LETTERS)
                self.assertEqual(station.screen.fields[0].content, LETTERS.encode("cp037"))


if __name__ == "__main__":
    unittest.main()
