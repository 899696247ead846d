"""What is seen of a screen: rows, cells, colours, fields and their labels."""
from __future__ import annotations

import html
import json
import re
import unittest
from collections.abc import Callable

from ribbonscarp import Color, FieldNotFound, Key, Screen, Shift, Style
from support import FORM, SIGN_ON, TOP, ready_station


def screen_of(*bodies: bytes) -> Screen:
    with ready_station(*bodies) as station:
        return station.screen


def at(row: int, column: int, text: str = "") -> bytes:
    """Set Buffer Address, and characters."""
    return bytes([0x11, row, column]) + text.encode("cp037")


def field(row: int, column: int, length: int, format: str = "4000", attribute: str = "20") -> bytes:
    """A field from a cell on."""
    return at(row, column - 1) + bytes.fromhex("1D" + format + attribute) + length.to_bytes(2, "big")


WRITE = bytes.fromhex("0440 04110008")


class StyleTest(unittest.TestCase):
    def test_table(self) -> None:
        """The colours of docs/PROFILE.md."""
        text = (TOP / "docs/PROFILE.md").read_text(encoding="utf-8")
        lines = re.findall(r"^\| ([23][08]) to [23][7F] \|(.*)\|$", text, re.M)
        self.assertEqual([first for first, _ in lines], ["20", "28", "30", "38"])
        for first, words in lines:
            for offset, entry in enumerate(words.split("|")):
                color, *letters = entry.split()
                hidden = color == "hidden"
                wanted = Style(
                    Color.GREEN if hidden else Color(color),
                    is_reversed="R" in letters,
                    is_underscored="U" in letters,
                    is_blinking="B" in letters,
                    has_column_separators="S" in letters,
                    is_hidden=hidden,
                )
                self.assertEqual(Style.of(int(first, 16) + offset), wanted)


class ScreenTest(unittest.TestCase):
    def test_rows(self) -> None:
        screen = screen_of(SIGN_ON)
        self.assertEqual(len(screen.rows), 24)
        self.assertTrue(all(len(row) == 80 for row in screen.rows))
        self.assertEqual(screen.rows[0], " " * 36 + "Sign On" + " " * 37)
        self.assertEqual(screen.row(6), " " * 16 + "User . .")
        self.assertEqual(str(screen).splitlines()[0], " 1 " + " " * 36 + "Sign On")
        self.assertEqual(len(str(screen).splitlines()), 3)
        self.assertEqual(screen.find("User"), (6, 17))
        self.assertIsNone(screen.find("Item"))
        self.assertIn("Password", screen)
        self.assertEqual(screen.text_at(1, 37, 4), "Sign")
        self.assertEqual(screen.text_at(1, 80, 3), "   ")
        self.assertEqual(screen.cursor, (6, 53))
        self.assertFalse(screen.is_locked)

    def test_off_screen(self) -> None:
        screen = screen_of()
        calls: list[Callable[[], object]] = [
            lambda: screen.row(0),
            lambda: screen.row(25),
            lambda: screen.cell(1, 0),
            lambda: screen.cell(1, 81),
            lambda: screen.text_at(25, 1, 1),
        ]
        for call in calls:
            with self.assertRaises(ValueError):
                call()

    def test_cells(self) -> None:
        """An attribute shows a blank and begins after its cell; a hidden cell shows a blank."""
        body = WRITE + at(2, 1, "A") + b"\x28" + at(2, 3, "B") + b"\x27" + at(2, 5, "C") + b"\x20"
        screen = screen_of(body + field(4, 2, 3, attribute="24"))
        row = [screen.cell(2, column) for column in range(1, 7)]
        self.assertEqual("".join(cell.character for cell in row), "A B   ")
        self.assertEqual([cell.byte for cell in row], [0xC1, 0x28, 0xC2, 0x27, 0xC3, 0x20])
        self.assertEqual([cell.attribute for cell in row], [0x20, 0x20, 0x28, 0x20, 0x27, 0x20])
        self.assertEqual([cell.is_attribute for cell in row], [False, True, False, True, False, True])
        self.assertEqual((row[0].color, row[2].color), (Color.GREEN, Color.RED))
        self.assertTrue(row[4].style.is_hidden)
        self.assertEqual([screen.cell(4, column).field for column in range(1, 6)], [None, 1, 1, 1, None])
        self.assertTrue(screen.cell(4, 2).style.is_underscored)
        self.assertEqual(len(screen.cells), 24)

    def test_stands(self) -> None:
        """A screen that was asked for stays as it was."""
        with ready_station(FORM) as station:
            before = station.screen
            station.type("BOB")
            self.assertEqual(before.fields[0].text, "")
            self.assertEqual(station.screen.fields[0].text, "BOB")


class SeenTest(unittest.TestCase):
    """A screen as it is printed, compared and handed on; a hidden field stays hidden."""

    BODY = WRITE + at(1, 36, "Sign On") + at(6, 2, "User") + field(6, 20, 10) + at(7, 2, "Password")
    BODY += field(7, 20, 10, attribute="27")

    def setUp(self) -> None:
        station = ready_station(self.BODY)
        self.addCleanup(station.close)
        station.fill("User", "BOB")
        station.fill("Password", "SECRET")
        self.station, self.screen = station, station.screen

    def test_printed(self) -> None:
        first, *rows = repr(self.screen).splitlines()
        self.assertEqual(first, "<Screen: cursor 7 26, unlocked, 2 fields")
        self.assertEqual(rows, [" 1 " + " " * 35 + "Sign On", " 6  User" + " " * 14 + "BOB", " 7  Password>"])
        self.assertEqual(
            [repr(found) for found in self.screen.fields],
            [
                "<Field 1 'User' at row 6, column 20, length 10, format 4800, modified: 'BOB'>",
                "<Field 2 'Password' at row 7, column 20, length 10, format 4800, hidden, modified: ''>",
            ],
        )
        self.assertEqual([found.is_hidden for found in self.screen.fields], [False, True])
        self.assertEqual(self.screen.fields[1].content[:6], "SECRET".encode("cp037"))

    def test_nothing_hidden_is_told(self) -> None:
        secrets = ("SECRET", "SECRET".encode("cp037").hex(), repr("SECRET".encode("cp037"))[2:-1])
        told = [repr(self.screen), str(self.screen), repr(self.screen.fields), self.screen.to_html()]
        told.append(json.dumps(self.screen.to_dict()))
        for text in told:
            for secret in secrets:
                self.assertNotIn(secret, text)

    def test_compared(self) -> None:
        self.assertEqual(self.screen, self.station.screen)
        self.assertEqual(len({self.screen, self.station.screen}), 1)
        self.station.press(Key.TAB)
        self.assertNotEqual(self.screen, self.station.screen)
        self.station.press(Key.BACK_TAB)
        self.assertNotEqual(self.screen, "Sign On")
        self.assertIn("Sign On", self.screen)
        self.assertIn(re.compile("Sign O."), self.screen)
        self.assertNotIn(re.compile("^Sign"), self.screen)

    def test_json(self) -> None:
        told = json.loads(json.dumps(self.screen.to_dict()))
        self.assertEqual(sorted(told), ["cursor", "error_row", "fields", "locked", "message", "rows"])
        self.assertEqual((told["rows"][0].strip(), told["cursor"], told["locked"]), ("Sign On", [7, 26], False))
        user = {"number": 1, "row": 6, "column": 20, "length": 10, "label": "User", "text": "BOB", "hidden": False}
        self.assertEqual(told["fields"][0], user | {"protected": False, "modified": True})
        self.assertEqual((told["fields"][1]["text"], told["fields"][1]["hidden"]), ("", True))

    def test_html(self) -> None:
        """The text of the element is the rows."""
        with ready_station(self.BODY + at(10, 1) + b"\x29" + at(10, 2, "<b>&")) as station:
            screen = station.screen
        text = screen.to_html()
        lines = html.unescape(re.sub("<[^>]*>", "", text)).strip("\n").split("\n")
        self.assertEqual(lines, list(screen.rows))
        self.assertIn("background:#f44;color:#000", text)
        self.assertEqual(text.count("outline"), 1)


class FieldTest(unittest.TestCase):
    def test_fields(self) -> None:
        with ready_station(SIGN_ON) as station:
            station.type("BOB")
            first, second = station.screen.fields
        self.assertEqual((first.number, first.row, first.column, first.length), (1, 6, 53, 10))
        self.assertEqual((first.text, first.content), ("BOB", b"\xc2\xd6\xc2" + bytes(7)))
        self.assertEqual((first.label, second.label), ("User", "Password"))
        self.assertEqual((first.is_modified, second.is_modified), (True, False))
        self.assertEqual(first.last, (6, 62))

    def test_formats(self) -> None:
        """The bits of a format word, as docs/PROFILE.md has them."""
        words = {"4000": Shift.ALPHABETIC, "4100": Shift.ALPHABETIC_ONLY, "4200": Shift.NUMERIC}
        words |= {"4300": Shift.NUMERIC_ONLY, "4500": Shift.DIGITS_ONLY, "4700": Shift.SIGNED_NUMERIC}
        body = WRITE + b"".join(field(row, 2, 5, format) for row, format in enumerate(words, 1))
        self.assertEqual([found.shift for found in screen_of(body).fields], list(words.values()))
        body = WRITE + b"".join(
            field(row, 2, 5, format) for row, format in enumerate(["6000", "4800", "4008", "4005", "4006", "4007"], 1)
        )
        told = [
            (found.is_bypass, found.is_modified, found.is_mandatory, found.is_right_adjusted)
            for found in screen_of(body).fields
        ]
        self.assertEqual(
            told,
            [
                (True, False, False, False),
                (False, True, False, False),
                (False, False, True, False),
                (False, False, False, True),
                (False, False, False, True),
                (False, False, False, False),
            ],
        )

    def test_over_rows(self) -> None:
        screen = screen_of(WRITE + field(5, 79, 4) + at(5, 79, "ABCD"))
        found = screen.fields[0]
        self.assertEqual((found.text, found.last), ("ABCD", (6, 2)))
        self.assertEqual(screen.field((6, 1)).number, 1)
        with self.assertRaises(FieldNotFound):
            screen.field((6, 3))

    def test_labels(self) -> None:
        body = WRITE + at(3, 2, "From . . . :") + field(3, 20, 4) + at(3, 26, "to") + field(3, 30, 4)
        body += at(20, 2, "Selection or command") + at(21, 2, "===>") + field(21, 8, 40)
        body += at(10, 2, "From account") + field(10, 20, 4)
        body += at(12, 2, "Opt") + field(13, 2, 1) + at(13, 5, "Apples") + field(14, 2, 1)
        screen = screen_of(body)
        labels = [found.label for found in screen.fields]
        self.assertEqual(labels, ["From", "to", "From account", "Opt", "", "Selection or command"])
        rows: list[tuple[int | str | tuple[int, int], int]] = [
            ("From", 1),
            ("from . . :", 1),
            ("To", 2),
            ("account", 3),
            ("Opt", 4),
            ("Selection", 6),
            ((3, 23), 1),
            ((21, 8), 6),
            (6, 6),
        ]
        for which, number in rows:
            self.assertEqual(screen.field(which).number, number, which)

    def test_punctuation(self) -> None:
        """A label of dots, dashes or arrows alone is looked for as it stands, and is no label of a field without one."""
        body = WRITE + field(2, 30, 4) + at(3, 2, "Name") + field(3, 20, 4)
        arrow = body + at(20, 2, "Selection or command") + at(21, 2, "===>") + field(21, 8, 40)
        screen = screen_of(arrow)
        for label in ("===>", " ===> ", "==>", "Selection or command", "command"):
            self.assertEqual(screen.field(label).number, 3, label)
        for label in ("...", "", " ", ":", "-->"):
            with self.assertRaisesRegex(FieldNotFound, "there are: 1 '' at 2 30, 2 'Name' at 3 20, 3 'Selection"):
                screen.field(label)
        alone = screen_of(body + at(10, 2, "===>") + field(10, 8, 4))
        self.assertEqual((alone.field("===>").number, alone.fields[2].label), (3, "===>"))
        two = screen_of(arrow + at(10, 2, "===>") + field(10, 8, 4))
        with self.assertRaisesRegex(FieldNotFound, "2 fields are '===>'; there are: 3 '===>' at 10 8, 4 'Selection or c"):
            two.field("===>")

    def test_as_it_stands_first(self) -> None:
        """A label that is another's without its dots is the field that has it so."""
        screen = screen_of(WRITE + at(3, 2, "Name:") + field(3, 20, 4) + at(5, 2, "Name") + field(5, 20, 4))
        self.assertEqual((screen.field("Name:").number, screen.field("name").number), (1, 2))

    def test_not_found(self) -> None:
        screen = screen_of(WRITE + at(3, 2, "Day") + field(3, 20, 4) + at(5, 2, "Day") + field(5, 20, 4))
        rows: list[tuple[int | str | tuple[int, int], str]] = [
            ("Month", "no field is 'Month'; there are: 1 'Day' at 3 20, 2 'Day' at 5 20"),
            ("Day", "2 fields are 'Day'"),
            (3, "no field is 3"),
            (0, "no field is 0"),
            (-1, "no field is -1"),
            ((3, 19), "no field is"),
        ]
        for which, text in rows:
            with self.assertRaises(FieldNotFound) as caught:
                screen.field(which)
            self.assertIn(text, str(caught.exception))
        with self.assertRaisesRegex(FieldNotFound, "there are: none"):
            screen_of().field("Day")
