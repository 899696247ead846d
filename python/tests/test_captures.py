"""What the package tells of captures is what the program prints of them."""
from __future__ import annotations

import re
import subprocess
import tempfile
import unittest

from ribbonscarp import Color, Command, Decoder, Header, Refused, Screen, Style, Truncated
from support import EXAMPLES, PROGRAM, ready_station, record

CAPTURES = [file for file in sorted(EXAMPLES.glob("*.hex")) if not file.name.endswith(("-answers.hex", "-station.hex"))]
COLORS = {"32": Color.GREEN, "37;1": Color.WHITE, "31": Color.RED, "36": Color.TURQUOISE}
COLORS |= {"33": Color.YELLOW, "35": Color.PINK, "34": Color.BLUE}


def printed(*words: str, hex_text: str) -> str:
    """What the program prints of hex text."""
    with tempfile.NamedTemporaryFile("w", suffix=".hex") as file:
        file.write(hex_text)
        file.flush()
        done = subprocess.run([PROGRAM, *words, file.name], stdout=subprocess.PIPE, text=True, check=False)
    return done.stdout


def screen_of(stream: bytes) -> Screen:
    with ready_station() as station:
        station.push(stream)
        return station.screen


def check_line(stream: bytes) -> str:
    """The line that `t5250 check --extended` prints of a stream, without a reason's name."""
    records = commands = 0
    with Decoder() as decoder:
        try:
            for step in decoder.push(stream):
                records += isinstance(step, Header)
                commands += isinstance(step, Command)
            decoder.finish()
        except Refused as refused:
            return f"refused at {refused.place}: reason {int(refused.reason)}"
        except Truncated as truncated:
            return f"truncated at {truncated.length}"
    return f"accepted: {records} records, {commands} commands, {len(stream)} bytes"


class CapturesTest(unittest.TestCase):
    def test_screens(self) -> None:
        self.assertGreater(len(CAPTURES), 3)
        for capture in CAPTURES:
            text = capture.read_text(encoding="ascii")
            screen = screen_of(bytes.fromhex(text))
            shown = printed("show", "--extended", hex_text=text).partition("screen\n")[2].splitlines()
            self.assertEqual(str(screen).splitlines(), shown[:-1], capture.name)
            locked = "locked" if screen.is_locked else "unlocked"
            self.assertTrue(shown[-1].startswith(f"cursor {screen.cursor[0]} {screen.cursor[1]}, {locked},"))
            self.assertTrue(shown[-1].endswith(f", fields {len(screen.fields)}"))

    def test_cut_and_changed(self) -> None:
        """Captures that end early, and captures with a byte that was changed."""
        for capture in CAPTURES:
            stream = bytes.fromhex(capture.read_text(encoding="ascii"))
            spoiled = [stream, stream[: len(stream) // 2], stream[:-1]]
            for place in range(0, len(stream), max(1, len(stream) // 6)):
                spoiled.append(stream[:place] + bytes([stream[place] ^ 0x15]) + stream[place + 1 :])
            for given in spoiled:
                wanted = re.sub(r"(reason \d+).*", r"\1", printed("check", "--extended", hex_text=given.hex())).strip()
                self.assertEqual(check_line(given), wanted, given.hex())

    def test_colors(self) -> None:
        """Every attribute, as a colour display shows it."""
        rows = [
            bytes([0x11, 1 + at // 8, 2 + at % 8 * 4, 0x20 + at]) + "AB".encode("cp037") + b"\x20" for at in range(32)
        ]
        stream = record(bytes.fromhex("0440 04110008") + b"".join(rows))
        screen = screen_of(stream)
        lines = printed("show", "--color", hex_text=stream.hex()).partition("screen\n")[2].splitlines()[:-1]
        self.assertEqual(len(lines), 4)
        for row, line in enumerate(lines, 1):
            column = 0
            for codes, text in re.findall(r"\x1b\[0(?:;([\d;]+))?m([^\x1b]*)", line[3:]):
                for character in text:
                    column += 1
                    cell = screen.cell(row, column)
                    self.assertEqual(cell.character, character)
                    self.assertEqual(codes, self.codes(cell.style), (row, column))
            self.assertGreaterEqual(column, 27)

    def codes(self, style: Style) -> str:
        """The SGR codes of a style (ECMA-48), as docs/MANUAL.md has them."""
        color = next(codes for codes, color in COLORS.items() if color is style.color)
        more = ((style.is_reversed, ";7"), (style.is_underscored, ";4"), (style.is_blinking, ";5"))
        return color + "".join(code for is_so, code in more if is_so)
