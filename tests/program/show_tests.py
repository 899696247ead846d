"""What `show` prints of a stream that isn't accepted, and of a screen in colour."""
import re

from program.runs import Runs, run, spelled

HI_HEX = "0015 12A0 0000 04 0000 02 0440 0411 0008 110102 C8C9 FFEF"
HI = """at 22 record flags 0000 opcode 2
  CLEAR-UNIT
  WRITE 00 08
  SBA 1 2
  PUT C8C9
"""
HI_SCREEN = """screen
 1  HI
cursor 1 1, unlocked, message off, blink off, fields 0
"""

# The words behind `show`, a hex text, the status, and what is written.
STOPPED = [
    # cut in an order
    ([], HI_HEX + "0014 12A0 0000 04 0004 03 0411 0008 C1C2 1102", 1, HI + "truncated at 41\n"),
    # no record, and a command begun
    ([], "FFF1 FF", 1, "at 1 telnet NOP\ntruncated at 3\n"),
    # no record behind a record, and a command refused
    ([], "000A 12A0 0000 04 0000 01 FFEF FF00", 1,
     "at 11 record flags 0000 opcode 1\nrefused at 13: reason 1 BadCommand\n"),
    # a record that isn't carried out
    ([], "0013 12A0 0000 04 0000 03 0411 0000 111850 C1C2 FFEF", 1,
     "at 20 record flags 0000 opcode 3\n  WRITE 00 00\n  SBA 24 80\n  PUT C1C2\nrefused at 20: reason 51 PastEnd\n"),
    # accepted
    ([], HI_HEX, 0, HI + HI_SCREEN),
    # a live host's, cut
    (["--extended"], HI_HEX + "0011 12A0 0000 04 0000 03 04F3 0005 D970 00", 1, HI + "truncated at 40\n"),
]

# The codes of each attribute, behind the reset, as a colour display shows it (IBM 3179-2): the colours 32 green, 37 and
# 1 white, 31 red, 36 turquoise, 33 yellow, 35 pink, 34 blue, and 7 reversed, 4 underscored, 5 blinking. What is hidden
# is a blank in green.
CODES = {
    0x21: "32;7", 0x22: "37;1", 0x23: "37;1;7", 0x24: "32;4", 0x25: "32;7;4", 0x26: "37;1;4", 0x27: "32", 0x28: "31",
    0x29: "31;7", 0x2A: "31;5", 0x2B: "31;7;5", 0x2C: "31;4", 0x2D: "31;7;4", 0x2E: "31;4;5", 0x2F: "32", 0x30: "36",
    0x31: "36;7", 0x32: "33", 0x33: "33;7", 0x34: "36;4", 0x35: "36;7;4", 0x36: "33;4", 0x37: "32", 0x38: "35",
    0x39: "35;7", 0x3A: "34", 0x3B: "34;7", 0x3C: "35;4", 0x3D: "35;7;4", 0x3E: "34;4", 0x3F: "32",
}
HIDDEN = [0x27, 0x2F, 0x37, 0x3F]

# What a Write to Display puts on a new screen, and its rows in colour.
COLORED = [
    # nothing
    ("", ""),
    # only blanks and attributes
    ("1103012240402840", ""),
    # green behind green, without codes
    ("11010120E720E8", " 1 \x1b[0;32m X Y\x1b[0m\n"),
    # a hidden part
    ("11010127C1C222C3", " 1 \x1b[0;32m \x1b[0;32m  \x1b[0;32m \x1b[0;37;1mC\x1b[0m\n"),
    # hidden up to the end
    ("11010124C127C2", " 1 \x1b[0;32m \x1b[0;32;4mA\x1b[0m\n"),
    # two attributes in a row
    ("1101012824C1", " 1 \x1b[0;32m  \x1b[0;32;4mA\x1b[0m\n"),
    # an attribute in the last cell
    ("11094FC128C2", " 9 \x1b[0;32m" + " " * 78 + "A\x1b[0m\n10 \x1b[0;31mB\x1b[0m\n"),
    # a character in the last cell
    ("11184E3A5CC1", "24 \x1b[0;32m" + " " * 78 + "\x1b[0;34m*A\x1b[0m\n"),
    # a row that is blank between two, in an attribute that goes on
    ("11010131C1110302C2", " 1 \x1b[0;32m \x1b[0;36;7mA\x1b[0m\n 3 \x1b[0;36;7m B\x1b[0m\n"),
    # Dup in a hidden part, which goes on in the next row, and behind that
    ("11014F3F1CC1221CC2", " 2 \x1b[0;32m \x1b[0;32m \x1b[0;37;1m*B\x1b[0m\n"),
    # an attribute in the last cell changes nothing at the first
    ("11185027110101C121", " 1 \x1b[0;32mA\x1b[0m\n"),
    # characters of two bytes, and one that the code page lacks
    ("1101014A205FFF", " 1 \x1b[0;32m¢ ¬.\x1b[0m\n"),
]
STATE = "cursor 1 1, locked, message off, blink off, fields 0\n"


class TestShow(Runs):
    def test_stopped(self):
        for words, text, status, written in STOPPED:
            self.expect(f"show {words} of {text}", run(["show", *words], text), status, written, "")

    def test_colors(self):
        """In colour, and the same without its sequences as without colours."""
        rows = list(COLORED)
        for byte, codes in CODES.items():
            # Between two characters, the second of which is green again.
            shown = " " if byte in HIDDEN else "X"
            rows.append((f"110101{byte:02X}E720E8", f" 1 \x1b[0;32m \x1b[0;{codes}m{shown}\x1b[0;32m Y\x1b[0m\n"))
        for body, wanted in rows:
            stream = spelled("04110000" + body)
            done, plain = run(["show", "--color"], stream), run(["show"], stream)
            colored = done.stdout.partition("screen\n")[2]
            self.count(f"show --color of {body} gave {colored!r}", colored == wanted + STATE)
            self.count(f"show of {body}", re.sub("\x1b.*?m", "", done.stdout) == plain.stdout)
