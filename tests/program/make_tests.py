"""Items as text, made into streams: lines of hex, an item each, or the number of the first bad line."""
from program.runs import Runs, run

# A text, and what is written.
STREAMS = [
    ("", ""),
    ("# no items\n\n", ""),
    ("screen\nwhat follows isn't read", ""),
    ("record opcode 1\n", "000A12A0000004000001FFEF\n"),
    ("at 14 record flags FF00 opcode 10", "000A12A0000004FFFF000AFFEF\n"),
    ("telnet DO 24\nat 8 telnet SB 24 01\n\ntelnet NOP\n", "FFFD18\nFFFA1801FFF0\nFFF1\n"),
    ("record opcode 3\n  WRITE 00 08\n  TEXT Ab 1\n  PUT c8C9\ntelnet AYT\nrecord opcode 2\nscreen\n",
     "001412A000000400000304110008C18240F1C8C9FFEF\nFFF6\n000A12A0000004000002FFEF\n"),
    # what `show` prints of a stream
    ("at 44 record flags 0000 opcode 3\n  CLEAR-UNIT\n  WRITE 00 08\n  SBA 6 40\n  PUT D581948540404B404B404B\n"
     "  SBA 6 52\n  SF 4000 20 10\n  READ-MDT 00 00\nat 56 record flags 0000 opcode 10\nscreen\n"
     " 6                                        Name  . . .\ncursor 6 53, locked, message off, blink off, fields 1\n",
     "002B12A00000040000030440041100081106" "28D581948540404B404B404B110634" "1D400020000A" "04520000FFEF\n"
     "000A12A000000400000AFFEF\n"),
    # no flags, lower case, characters, comments, blank lines and CR
    ("# a comment\r\n\nrecord opcode 3\r\n  WRITE 00 08\n  TEXT Ab 1\ntelnet DO 024",
     "001212A000000400000304110008C18240F1FFEF\nFFFD18\n"),
]
# The same of a station's items.
ANSWERS = [
    ("", ""),
    ("at 2 telnet WILL 24\nat 18 telnet SB 24 0049424D2D333137392D32\nat 40 record flags 0000 opcode 3\n  HEAD 3 24 35\n"
     "  AT 3 20\n  BYTES F4F7F1F1\nat 55 record flags 0000 opcode 3\n  HEAD 3 20 33\n",
     "FFFB18\nFFFA180049424D2D333137392D32FFF0\n001412A0000004000003031835110314F4F7F1F1FFEF\n"
     "000D12A0000004000003031433FFEF\n"),
    ("# two runs\r\nrecord opcode 3\r\n  HEAD 24 80 f1\r\n  BYTES c1\r\n  TEXT Bc\r\n\r\nscreen\r\nand more",
     "001012A00000040000031850F1C1C283FFEF\n"),
    ("record flags 4000 opcode 0", "000A12A0000004400000FFEF\n"),
    ("record opcode 3\n  HEAD 1 1 F1\n  BYTES FF00", "000F12A00000040000030101F1FFFF00FFEF\n"),
]

# A text, and its first bad line.
BAD_LINES_OF_TEXT = [
    ("nonsense", 1),
    ("telnet NOP\n  CLEAR-UNIT", 2),
    ("# a comment\n\nrecord opcode 7", 3),
    ("record opcode 3\n  SBA 1 1\n", 2),
    ("record opcode 3\n  WRITE 00 08\n  SBA 25 1", 3),
    ("record opcode 3\n  WRITE 00 08\n  PUT C", 3),
    ("record opcode 3\n  WRITE 00 08\n  TEXT \u20ac", 3),
    ("telnet DO 24\ntelnet DO 256\ntelnet DO 257", 2),
    ("  SBA 1 1", 1),
    ("record opcode 7", 1),
    ("record opcode 3\n  SBA 1 1", 2),
    ("record opcode 3\n  WRITE 00 08\n  SBA 1 81", 3),
    ("record opcode 3\n  WRITE 00 08\n  PUT 04", 3),
    ("record opcode 3\n  WRITE 00", 2),
    ("record opcode 3\n  WRITE 00 08 ", 2),
    ("record opcode 3\n  READ-MDT 00 00\n  PUT C1", 3),
    ("record opcode 3\n  WRITE 00 08\n  SF 3000 20 1", 3),
    ("record opcode 3\n  WRITE 00 08\n  SF 20 65536", 3),
    ("record flags 0 opcode 3", 1),
    ("telnet DO 256", 1),
    ("at 18446744073709551616 telnet NOP", 1),
]
# The same of a station's items, whose parts can't stand everywhere.
BAD_LINES_OF_ANSWERS = [
    ("nonsense", 1),
    ("  HEAD 1 1 F1", 1),
    ("telnet NOP\n  HEAD 1 1 F1", 2),
    ("record opcode 3\n  CLEAR-UNIT", 2),
    ("record opcode 3\n  PUT C1", 2),
    ("record opcode 3\n  AT 1 1", 2),
    ("record opcode 3\n  BYTES C1", 2),
    ("record opcode 3\n  HEAD 1 1 F1\n  HEAD 1 1 F1", 3),
    ("record opcode 3\n  HEAD 25 1 F1", 2),
    ("record opcode 3\n  HEAD 1 81 F1", 2),
    ("record opcode 3\n  HEAD 1 1 F2", 2),
    ("record opcode 3\n  HEAD 1 1", 2),
    ("record opcode 3\n  HEAD 1 1 F1 F1", 2),
    ("record opcode 3\n  HEAD 1 1 F1\n  AT 0 1", 3),
    ("record opcode 3\n  HEAD 1 1 F1\n  AT 1 1 1", 3),
    ("record opcode 3\n  HEAD 1 1 F1\n  BYTES", 3),
    ("record opcode 3\n  HEAD 1 1 F1\n  BYTES 1D", 3),
    ("record opcode 3\n  HEAD 1 1 F1\n  BYTES C", 3),
    ("record opcode 3\n  HEAD 1 1 F1\n  BYTES C1 C2", 3),
    ("record opcode 7", 1),
    ("# a comment\n\ntelnet DO 256", 3),
]


class TestMake(Runs):
    def test_streams(self):
        for words, rows in ([], STREAMS), (["--answers"], ANSWERS):
            for text, written in rows:
                self.expect(f"make {words} of {text!r}", run(["make", *words], text), 0, written, "")

    def test_bad_lines(self):
        for words, rows in ([], BAD_LINES_OF_TEXT), (["--answers"], BAD_LINES_OF_ANSWERS):
            for text, number in rows:
                done = run(["make", *words], text)
                right = done.stderr.startswith(f"script line {number}: ") and (done.returncode, done.stdout) == (2, "")
                self.count(f"make {words} of {text!r} gave {done.stderr!r}", right)

