"""Scripts of each kind that aren't carried out, each with its first bad line."""
import unittest

from live.program import Run

# Lines that a station's script hasn't.
STATION = [
    "await text", "await text ", "await at", "await at ", "await at 1", "await at 1 1", "await at 1 1 ",
    "await at 0 1 A", "await at 25 1 A", "await at 1 81 A", "await at  1 1 A", "await quiet", "await quiet ",
    "await quiet 0", "await quiet 3600001", "await quiet 5ms", "await quiet  5", "cursor", "cursor ", "cursor 1",
    "cursor 1 ", "cursor 0 1", "cursor 25 1", "cursor 1 81", "cursor 257 1", "cursor 1 1 1", "cursor  1 1", "field",
    "field 1", "field 0 A", "field 257 A", "field X A", "newline ", "erase 1", "status ", "cells", "cells 0",
    "cells 25", "cells 1 1", "show 1", "show 1 1", "show 1 1 0", "show 1 1 1921", "show 25 1 1", "show 1 81 1",
    "note",
]

# A host's scripts, and the first line that is none.
HOST = [
    ("await answer ", 1), ("await Left", 1), ("await Attention", 1), ("await enter", 1), ("await  Enter", 1),
    ("show 1", 1), ("Show", 1), ("raw", 1), ("raw ", 1), ("raw 0", 1), ("raw 0G", 1), ("raw 00 00", 1), ("telnet", 1),
    ("telnet ", 1), ("telnet do 39", 1), ("telnet DO 256", 1), ("telnet NOP 1", 1), ("pause 0", 1),
    ("pause 3600001", 1), ("close 1", 1), ("end 1\n", 1),
    # elements that belong to no line
    ("  CLEAR-UNIT", 1), ("\n  CLEAR-UNIT", 2), ("# send 3\n  CLEAR-UNIT", 2), ("await\n  CLEAR-UNIT", 2),
    ("cancel\n  CLEAR-UNIT", 2), ("send 3 0440\n  CLEAR-UNIT", 2), ("send 10\n  CLEAR-UNIT", 1),
    ("send x\n  CLEAR-UNIT", 1), ("send \n  CLEAR-UNIT", 1), ("send\n  CLEAR-UNIT", 1), ("send 3 \n  CLEAR-UNIT", 1),
    # lines that are no elements
    ("send 3\n CLEAR-UNIT", 2), ("send 3\n\tCLEAR-UNIT", 2), ("send 3\n  ", 2), ("send 3\n   CLEAR-UNIT", 2),
    ("send 3\n  # none", 2), ("send 3\n  CLEAR-UNIT ", 2), ("send 3\n  clear-unit", 2),
    ("send 3\n  record opcode 3", 2), ("send 3\n  CLEAR-UNIT\n\n  CLEAR-UNIT", 4),
    ("send 3\n  CLEAR-UNIT\n# none\n  CLEAR-UNIT", 4), ("send 3\n  CLEAR-UNIT\nrecord opcode 3", 3),
    ("send 3\n  CLEAR-UNIT\nscreen", 3), ("send 3\n  WRITE 00 08\n  SBA 25 1", 3),
    ("send 3\n  WRITE 00 08\n  TEXT \u20ac", 3), (b"send 3\n  WRITE 00 08\n  TEXT \xff", 3),
    ("send 3\n  TEXT A\n  CLEAR-UNIT\n  WRITE 00", 2),
    # a bad line behind good ones
    ("await\n\n# one\nsend 3\n  CLEAR-UNIT\n  WRITE 00 08\nawait\nsend 3\n  CLEAR-UNIT\n  WRITE\nawait\n", 10),
    ("send 3\n  CLEAR-UNIT\nawait\nwait\n", 4), ("send 3\n  CLEAR-UNIT\nsend 3\n  CLEAR-UNIT\n  SBA 1 1\n", 5),
]

# The same of a host that takes any record.
ANY = [
    ("raw", 1), ("raw ", 1), ("raw 0", 1), ("raw 0g", 1), ("raw 00 00", 1), ("raw 00\n  CLEAR-UNIT", 2),
    ("telnet", 1), ("telnet DO", 1), ("telnet DO 256", 1), ("telnet NOP 39", 1), ("telnet SB 24 0", 1), ("pause", 1),
    ("pause 0", 1), ("pause 3600001", 1), ("pause 1 ms", 1), ("close now", 1), ("send 3\n  CLEAR-UNIT\nend 3", 3),
    ("await answer", 1), ("await Tab", 1), ("await ", 1), ("await enter", 1), ("  CLEAR-UNIT", 1),
    ("await\n  CLEAR-UNIT", 2), ("cancel", 1), ("send", 1), ("send ", 1), ("send 7", 1), ("send 3 ", 1),
    ("send 3 0", 1), ("send 3 0x", 1), ("send 3 0440\n  CLEAR-UNIT", 2), ("send 3\n  CLEAR-UNIT\n  SBA 1 1", 3),
    ("# one\n\nwait", 3), (b"# \xff", 1),
]


class TestNoLines(unittest.TestCase):
    """Nothing is connected, nor listened for."""

    def test_scripts_of_a_station(self):
        for words in [], ["--strict"]:
            for line in STATION:
                run = Run(["connect", "--wait", "1", *words, "127.0.0.1:1"], script="status\n\n%s\n" % line)
                run.end(2, "", "script line 3\n")

    def test_scripts_of_a_host(self):
        for words, rows in ([], HOST), (["--any"], ANY):
            for text, number in rows:
                run = Run(["serve", "--wait", "1", *words, "127.0.0.1:0"], script=text)
                run.end(2, "", "script line %d\n" % number)
