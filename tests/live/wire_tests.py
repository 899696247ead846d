"""Lines of `serve`, with --any too, that work on the connection itself, and what an answer's fields show."""
import time
import unittest

from live.lines import KINDS, READY, served
from live.program import Run, timed
from live.screens import SIGN_ON
from records import BINARY, DO, IAC, SB, SE, WILL, record

# Lines, and the bytes that they write (RFC 854, RFC 855).
WRITTEN = [
    ("raw 00", b"\x00"), ("raw fFfe0D0a", b"\xff\xfe\x0d\x0a"), ("telnet NOP", bytes([IAC, 0xF1])),
    ("telnet DO 39", bytes([IAC, DO, 39])), ("telnet WILL 0", bytes([IAC, WILL, BINARY])),
    ("telnet SB 24 01", bytes([IAC, SB, 24, 1, IAC, SE])), ("telnet SB 5 FF", bytes([IAC, SB, 5, IAC, IAC, IAC, SE])),
    ("telnet SB 5", bytes([IAC, SB, 5, IAC, SE])),
]

BAD = ["raw", "raw ", "raw 0", "raw 0G", "raw 00 00", "raw  00", "telnet", "telnet ", "telnet do 39", "telnet DO",
       "telnet DO 256", "telnet NOP 1", "telnet SB 24 0", "at 1 telnet NOP", "pause", "pause 0", "pause 3600001",
       "pause -1", "pause 1 ", "close 1", "close ", "end 1", "End"]


# A field's content, and what is printed of it: as `fields` of connect shows a field.
CONTENTS = [
    ("", ""), ("C1", " C1 A"), ("4040", " 4040"), ("C14040", " C14040 A"), ("40C1", " 40C1  A"), ("DC", " DC \u00fc"),
    ("C100C2", " C100C2 A B"), ("F1F2", " F1F2 12"),
]


class TestWire(unittest.TestCase):
    def test_bytes_as_they_are(self):
        for words, told in KINDS:
            serve, side = served("await\n" + "".join(line + "\n" for line, _ in WRITTEN), "--ready", *words)
            for line, wanted in WRITTEN:
                side.take(wanted, line)
            side.close()
            serve.end(0, told + "ok\n" * (len(WRITTEN) + 1))

    def test_time_goes_by(self):
        for words, told in KINDS:
            began = time.monotonic()
            serve, side = served("await\npause 700\nraw 01\n", "--ready", *words)
            side.take(b"\x01")
            timed(0.65, 30, began, "pause")
            side.close()
            serve.end(0, told + "ok\nok\nok\n")

    def test_a_connection_is_closed(self):
        """Behind `close` no line is carried out, and nothing is answered on."""
        for words, told in KINDS:
            serve, side = served("await\nraw 0011\nclose\nraw 02\nawait\n", "--ready", *words)
            side.take(b"\x00\x11")
            side.take_end()
            # The station closes no earlier than it was told.
            side.close()
            serve.end(0, told + "ok\nok\nok\n")
            # Whatever was refused before it is told by the status.
            if not words:
                serve, side = served("await\ncancel\nclose\n", "--ready")
                side.take_end()
                side.close()
                serve.end(1, told + "ok\nsend refused NoReadToCancel\nok\nok\n")

    def test_a_host_that_closes_inside_a_record(self):
        text = "await\nraw %s\nclose\n" % record(SIGN_ON)[:40].hex()
        for words, told in KINDS:
            serve = Run(["serve", "--wait", "60", *words, "127.0.0.1:0"], text)
            Run(["connect", "--wait", "60", serve.line().split()[1]], "await\n").end(1, "ended\n")
            serve.end(0, told)

    def test_the_end_of_a_block(self):
        blocks = ("await\nsend 3\n  CLEAR-UNIT\nend\nraw 01\n",
                  "await\nend\nsend 3\n  CLEAR-UNIT\n\nend\nend\nraw 01\n")
        for words, told in KINDS:
            for text, script in (blocks[0], None), (blocks[1], None), (None, blocks[0]):
                serve, side = served(text, "--ready", *words, script=script)
                side.take(record("0440") + b"\x01")
                side.close()
                serve.end(0, told + "ok\nok\nok\n")

    def test_lines_that_are_none(self):
        for words, _ in KINDS:
            for line in BAD:
                Run(["serve", "--wait", "1", *words, "127.0.0.1:0"], script="await\n%s\n" % line).end(2, "", None)
        # And no lines of a station.
        for line in "raw 00", "telnet NOP", "pause 1", "close", "end":
            Run(["connect", "--wait", "1", "127.0.0.1:1"], script=line + "\n").end(2, "", None)

    def test_what_an_answer_s_fields_show(self):
        form = "04400411000811010" "41D400020000A" "04520000"
        for content, printed in CONTENTS:
            serve, side = served("await\nsend 3 %s\nawait\n" % form, "--ready")
            side.take(record(form))
            side.send(record("0105F1" "110105" + content))
            side.close()
            serve.end(0, READY + "ok\nok\nanswer 1 5 F1\n  field 1 5%s\nok\n" % printed)
