"""What `serve` sends in words, of a script and line by line."""

import unittest

from live.lines import KINDS, READY, at_host, sending, served, settled_serve
from live.program import Run
from live.screens import SIGN_ON
from peers import expect
from records import record

# The sign-on in words, as `show` prints it, with its texts in characters.
SIGN_ON_WORDS = """send 3
  CLEAR-UNIT
  WRITE 00 08
  SBA 1 37
  TEXT Sign On
  SBA 6 17
  TEXT User  . . . . . . . . . . . . .
  SBA 6 52
  SF 4000 20 10
  SBA 7 17
  TEXT Password  . . . . . . . . . . .
  SBA 7 52
  SF 4000 27 10
  READ-MDT 00 00
"""


# Letters over the whole screen again and again: with its Write to Display the largest body.
LARGEST = bytes.fromhex("04110000" + "110101".join(["C1" * 1920] * 34 + ["C1" * 139]))


class TestSend(unittest.TestCase):
    def test_sends_in_words(self):
        text = "await\n" + SIGN_ON_WORDS + "await\nsend 1\nsend 3\n  CLEAR-UNIT\n"
        printed = READY + "answer 6 53 F1\n"
        for given, script, words, wanted in (text, None, [], printed), (None, text, [], printed), \
                (text, None, ["--ready"], READY + "ok\nok\nanswer 6 53 F1\nok\nok\nok\n"):
            serve, side = served(given, *words, script=script)
            side.take(record(SIGN_ON))
            side.send(record("0635F1"))
            side.take(record(opcode=1) + record("0440"))
            side.close()
            serve.end(0, wanted)

    def test_sends_in_words_line_by_line(self):
        serve, side = settled_serve(60)
        for line in SIGN_ON_WORDS.splitlines():
            serve.tell(line)
        # An empty line ends the record, and there is one `ok` for both.
        expect(serve.asked(""), "", "send")
        side.take(record(SIGN_ON))
        side.send(record("0635F1"))
        expect(serve.asked("await"), "answer 6 53 F1\n", "await")
        # Any other line ends it too, and is carried out.
        serve.tell("send 1")
        expect(serve.asked("cancel"), "", "send")
        side.take(record(opcode=1))
        expect(serve.line(), "send refused NoReadToCancel\n", "cancel")
        expect(serve.line(), "ok\n", "cancel")
        # So does a comment, behind which a line with two blanks belongs to nothing.
        serve.tell("send 3")
        serve.tell("  CLEAR-UNIT")
        expect(serve.asked("# none"), "", "send")
        side.take(record("0440"))
        told = "bad line: it can't stand there: `CLEAR-UNIT`\n"
        expect(serve.asked("  CLEAR-UNIT"), told, "a line that belongs to nothing")
        side.close()
        serve.end(1, "")

    def test_the_largest_record(self):
        """It is sent in hex and in words, comes to a host that takes any record, and to a station."""
        words = "  WRITE 00 00\n" + "  SBA 1 1\n".join(["  TEXT %s\n" % ("A" * 1920)] * 34 + ["  TEXT %s\n" % ("A" * 139)])
        for kind, ready in KINDS:
            # A script that is longer than a pipe.
            text = "await\nsend 2 %s\nsend 2\n%s\n" % (LARGEST.hex(), words) + "await\n" * len(kind)
            serve, side = served(None, *kind, script=text)
            side.take(record(LARGEST, 2) * 2)
            if kind:
                side.send(record(LARGEST))
                ready += "record flags 0000 opcode 3 %s\n" % LARGEST.hex().upper()
            side.close()
            serve.end(0, ready)
        for kind in [], ["--strict"]:
            at_host(sending(LARGEST, opcode=2), ["--wait", "60", *kind], "await record\nshow 1 1 1\n", 0, "A\n")

    def test_a_record_that_is_too_big(self):
        for kind, ready in KINDS:
            serve, side = served(None, *kind, "--go-on", script="await\nsend 2 %s40\nsend 2\n" % LARGEST.hex())
            side.take(record(opcode=2))
            side.close()
            serve.end(1, ready + "send refused TooBig (line 2)\n")

    def test_bad_lines_of_sends_in_words(self):
        rows = [("  CLEAR-UNIT", 1), ("send 3\n  WRITE", 2), ("send 3\n  CLEAR-UNIT\n  WRITE 00 08\n  SBA 25 1", 4),
                ("send 3 0440\n  CLEAR-UNIT", 2), ("send 3\n  CLEAR-UNIT\n\n  WRITE 00 08", 4),
                ("send 3\n  WRITE 00 08\n  TEXT \u20ac", 3), ("send 3\n CLEAR-UNIT", 2), ("send x\n  CLEAR-UNIT", 1)]
        for text, number in rows:
            lines, wanted = "await\n%s\nawait\n" % text, "script line %d\n" % (number + 1)
            Run(["serve", "--wait", "1", "127.0.0.1:0"], script=lines).end(2, "", wanted)
            serve, side = served(lines)
            serve.end(2, None, wanted)
            side.close()
