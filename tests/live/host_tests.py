"""`serve` at a station of Python."""
import socket
import unittest

from live.lines import READY, served
from live.screens import INQUIRY, PAST_END, PRICE, SIGN_ON
from records import SEND_NAME, is_name, record
from refusals import told_refusal

# The sign-on and a price, as the host keeps them: what was typed isn't there, and the answer has locked the keyboard.
SERVED_SCREEN = """screen
 1                                     Sign On
 5  Price  . . . .   12.50
 6                 User  . . . . . . . . . . . . .
 7                 Password  . . . . . . . . . . .
cursor 6 53, locked, message off, blink off, fields 2
"""
SERVED = "await\nsend 3 %s\nawait\nsend 3 %s\nawait\nsend 3 %s\nawait\ncancel\nawait\nsend 1\nawait\n"


class TestHost(unittest.TestCase):
    def test_a_station_at_a_served_script(self):
        for pieces in (0, 1):
            serve, side = served(SERVED % (SIGN_ON, INQUIRY, PRICE), "--ready", pieces=pieces,
                                 at="localhost:0" if pieces else "127.0.0.1:0")
            side.take(record(SIGN_ON))
            side.send(record("073BF1" "110635D8E4E2C5D9" "110735E2C5C3D9C5E3"), pieces)
            side.take(record(INQUIRY))
            side.send(record("031835" "110314F4F7F1F1"), pieces)
            side.take(record(PRICE))
            side.send(record(opcode=0, flags=0x4000), pieces)
            side.take(record(opcode=10))
            side.send(record(opcode=10), pieces)
            side.take(record(opcode=1))
            side.send(record(opcode=0, flags=0x0400), pieces)
            side.close()
            serve.end(0, READY + "ok\nok\nanswer 7 59 F1\n  field 6 53 D8E4E2C5D9 QUSER\n"
                      "  field 7 53 E2C5C3D9C5E3 SECRET\nok\nok\nanswer 3 24 35\n"
                      "  field 3 20 F4F7F1F1 4711\nok\nok\nattention\nok\nok\ncancelled\nok\nok\n"
                      "system request\nok\n")

    def test_waits_for_an_answer(self):
        """What comes before the answer that is awaited is printed too; the screen that the host keeps is the sign-on's."""
        serve, side = served("await\nsend 3 %s\nawait answer\nsend 3 %s\nawait F5\nshow\n" % (SIGN_ON, PRICE))
        side.take(record(SIGN_ON))
        side.send(record(opcode=0, flags=0x4000) + record("0735F1" "110635D8"))
        side.take(record(PRICE))
        side.send(record(opcode=0, flags=0x0400) + record("010135"))
        side.close()
        serve.end(0, READY + "attention\nanswer 7 53 F1\n  field 6 53 D8 Q\nsystem request\nanswer 1 1 35\n"
                  + SERVED_SCREEN)

    def test_a_wait_for_another_key(self):
        """With --any the answer of another key goes by, and so does one that is too short."""
        serve, side = served("await\nawait F3\n", "--any")
        side.send(record("0101F1") + record("33") + record("010133"))
        side.close()
        serve.end(0, "terminal IBM-3179-2\nrecord flags 0000 opcode 3 0101F1\nrecord flags 0000 opcode 3 33\n"
                  "record flags 0000 opcode 3 010133\n")

    def test_sends_that_are_refused(self):
        serve, side = served("send 3\ncancel\nawait\ncancel\nsend 3 %s\n" % PAST_END)
        side.close()
        serve.end(1, "send refused NotAllowed\nsend refused NotAllowed\nhost ready IBM-3179-2\n"
                  "send refused NoReadToCancel\nsend refused Screen 53\n")

    def test_an_answer_that_nobody_asked(self):
        serve, side = served("await\nawait\nawait\n")
        side.send(record("0634F1"))
        serve.end(1, READY + told_refusal("host", len(side.sent) - 1, "62 UnaskedAnswer"))
        side.close()

    def test_an_unknown_terminal(self):
        serve, side = served("await\nawait\n", is_ready=False)
        side.send(bytes.fromhex("FFFB18"))
        side.take(SEND_NAME)
        side.send(is_name(b"XTERM"))
        serve.end(1, told_refusal("host", 13, "61 UnsupportedTerminal"))
        side.close()

    def test_a_station_that_closes_inside_an_answer(self):
        serve, side = served("await\nsend 3 %s\nawait\nawait\n" % SIGN_ON, wait=60)
        side.take(record(SIGN_ON))
        side.send(record("0634F1")[:9])
        side.stream.shutdown(socket.SHUT_WR)
        serve.end(1, READY + "ended\nended\n")
        side.close()
