"""`connect` at a host of Python."""
import threading
import unittest

from live.lines import at_host, sending
from live.screens import INQUIRY, PAST_END, PRICE, PRICE_SCREEN, SIGN_ON, SIGN_ON_FIELDS, SIGN_ON_SCREEN
from peers import negotiate_as_host
from records import ASKED, negotiation, record
from refusals import told_refusal


def inquiry_as_host(side, pieces=0):
    negotiate_as_host(side, pieces)
    side.send(record(SIGN_ON), pieces)
    side.take(record("073BF1" "110635D8E4E2C5D9" "110735E2C5C3D9C5E3"))
    side.send(record(INQUIRY), pieces)
    side.take(record("031835" "110314F4F7F1F1"))
    side.send(record(PRICE), pieces)
    side.take(record(opcode=0, flags=0x4000))
    side.send(record(opcode=10), pieces)
    side.take(record(opcode=10))
    side.send(record(PRICE), pieces)
    side.take(record("031433"))
    side.take_end()


INQUIRY_SCRIPT = """# three screens deep
await text Sign On
await
fields
type QUSER
key FieldExit
type SECRET
key Enter
await text Item inquiry
type 4711
key F5
await text 12.50
show
key Attention
await record
type 5
await
key F3
"""

INQUIRY_PRINTED = SIGN_ON_FIELDS + PRICE_SCREEN + "key refused Locked 5\n"
# The same from a file, of which it is line 16.
INQUIRY_NUMBERED = SIGN_ON_FIELDS + PRICE_SCREEN + "key refused Locked 5 (line 16)\n"


class TestStation(unittest.TestCase):
    def test_a_script_at_a_host(self):
        at_host(inquiry_as_host, ["--wait", "60", "--go-on"], None, 1, INQUIRY_NUMBERED, script=INQUIRY_SCRIPT)

    def test_lines_at_a_host(self):
        at_host(inquiry_as_host, ["--wait", "60"], INQUIRY_SCRIPT, 1, INQUIRY_PRINTED)

    def test_keys_by_the_screen(self):
        """Lines whose keys hang on the screen: to a cell, to a field, New Line and Erase EOF, up to one that is refused."""
        play = sending(SIGN_ON, answer=record("0737F1" "110635D8E4E2C5D9" "110735C1C2"))
        script = ("await\nfield 2 SECRET\nfield 1 QUSER\nnewline\ntype ABC\ncursor 7 55\nerase\nkey Enter\n"
                  "field 1 X\nfield 3 X\n")
        at_host(play, ["--wait", "60"], script, 1, "key refused Locked\nfield refused NoSuchField\n")

    def test_what_a_station_tells(self):
        """A station's state in one line, the text of some cells, a row's bytes with its attributes, and a note."""
        script = "await\nstatus\nfield 1 QUSER\nshow 6 17 45\ncells 24\nnote typed\nstatus\n"
        taken = len(ASKED + record(SIGN_ON))
        at_host(sending(SIGN_ON), ["--wait", "60"], script, 0, (
            "status unlocked ready 6 53 field 1 records 1 bytes %d\n"
            "User  . . . . . . . . . . . . .     QUSER\n"
            "cells 24 %s %s\ntyped\n"
            "status unlocked ready 6 58 field 1 records 1 bytes %d\n") % (taken, 80 * "00", 80 * "20", taken))

    def test_a_screen_in_color(self):
        # A white part, and behind it a part whose attribute is that of the green before the first. The text is awaited as
        # it stands without sequences.
        script = "await text HI  A\nshow\nfields\n"
        shown = "screen\n 1 %s\ncursor 1 1, unlocked, message off, blink off, fields 0\n"
        play = sending("04400411000811010122C8C92040C1")
        colored = "\x1b[0;32m \x1b[0;37;1mHI\x1b[0;32m  A\x1b[0m"
        at_host(play, ["--wait", "60", "--color"], script, 0, shown % colored)
        at_host(play, ["--wait", "60"], script, 0, shown % " HI  A")

    def test_a_host_that_sends_single_bytes(self):
        at_host(lambda side: inquiry_as_host(side, 1), ["--wait", "60"], INQUIRY_SCRIPT, 1, INQUIRY_PRINTED)

    def test_names_and_addresses(self):
        for at in "127.0.0.1", "localhost", "[::1]":
            try:
                at_host(sending(SIGN_ON), ["--wait", "60"], "await\n", 0, "", at=at)
            except OSError:
                print("left out: a host at %s, since there is no such address" % at)

    def test_empty_lines_print_nothing(self):
        text = "\n# a comment\n\r\nawait\r\nkey Tab\n"
        at_host(sending(SIGN_ON), ["--ready", "--wait", "60"], text, 0, "ok\nok\n")

    def test_a_refused_record(self):
        """It ends the session of a station of the profile."""
        place = len(ASKED + record(SIGN_ON) + record(PAST_END)) - 1
        at_host(sending(SIGN_ON, PAST_END), ["--strict", "--ready", "--wait", "60"], "await\nawait record\nshow\n", 1,
                "ok\n" + told_refusal("station", place, "53 FieldPastEnd"))

    def test_garbage_from_a_host(self):
        at_host(lambda side: side.send(b"HTTP/1.1 400 Bad Request\r\n"), ["--wait", "60"], "await\nshow\n", 1,
                told_refusal("station", 2, "11 BadType"), host_ends=False)

    def test_a_query_is_refused(self):
        printed = told_refusal("station", 32, "30 StructuredField")
        at_host(sending("04F30005D97000"), ["--strict", "--wait", "60"], "await\n", 1, printed)

    def test_a_host_that_closes_inside_a_record(self):
        def play(side):
            negotiate_as_host(side)
            side.send(record(SIGN_ON)[:30])
        at_host(play, ["--ready", "--wait", "60"], "await\nawait\nshow\n", 1,
                "ended\nok\nended\nok\nscreen\ncursor 1 1, locked, message off, blink off, fields 0\nended\nok\n")

    def test_a_flood_of_sends(self):
        count = 20000

        def play(side):
            (opening, will), (send, is_name), *options = negotiation()
            side.send(opening)
            side.take(will)
            taker = threading.Thread(target=lambda: side.take(is_name * count))
            taker.start()
            side.send(send * count)
            taker.join()
            for asked, answer in options:
                side.send(asked)
                side.take(answer)
            side.send(record(SIGN_ON))
            side.take_end()
        at_host(play, ["--wait", "60"], "await\nshow\n", 0, SIGN_ON_SCREEN)
