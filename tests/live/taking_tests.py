"""Lines of `connect` that take what has come: those that show something, and the wait for quiet."""
import threading
import time
import unittest

from live.lines import at_host, sending, settled_connect, trickling
from live.program import Run, timed
from live.screens import PRICE, SIGN_ON, SIGN_ON_FIELDS, SIGN_ON_SCREEN
from peers import Host, Side, expect
from records import ASKED, record
from refusals import told_refusal

# A write that unlocks nothing and shows a cell.
DOT = record("04110000" "1101014B", 2)

# The sign-on behind the price's write.
PRICED_SCREEN = SIGN_ON_SCREEN.replace(" 6  ", " 5  Price  . . . .   12.50\n 6  ")

# Lines that show something, and what each prints behind the sign-on and the price.
SHOWING = [
    ("show", PRICED_SCREEN), ("show 5 2 80", "Price  . . . .   12.50\n"), ("fields", SIGN_ON_FIELDS),
    ("cells 5", "cells 5 00" + "D79989838540404B404B404B404B404040F1F24BF5F0" + 57 * "00" + " " + 80 * "20" + "\n"),
]


def told_connect(wait, sent, answer=b"", closes=False):
    """A `connect` at a host that has sent something behind the sign-on, which is answered so, and then maybe closed."""
    go, done = threading.Event(), threading.Event()

    def play(side):
        go.wait(60)
        side.send(sent)
        if closes:
            side.close()
        done.set()
        side.take(answer)
        if not closes:
            side.take_end()
    connect, host = settled_connect(play, wait)
    go.set()
    done.wait(60)
    # What was sent is there by then.
    time.sleep(0.1)
    return connect, host


class TestTaking(unittest.TestCase):
    def test_lines_that_show_take_what_has_come(self):
        for line, printed in SHOWING:
            connect, host = told_connect(2, record(PRICE))
            expect(connect.asked(line), printed, line)
            # The record counts for the next wait for one, and only for that.
            expect(connect.asked("await record"), "", "await record")
            expect(connect.asked("await record"), "late\n", "await record")
            connect.end(1, "")
            host.end()

    def test_a_status_takes_what_has_come(self):
        connect, host = told_connect(2, record(PRICE) * 2)
        status = connect.asked("status").split()
        expect(status[:9], "status unlocked ready 6 53 field 1 records 3".split(), "status")
        expect(connect.asked("await record"), "", "await record")
        # Of two that were taken none is left behind it.
        expect(connect.asked("await record"), "late\n", "await record")
        connect.end(1, "")
        host.end()

    def test_a_line_between_takes_no_record_from_a_wait(self):
        """What a line shows counts for a wait for a record behind it, but not behind a key or another wait."""
        for between, printed in [("", ""), ("note A", ""), ("show 1 1 1", ""), ("# none", ""), ("key Tab", "late\n"),
                                 ("cursor 6 54", "late\n"), ("await", "late\n"), ("await quiet 10", "late\n")]:
            connect, host = told_connect(2, record(PRICE))
            connect.asked("show")
            if between in ("", "# none"):
                connect.tell(between)
            else:
                connect.asked(between)
            expect(connect.asked("await record"), printed, "await record behind %r" % between)
            connect.end(1 if printed else 0, "")
            host.end()

    def test_a_note_takes_nothing(self):
        connect, host = told_connect(2, record(PRICE))
        expect(connect.asked("note A"), "A\n", "note")
        expect(connect.asked("key Tab"), "", "key")
        expect(connect.asked("await record"), "", "await record")
        connect.end(0, "")
        host.end()

    def test_half_a_record_is_not_taken(self):
        whole = record(PRICE)
        go = threading.Event()

        def play(side):
            side.send(whole[:20])
            go.wait(60)
            side.send(whole[20:])
            side.take_end()
        connect, host = settled_connect(play, 60)
        time.sleep(0.2)
        expect(connect.asked("show"), SIGN_ON_SCREEN, "show")
        go.set()
        expect(connect.asked("await record"), "", "await record")
        expect(connect.asked("show"), PRICED_SCREEN, "show")
        connect.end(0, "")
        host.end()

    def test_a_host_that_never_pauses(self):
        """A line that shows something takes what has come when it begins, and not all that a host goes on to send."""
        over = threading.Event()

        def play(side):
            while not over.is_set():
                side.send(DOT * 100)
            side.take_end()
        connect, host = settled_connect(play, 600)
        for line in "status", "show 6 2 4", "fields", "cells 5":
            began = time.monotonic()
            connect.asked(line)
            timed(0, 60, began, line)
        over.set()
        connect.end(0, "")
        host.end()

    def test_a_host_that_has_closed(self):
        """The text first, and behind it that the host has closed, of each such line."""
        for line, printed in SHOWING:
            connect, host = told_connect(60, record(PRICE), closes=True)
            expect(connect.asked(line), printed + "ended\n", line)
            expect(connect.asked("show"), PRICED_SCREEN + "ended\n", "show")
            expect(connect.asked("note A"), "A\n", "note")
            connect.end(1, "")
            host.end()

    def test_a_refused_byte_behind_what_is_shown(self):
        place = len(ASKED + record(SIGN_ON) + record(PRICE)) + 1
        for line, printed in SHOWING:
            connect, host = told_connect(60, record(PRICE) + bytes.fromhex("FFF0"))
            connect.tell(line + "\nshow")  # At once: the first may end it.
            connect.end(1, printed + told_refusal("station", place, "2 StraySe"))
            host.end()

    def test_a_wait_for_quiet(self):
        """It takes all that comes until nothing has come for so long, also where nothing comes at all."""
        for count, shown in [(0, SIGN_ON_SCREEN), (4, None)]:
            def play(side):
                for _ in range(count):
                    time.sleep(0.2)
                    side.send(DOT)
                side.take_end()
            connect, host = settled_connect(play, 60)
            began = time.monotonic()
            expect(connect.asked("await quiet 2000"), "", "await quiet")
            timed(1.95 + count * 0.2, 30, began, "await quiet")
            self.assertIn(" records %d " % (count + 1), connect.asked("status"))
            if shown is not None:
                expect(connect.asked("show"), shown, "show")
            connect.end(0, "")
            host.end()

    def test_a_wait_for_quiet_that_never_comes(self):
        over = threading.Event()
        # Of records, and of single bytes.
        for time_of_quiet in "2500", "3600000":
            over.clear()
            host = Host(trickling(DOT, 0.1, over))
            connect = Run(["connect", "--ready", "--wait", "3", "127.0.0.1:%d" % host.port], "", keep_open=True)
            began = time.monotonic()
            expect(connect.asked("await quiet " + time_of_quiet), "late\n", "await quiet")
            timed(2.9, 30, began, "await quiet")
            over.set()
            connect.end(1, "")
            host.end()

    def test_a_wait_for_quiet_has_the_time_of_a_wait(self):
        connect, host = settled_connect(Side.take_end, 2)
        began = time.monotonic()
        expect(connect.asked("await quiet 30000"), "late\n", "await quiet")
        timed(1.9, 30, began, "await quiet")
        connect.end(1, "")
        host.end()

    def test_a_wait_for_quiet_ends_otherwise(self):
        text = "await quiet 20000\nnote A\n"
        at_host(sending(SIGN_ON, closes=True), ["--wait", "60"], text, 1, "ended\nA\n")
        printed = told_refusal("station", len(ASKED + record(SIGN_ON)) + 1, "2 StraySe")
        at_host(sending(SIGN_ON, then=bytes.fromhex("FFF0")), ["--wait", "60"], text, 1, printed)
