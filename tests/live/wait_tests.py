"""The time of a wait, of each by itself: silence, and bytes that trickle."""
import contextlib
import threading
import time
import unittest

from live.lines import READY, at_host, served, settled_connect, settled_serve, trickling
from live.program import Run, timed
from live.screens import PRICE, SIGN_ON, SIGN_ON_SCREEN
from peers import Host, Side, expect, negotiate_as_host
from records import record


# A write that unlocks nothing and shows a cell.
DOT = record("04110000" "1101014B", 2)


class TestWait(unittest.TestCase):
    def test_silence(self):
        began = time.monotonic()
        at_host(Side.take_end, ["--ready", "--wait", "1"], "await\nshow\n", 1,
                "late\nok\nscreen\ncursor 1 1, locked, message off, blink off, fields 0\nok\n")
        timed(0.9, 30, began, "the wait")

    def test_bytes_that_trickle_for_ever(self):
        began = time.monotonic()
        play = trickling(b"\xff\xf1", 0.05, threading.Event())
        at_host(play, ["--wait", "1"], "await\nawait\n", 1, "late\nlate\n")
        timed(1.9, 30, began, "the waits")

    def test_a_session_goes_on_behind_a_late_wait(self):
        go = threading.Event()

        def play(side):
            negotiate_as_host(side)
            whole = record(SIGN_ON)
            side.send(whole[:40])
            go.wait(60)
            side.send(whole[40:])
            side.take_end()
        host = Host(play)
        connect = Run(["connect", "--ready", "--wait", "5", "127.0.0.1:%d" % host.port], "", keep_open=True)
        expect(connect.asked("await"), "late\n", "await")
        go.set()
        expect(connect.asked("await"), "", "await")
        expect(connect.asked("show"), SIGN_ON_SCREEN, "show")
        connect.end(1, "")
        host.end()

    def test_a_silent_station(self):
        serve, side = served("await\nawait\n", "--ready", wait=1, is_ready=False)
        serve.end(1, "late\nok\nlate\nok\n")
        side.close()
        # The wait behind a script is no line.
        serve, side = served("await\n", wait=3)
        serve.end(0, READY)
        side.close()

    def test_a_station_that_trickles(self):
        serve, side = served("await\nawait\n", wait=2)
        began = time.monotonic()
        with contextlib.suppress(OSError):
            while time.monotonic() - began < 30:
                side.send(b"\xff\xf1")
                time.sleep(0.05)
        timed(3.9, 30, began, "the waits")
        serve.end(1, READY + "late\n")
        side.close()

    def test_a_wait_of_serve_begins_with_its_line(self):
        serve, side = settled_serve(5)
        time.sleep(5.2)
        # A write has its own time too.
        expect(serve.asked("send 3 " + SIGN_ON), "", "send")
        side.take(record(SIGN_ON))
        time.sleep(5.2)
        serve.tell("await")
        time.sleep(0.4)
        side.send(record("0635F1"))
        expect(serve.answered(), "answer 6 53 F1\n", "await")
        side.close()
        serve.end(0, "")

    def test_a_wait_of_connect_begins_with_its_line(self):
        go = threading.Event()

        def play(side):
            side.take(record("0635F1"))
            go.wait(60)
            time.sleep(0.4)
            side.send(record(PRICE))
            side.take_end()
        connect, host = settled_connect(play, 5)
        time.sleep(5.2)
        expect(connect.asked("key Enter"), "", "key")
        time.sleep(5.2)
        connect.tell("await record")
        go.set()
        expect(connect.line(), "ok\n", "await record")
        connect.end(0, "")
        host.end()

    def test_records_that_trickle(self):
        # Each comes in the time of a wait by itself, and together they take longer.
        def play(side):
            negotiate_as_host(side)
            for _ in range(5):
                time.sleep(2)
                side.send(DOT)
            side.send(record(SIGN_ON))
            side.take_end()
        at_host(play, ["--wait", "8"], "await record\n" * 5 + "await\nshow\n", 0, SIGN_ON_SCREEN)

        # A wait for what no record brings isn't begun anew by each.
        over = threading.Event()
        for line in "await", "await text Sign On":
            over.clear()
            host = Host(trickling(DOT, 0.3, over))
            connect = Run(["connect", "--wait", "1", "127.0.0.1:%d" % host.port], "", keep_open=True)
            began = time.monotonic()
            connect.tell(line)
            expect(connect.line(), "late\n", line)
            timed(0.9, 30, began, line)
            over.set()
            connect.end(1, "")
            host.end()

    def test_answers_that_trickle(self):
        serve, side = settled_serve(7)
        for _ in range(4):
            serve.tell("await")
            time.sleep(2)
            side.send(record(opcode=0, flags=0x4000))
            expect(serve.answered(), "attention\n", "await")
        side.close()
        serve.end(0, "")

    def test_one_byte_late_in_a_wait(self):
        def play(side):
            negotiate_as_host(side)
            time.sleep(4)
            side.send(record(SIGN_ON)[:1])
            side.take_end()
        for line in "await", "await record":
            host = Host(play)
            connect = Run(["connect", "--wait", "6", "127.0.0.1:%d" % host.port], "", keep_open=True)
            began = time.monotonic()
            connect.tell(line)
            expect(connect.line(), "late\n", line)
            timed(5.9, 9.8, began, line)
            connect.end(1, "")
            host.end()
        serve, side = settled_serve(6)
        began = time.monotonic()
        serve.tell("await")
        time.sleep(4)
        side.send(record(opcode=0, flags=0x4000)[:1])
        expect(serve.line(), "late\n", "await")
        timed(5.9, 9.8, began, "await")
        side.close()
        serve.end(1, None)
