#!/usr/bin/env python3
"""Looks at what `t5250 connect` and `serve` do where something goes wrong at a connection: an address that doesn't
answer, a line that can't be read, a peer that reads nothing, a second station.

Build the program first (`cd crates/t5250 && rt run -- check < stdin`), then call `python3 tests/run_faults.py` from
anywhere, or name one with a slash; `-v` tells the time of each test. What is left out for want of a C compiler, of IPv6
or of an address with a zone is told. The last line tells how many passed and how many failed, and the status is 1 where
one failed.
"""
import contextlib
import errno
import os
import shutil
import socket
import subprocess
import threading
import time
import unittest

from counted import PROGRAM, TOP, Test, main
from live.lines import KINDS, READY, at_host, served, station_at
from live.program import Run, timed
from peers import Host, Side, expect, negotiate_as_host, swallowed
from records import record

CLEAR = record("0440")
# A field to be typed into, and one whose cells are hidden; then a Read MDT Fields.
FORM = "0440" "04110008" "110502" "1D400020000A" "110602" "1D400027000A" "04520000"


def linked():
    """An address of this machine that holds for one interface only, and that interface's name and number."""
    with contextlib.suppress(OSError), open("/proc/net/if_inet6", encoding="ascii") as table:
        for line in table:
            digits, number, _, scope, _, name = line.split()
            if scope == "20":
                return socket.inet_ntop(socket.AF_INET6, bytes.fromhex(digits)), name, int(number, 16)
    raise unittest.SkipTest("no interface has an address with a zone")


def at_ipv6(play, port=0):
    try:
        return Host(play, "::1", port)
    except OSError:
        raise unittest.SkipTest("there is no IPv6")


class TestConnections(Test):
    def connect_to_many(self, addresses, port, seconds, low, high, status=0, error=""):
        """Runs `connect` at a name that has these addresses, by a library that is loaded before the program's."""
        compiler = os.environ.get("CC", "cc")
        if shutil.which(compiler) is None:
            self.skipTest("there is no C compiler")
        library = os.path.join(self.folder, "many_addresses.so")
        source = TOP / "tests/many_addresses.c"
        subprocess.run([compiler, "-shared", "-fPIC", "-o", library, source, "-ldl"], check=True)
        words = ["connect", "--wait", str(seconds), "many.test:%d" % port]
        run = Run(words, "", LD_PRELOAD=library, ADDRESSES=",".join(addresses))
        run.end(status, "", error)
        timed(low, high, run.began, "it")

    def test_addresses_share_the_time(self):
        # Two that don't answer have a third and then a half of what is left, so that the last one has its part.
        with swallowed("127.0.0.2", "127.0.0.3") as port:
            host = Host(Side.take_end, "127.0.0.4", port)
            self.connect_to_many(["127.0.0.2", "127.0.0.3", "127.0.0.4"], port, 6, 3.8, 5.9)
            host.end()
            # Where none answers it is over when the wait is.
            self.connect_to_many(["127.0.0.2", "127.0.0.3"], port, 1, 0.9, 30, 2,
                                 "no connection to many.test:%d: late\n" % port)

    def test_families_take_turns(self):
        # Behind the first address of IPv4 that of IPv6 is tried, before the others of IPv4.
        with swallowed("127.0.0.2", "127.0.0.3", "127.0.0.4") as port:
            host = at_ipv6(Side.take_end, port)
            self.connect_to_many(["127.0.0.2", "127.0.0.3", "127.0.0.4", "::1"], port, 8, 1.9, 3.9)
            host.end()

    def test_a_write_in_a_wait_has_the_time_of_the_wait(self):
        # Each of these asks for a picture of the screen, of which the line is full soon.
        asks = record("0402", 4) * 2000
        over = threading.Event()

        def play(side):
            negotiate_as_host(side)
            time.sleep(3.5)
            side.stream.settimeout(1)
            with contextlib.suppress(OSError):
                side.send(asks)
            over.wait(60)
        host = Host(play, narrow=True)
        words = ["connect", "--wait", "6", "127.0.0.1:%d" % host.port]
        run = Run(words, "await text none\n", keep_open=True)
        run.end(2, "", "cannot write\n")
        timed(5.9, 9, run.began, "the wait")
        over.set()
        host.end()

    def test_a_second_station_is_refused(self):
        serve, side = served("await\n", wait=60, keep_open=True)
        with socket.socket() as second:
            second.settimeout(60)
            expect(second.connect_ex(side.stream.getpeername()[:2]), errno.ECONNREFUSED, "a second station")
        side.close()
        serve.end(0, READY)

    def test_an_address_with_a_zone(self):
        address, name, number = linked()
        for zone in name, str(number):
            serve = Run(["serve", "--wait", "60", "[%s%%%s]:0" % (address, zone)])
            line = serve.line()
            begin = "listening [%s%%%d]:" % (address, number)
            expect(line[:len(begin)], begin, "where it listens")
            port = int(line[len(begin):])
            Run(["connect", "--wait", "1", "[%s%%%s]:%d" % (address, name, port)], "await\n").end(1, "late\n")
            serve.end(0, "")
        # An interface that isn't there.
        nowhere = "[%s%%none]:23" % address
        Run(["connect", nowhere]).end(2, "", f"no connection to {nowhere}: unknown name\n")
        Run(["serve", "[%s%%none]:0" % address]).end(2, "", "no connection: unknown name\n")

    def test_a_zone_by_its_number(self):
        host = at_ipv6(Side.take_end)
        Run(["connect", "--wait", "60", "[::1%%1]:%d" % host.port]).end(0, "")
        host.end()


class TestLines(unittest.TestCase):
    """Lines of standard input."""

    def test_a_return_more_in_an_element_s_line(self):
        # One CR before the LF belongs to the line's end; a second one is part of the line, which is bad then.
        for ending in "", "\r", "\r\r":
            text = "await\nsend 3\r\n  CLEAR-UNIT%s\n\n" % ending
            serve, side = served(text, wait=60)
            if ending == "\r\r":
                side.take_end()
                side.close()
                wanted = "script line 3: unknown word `CLEAR-UNIT\\0D`, did you mean `CLEAR-UNIT`?\n"
                serve.end(2, READY, wanted)
                Run(["serve", "127.0.0.1:0"], script=text).end(2, "", wanted)
            else:
                side.take(CLEAR)
                side.close()
                serve.end(0, READY)

    def test_a_line_that_is_not_utf_8_behind_a_good_block(self):
        for words, ready in KINDS:
            serve, side = served(b"await\nsend 3\n  CLEAR-UNIT\n\xff\n", *words, wait=60, keep_open=True)
            side.take(CLEAR)
            serve.end(2, ready, "script line 4: not UTF-8\n")
            side.close()
        # Within the block it is the block's, and nothing is sent.
        serve, side = served(b"await\nsend 3\n  CLEAR-UNIT\n  TEXT \xff\ncancel\n", wait=60, keep_open=True)
        side.take_end()
        serve.end(2, READY, "script line 4: not UTF-8\n")
        side.close()

    def test_the_end_in_order_behind_a_bad_line(self):
        def go_on(side):
            """What comes then is taken for a moment, so that nobody is told of a fault."""
            side.take_end()
            until = time.monotonic() + 0.3
            while time.monotonic() < until:
                side.send(b"\xff\xf1" * 100)
                time.sleep(0.01)

        def play(side):
            negotiate_as_host(side)
            side.send(record("0440", 2) * 50)
            go_on(side)
        fault = "script line 2: unknown word `nonsense`\n"
        at_host(play, ["--wait", "60"], "await record\nnonsense\n", 2, "", fault, keep_open=True)
        for words, ready in KINDS:
            serve, side = served("await\nnonsense\n", *words, wait=60, keep_open=True)
            go_on(side)
            side.close()
            serve.end(2, ready, fault)


class TestRecordings(Test):
    def setUp(self):
        super().setUp()
        self.name = os.path.join(self.folder, "session.rec")

    def read_recording(self, name):
        """What each end sent by a recording, whose lines are looked at."""
        expect(os.stat(name).st_mode & 0o777, 0o600, "who can read it")
        with open(name, encoding="ascii") as file:
            lines = file.read().splitlines()
        sent, times = {"host": b"", "station": b""}, []
        for line in lines:
            self.assertRegex(line, r"\A[0-9]+ (host|station) ([0-9A-F]{2})+\Z")
            milliseconds, sender, digits = line.split()
            times.append(int(milliseconds))
            sent[sender] += bytes.fromhex(digits)
        expect(times, sorted(times), "its times")
        return sent["host"], sent["station"], times

    def test_a_recording_of_connect(self):
        sides = []

        def play(side):
            sides.append(side)
            negotiate_as_host(side)
            time.sleep(2)
            side.send(record(FORM))
            while side.read():
                pass
        words = ["--wait", "60", "--record", self.name]
        at_host(play, words, "await\nfield 2 SECRET\nkey Enter\n", 0, "", f"recording: {self.name}\n", keep_open=True)
        by_host, by_station, times = self.read_recording(self.name)
        expect((by_host, by_station), (sides[0].sent, sides[0].heard), "what each sent")
        # Its name in code page 037.
        self.assertIn("SECRET".encode("cp037"), by_station)
        self.assertTrue(times[0] < 2000 <= times[-1] < 60000, times)
        # A file that is there stays as it is.
        at_host(negotiate_as_host, words, "await\n", 1, "ended\n", f"recording: {self.name}-1\n")
        self.assertTrue(self.read_recording(self.name + "-1")[0], "a second recording")
        expect(self.read_recording(self.name), (by_host, by_station, times), "the first recording")

    def test_a_recording_of_serve(self):
        for number, (words, told) in enumerate(KINDS):
            name = self.name + str(number)
            serve, side = served("await\nsend 2 0440\n", "--record", name, *words, wait=60)
            side.take(record("0440", 2))
            side.stream.shutdown(socket.SHUT_WR)
            serve.end(0, told, f"recording: {name}\n")
            expect(self.read_recording(name)[:2], (side.heard, side.sent), "what each sent")
            side.close()

    def test_a_recording_of_nothing(self):
        # No file is made where no byte came: the connection failed, or the host closed at once.
        with socket.create_server(("127.0.0.1", 0)) as taken:
            port = taken.getsockname()[1]
        Run(["connect", "--record", self.name, f"127.0.0.1:{port}"]).end(2, "", None)
        at_host(Side.take_end, ["--record", self.name], "", 0, "")
        self.assertFalse(os.path.exists(self.name))

    def test_recordings_that_can_not_be_written(self):
        # That the folder isn't there is told before anything is connected or listened at.
        for name in "/nowhere/at/all", "":
            for words in ["connect", "--record", name, "127.0.0.1:1"], ["serve", "--record", name, "127.0.0.1:0"]:
                Run(words).end(2, "", f"cannot write: {name}\n")
        if not os.path.exists("/dev/full"):
            self.skipTest("/dev/full isn't there")
        words = ["--wait", "60", "--record", "/dev/full"]
        told = "recording: /dev/full\ncannot write: /dev/full\n"
        at_host(negotiate_as_host, words, "await\n", 2, "", told, keep_open=True, host_ends=False)
        serve = Run(["serve", *words, "127.0.0.1:0"])
        side = station_at(serve)
        serve.end(2, "", told)
        side.close()

    def test_help_tells_what_a_recording_holds(self):
        for command in "connect", "serve":
            told = subprocess.run([PROGRAM, "help", command], capture_output=True, text=True, check=True).stdout
            self.assertRegex(told, "(?s)--record.*hidden")


main(needs_program=True)
