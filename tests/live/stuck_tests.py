"""Connections and outputs that take no more, and faults of a connection."""
import contextlib
import os
import socket
import subprocess
import threading
import time
import unittest

from live.lines import READY, at_host, reset, sending, served, settled_connect, settled_serve, station_at
from live.program import Run
from live.screens import SIGN_ON
from peers import Host, expect, negotiate_as_station
from records import IAC, OPENING, SEND_NAME


def told_reset(address):
    """What is told where the other side, at this address, has reset the connection."""
    return "connection reset by %s:%d\n" % tuple(address)


class TestStuck(unittest.TestCase):
    def test_a_host_that_never_reads(self):
        def play(side):
            # An answer to each SEND fills the line.
            side.send(OPENING)
            flood = SEND_NAME * 2000
            side.stream.settimeout(90)
            with contextlib.suppress(OSError):
                while True:
                    side.stream.sendall(flood)
        # The line takes many answers before it is full.
        host = Host(play, narrow=True)
        run = Run(["connect", "--wait", "1", "127.0.0.1:%d" % host.port], "await\n" * 30)
        run.end(2, None, "cannot write\n", 120)

    def test_a_station_that_never_reads(self):
        text = "await\nsend 2 0411000011010140\n" + "send 2 04110000%s\n" % ("C1" * 1900) * 4000
        serve = Run(["serve", "--wait", "3", "127.0.0.1:0"], script=text)
        side = station_at(serve, 60)
        side.stream.setsockopt(socket.SOL_SOCKET, socket.SO_RCVBUF, 4096)
        negotiate_as_station(side)
        serve.end(2, READY, "cannot write\n")
        side.close()

    @unittest.skipUnless(os.path.exists("/dev/full"), "/dev/full isn't there")
    def test_a_full_output(self):
        host = Host(sending(SIGN_ON))
        with open("/dev/full", "w") as full:
            words = ["connect", "--wait", "60", "127.0.0.1:%d" % host.port]
            run = subprocess.run([Run.program, *words], input=b"await\nshow\n", stdout=full, stderr=subprocess.PIPE,
                                 timeout=120)
        expect(run.stderr, b"cannot write\n", "standard error")
        expect(run.returncode, 2, "status")

    def test_a_reset_is_a_fault(self):
        serve, side = served("await\nawait\n", wait=60, keep_open=True)
        expect(serve.line(), READY, "await")
        told = told_reset(side.stream.getsockname())
        reset(side)
        serve.end(2, "", told)

    def test_a_reset_behind_a_late_wait(self):
        go = threading.Event()
        connect, host = settled_connect(lambda side: go.wait(60) and reset(side), 2)
        expect(connect.asked("await record"), "late\n", "await record")
        go.set()
        host.end()
        connect.tell("await record")
        connect.end(2, "", told_reset(("127.0.0.1", host.port)))
        serve, side = settled_serve(2)
        expect(serve.asked("await"), "late\n", "await")
        told = told_reset(side.stream.getsockname())
        reset(side)
        serve.tell("await")
        serve.end(2, "", told)

    def test_the_other_side_sends_on_at_the_end(self):
        # What comes for a moment is taken, so that nobody is told of a fault.
        def send_on(side):
            until = time.monotonic() + 0.3
            while time.monotonic() < until:
                side.stream.sendall(bytes([IAC, 0xF1]) * 100)
                time.sleep(0.01)

        def play(side):
            sending(SIGN_ON)(side)
            send_on(side)
        at_host(play, ["--wait", "60"], "await\n", 0, "")
        serve, side = served("await\n", wait=3)
        side.take_end()
        send_on(side)
        side.close()
        serve.end(0, READY)
