"""Standard streams that were closed when the program began."""
import os
import socket
import threading
import unittest

from live.lines import READY, sending, station_at
from live.program import Run
from live.screens import SIGN_ON, SIGN_ON_FIELDS
from peers import Host, expect, negotiate_as_station


def streams_of(process, streams):
    return [os.readlink("/proc/%d/fd/%d" % (process.pid, stream)) for stream in streams]


CLOSED = [(0,), (1,), (2,), (0, 1), (0, 2), (1, 2), (0, 1, 2)]


class TestStream(unittest.TestCase):
    def test_closed_streams_that_are_needed(self):
        with socket.create_server(("127.0.0.1", 0)) as listener:
            listener.setblocking(False)
            for command in ["connect", "127.0.0.1:%d" % listener.getsockname()[1]], ["serve", "127.0.0.1:0"]:
                for closed in CLOSED:
                    rows = [([], None, "cannot read\n" if 0 in closed else "cannot write\n", {0, 1}),
                            ([], "await\n", "cannot write\n", {1}),
                            ([], "# no line\nnonsense\n", "script line 2\n", {0, 1, 2}),
                            (["no such file"], None, "cannot read: no such file: no such file\n", {0, 1, 2})]
                    for words, script, fault, needed in rows:
                        if needed & set(closed):
                            run = Run([*command, "--wait", "1", *words], "await\n", script, closed=closed)
                            run.end(2, "", "" if 2 in closed else fault)
            # It has connected to nobody.
            self.assertRaises(BlockingIOError, listener.accept)

    def test_closed_streams_that_are_not_needed(self):
        for closed, is_script in ((0,), True), ((0, 2), True), ((2,), False):
            def given(lines):
                return {"closed": closed, "script" if is_script else "text": lines}

            def play(side):
                started.wait(60)
                found.extend(streams_of(connect.process, closed))
                sending(SIGN_ON)(side)
            found, started, host = [], threading.Event(), Host(play)
            connect = Run(["connect", "--wait", "60", "127.0.0.1:%d" % host.port], **given("await\nfields\n"))
            started.set()
            connect.end(0, SIGN_ON_FIELDS)
            host.end()
            serve = Run(["serve", "--wait", "3", "127.0.0.1:0"], **given("await\n"))
            side = station_at(serve)
            found += streams_of(serve.process, closed)
            negotiate_as_station(side)
            serve.end(0, READY)
            side.close()
            expect(found, ["/dev/null"] * 2 * len(closed), "what stands for the closed streams")
