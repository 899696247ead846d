"""`serve --sessions`: stations one after another at one listener."""
import os
import socket

from counted import Test
from live.lines import KINDS, READY, address_of, reset
from live.program import Run
from peers import Side, expect, negotiate_as_station
from records import OPENING, record

SCRIPT = "await\nsend 3 0440\n"


def begun(count, *words, script=SCRIPT):
    """A `serve` of so many stations, and what connects the next one to it."""
    serve = Run(["serve", "--sessions", str(count), "--wait", "60", *words, "127.0.0.1:0"], script=script)
    address = address_of(serve)
    return serve, lambda: Side(socket.create_connection(address, timeout=60))


def whole(side):
    negotiate_as_station(side)
    side.take(record("0440"))
    side.close()


class TestSessions(Test):
    def test_three_stations(self):
        for words, told in KINDS:
            serve, station = begun(3, *words)
            for number in range(3):
                if number:
                    expect(serve.line(), "session %d\n" % (number + 1), "between")
                whole(station())
                expect(serve.line(), told, "session")
            serve.end(0, "")

    def test_stations_that_wait(self):
        # They are in the queue of the listener, and each is served from the script's first line on.
        serve, station = begun(3)
        for side in [station() for _ in range(3)]:
            whole(side)
        serve.end(0, READY + "session 2\n" + READY + "session 3\n" + READY)

    def test_one_of_three_fails(self):
        # The second closes at once, and the third is served all the same: the status is 1.
        serve, station = begun(3)
        whole(station())
        # What is unread when a connection is closed would reset it.
        second = station()
        second.take(OPENING)
        second.close()
        whole(station())
        printed = serve.end(1)
        self.assertTrue(printed.startswith(READY + "session 2\nended (line 1)\n"), printed)
        self.assertTrue(printed.endswith("session 3\n" + READY), printed)

    def test_the_last_of_two_is_well(self):
        # A byte that is refused ends its session alone.
        serve, station = begun(2, script="await\n")
        side = station()
        side.send(b"\xff\x00")
        side.read()
        side.close()
        side = station()
        negotiate_as_station(side)
        side.close()
        serve.end(1)

    def test_a_session_by_itself(self):
        serve, station = begun(1)
        whole(station())
        serve.end(0, READY)

    def test_sessions_in_one_recording(self):
        name = os.path.join(self.folder, "recording")
        serve, station = begun(2, "--record", name)
        for _ in range(2):
            whole(station())
        serve.end(0, error=f"recording: {name}\n")
        with open(name) as file:
            lines = [line.split() for line in file]
        openings = [int(line[0]) for line in lines if line[1:] == ["host", "FFFD18"]]
        expect(len(openings), 2, "openings")
        # Each connection's time is that since its own beginning.
        self.assertLessEqual(openings[1], 1000)

    def test_a_fault_ends_all(self):
        serve, station = begun(3)
        whole(station())
        reset(station())
        serve.end(2, None, None)

    def test_wrong_sessions(self):
        for count, script in ("0", SCRIPT), ("1000001", SCRIPT), ("x", SCRIPT), ("2", None):
            run = Run(["serve", "--sessions", count, "127.0.0.1:0"], "", script)
            run.end(2, "", None)
            self.assertTrue(run.fault.startswith("error: "), run.fault)
