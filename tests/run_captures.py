#!/usr/bin/env python3
"""Runs examples/from_capture.sh on packet captures that it makes, and looks at the two sides and the recording of both.

Call it from anywhere: `python3 tests/run_captures.py [PROGRAM] [NAME..]`. It needs tshark, and says so where there is none.
Its last line counts the captures, and its own status is 1 where one went otherwise.
"""
import os
import re
import shutil
import subprocess
import unittest

from counted import PROGRAM, TOP, Test, main
from packets import ACK, FIN, SYN, Session, time_of, write_capture
from records import negotiation, record

SCRIPT = str(TOP / "examples/from_capture.sh")
FILES = ["host.hex", "station.hex", "session.recording"]
(DO, WILL), (SEND, _), *_ = negotiation()
INVITE, ANSWER = record(opcode=1), record("110531")
EOR_OPTION = b"\xff\xfb\x19"
# The same as INVITE, with a NOP and a WILL in its header.
NOPS = b"\xff\xf1".join((INVITE[:2], INVITE[2:4], INVITE[4:5] + b"\xff\xfb\x18" + INVITE[5:]))
ALL_BYTES = bytes(range(256))


def out_of_order():
    """A packet twice, and two in the wrong order."""
    session = Session().open().host(DO).station(WILL).host(SEND).host(INVITE)
    *front, send, invite = session.packets
    session.packets = [*front, invite, send, invite]
    return session


def two_sessions(first, second):
    first.packets += second.packets
    return first


def again_with_other_borders():
    """A packet is lost; what it had comes again in two, of which the second has the beginning of the next packet too."""
    session = Session().open().host(DO).station(WILL).host(SEND, False).host(INVITE).back("host", len(SEND + INVITE))
    return session.host(SEND[:2]).host(SEND[2:] + INVITE[:3]).host(INVITE[3:], False).station(ANSWER)


def in_small_packets(size):
    session = Session().open()
    for send, data in (session.host, DO), (session.station, WILL), (session.host, SEND + INVITE), (session.station, ANSWER):
        for place in range(0, len(data), size):
            send(data[place:place + size])
    return session


def web(page=b""):
    session = Session(80, ("10.0.0.3", 50001)).open().station(b"GET / HTTP/1.0\r\n\r\n")
    return session.host(b"HTTP/1.0 200 OK\r\n\r\n" + page)


def at_a_web_port():
    """A session at a port of another protocol, and one of that protocol at 5250's."""
    other = Session(5250, ("10.0.0.3", 50001)).open().station(b"GET / HTTP/1.0\r\n\r\n").host(b"HTTP/1.0 200 OK\r\n\r\n")
    return two_sessions(other, sign_on(Session(80).open()))


def sign_on(session):
    return session.host(DO).station(WILL).host(SEND + INVITE).station(ANSWER)


# A capture, the words behind it, and what is wanted: the two sides, and the status.
CAPTURES = {
    "whole": (sign_on(Session().open()), [], DO + SEND + INVITE, WILL + ANSWER, 0),
    "at another port": (sign_on(Session(992).open()), [], DO + SEND + INVITE, WILL + ANSWER, 0),
    "at a port above the station's": (sign_on(Session(50100).open()), [], DO + SEND + INVITE, WILL + ANSWER, 0),
    "over IPv6": (sign_on(Session(23, ("::1", 50000), "::1").open()), [], DO + SEND + INVITE, WILL + ANSWER, 0),
    "begins with the host's answer to SYN": (
        sign_on(Session(50100).packet("host", SYN | ACK)), [], DO + SEND + INVITE, WILL + ANSWER, 0
    ),
    "begins with the host's bytes": (Session().host(SEND).station(ANSWER), [], SEND, ANSWER, 0),
    "begins with the station's bytes": (Session().station(WILL).host(SEND), ["0"], SEND, WILL, 0),
    "begins while the host's bytes are on their way": (
        Session().station(WILL).host(DO, False).host(SEND + INVITE).station(ANSWER), ["0"], SEND + INVITE, WILL + ANSWER, 0
    ),
    "out of order": (out_of_order(), [], DO + SEND + INVITE, WILL, 0),
    "lacks some of the host's": (
        Session().open().host(DO).host(SEND, False).station(WILL).host(INVITE).station(ANSWER), [], DO, WILL + ANSWER, 1
    ),
    "lacks some of the station's": (
        Session().open().host(DO).station(WILL, False).host(SEND).station(ANSWER).host(INVITE), [],
        DO + SEND + INVITE, b"", 1
    ),
    "lacks some of both": (
        Session().open().host(DO).host(SEND, False).station(WILL).station(WILL, False).host(INVITE).station(ANSWER)
        .host(INVITE), [], DO, WILL, 1
    ),
    "lacks the host's last": (
        Session().open().host(DO).station(WILL).host(INVITE, False).station(ANSWER), [], DO, WILL + ANSWER, 1
    ),
    "lacks what is before a FIN": (
        sign_on(Session().open()).host(SEND, False).packet("host", FIN | ACK).packet("station", ACK), [],
        DO + SEND + INVITE, WILL + ANSWER, 1
    ),
    "whole up to a FIN": (
        sign_on(Session().open()).packet("host", FIN | ACK).packet("station", FIN | ACK).packet("host", ACK), [],
        DO + SEND + INVITE, WILL + ANSWER, 0
    ),
    "sent again with other borders": (again_with_other_borders(), [], DO + SEND + INVITE, WILL + ANSWER, 0),
    "a header in two packets": (in_small_packets(3), [], DO + SEND + INVITE, WILL + ANSWER, 0),
    "a header in packets of a byte": (in_small_packets(1), [], DO + SEND + INVITE, WILL + ANSWER, 0),
    "commands in a header": (Session().open().host(NOPS), [], NOPS, b"", 0),
    "beside a page with a header's bytes": (
        two_sessions(web(INVITE[2:7]), sign_on(Session().open())), [], DO + SEND + INVITE, WILL + ANSWER, 0
    ),
    "by a stream's number": (two_sessions(web(), sign_on(Session().open())), ["1"], DO + SEND + INVITE, WILL + ANSWER, 0),
    "by its records": (two_sessions(web(), sign_on(Session().open())), [], DO + SEND + INVITE, WILL + ANSWER, 0),
    "at a port of another protocol": (at_a_web_port(), [], DO + SEND + INVITE, WILL + ANSWER, 0),
    "without records": (Session().open().host(DO).station(WILL), ["0"], DO, WILL, 0),
    "without bytes": (Session().open(), ["0"], b"", b"", 0),
    "with long packets": (
        Session().open().host(ALL_BYTES).station(200 * ALL_BYTES), ["0"], ALL_BYTES, 200 * ALL_BYTES, 0
    ),
}

# What the recording of a capture holds, each piece with the number of the packet whose time it has.
RECORDED = {
    "whole": [(3, "host", DO), (4, "station", WILL), (5, "host", SEND + INVITE), (6, "station", ANSWER)],
    # INVITE came before SEND, and can't be read before it.
    "out of order": [(3, "host", DO), (4, "station", WILL), (6, "host", SEND), (6, "host", INVITE)],
    "lacks some of the host's": [(3, "host", DO), (4, "station", WILL), (6, "station", ANSWER)],
    "lacks some of the station's": [(3, "host", DO), (4, "host", SEND), (6, "host", INVITE)],
}

# What `t5250 trace` tells of the whole one's recording.
TOLD = """\
+0.000 host at 2 telnet DO 24
+0.334 station at 2 telnet WILL 24
+0.669 host at 8 telnet SB 24 01
+0.669 host at 20 record flags 0000 opcode 1
+1.003 station at 17 record flags 0000 opcode 3
  HEAD 17 5 31
host: 21 bytes, 1 records, 0 refused
station: 18 bytes, 1 records, 0 refused
"""


@unittest.skipUnless(shutil.which("tshark"), "tshark isn't there")
class TestCaptures(Test):
    def run_script(self, *words, path=os.environ["PATH"]):
        done = subprocess.run(["bash", SCRIPT, *words], cwd=self.folder, capture_output=True, text=True, timeout=300,
                              env={**os.environ, "PATH": path})
        return done.returncode, done.stdout, done.stderr

    def capture(self, packets, longest=65535):
        name = os.path.join(self.folder, f"{len(packets)}.pcap")
        write_capture(name, packets, longest)
        return name

    def side(self, name):
        with open(os.path.join(self.folder, name)) as file:
            return bytes.fromhex(file.read())

    def recording(self):
        with open(os.path.join(self.folder, "session.recording")) as file:
            pieces = [re.fullmatch(r"(\d+) (host|station) ((?:[0-9A-F]{2})+)\n", line).groups() for line in file]
        return [(int(time), sender, bytes.fromhex(data)) for time, sender, data in pieces]

    def test_captures(self):
        for name, (session, words, *wanted) in CAPTURES.items():
            status, said, fault = self.run_script(self.capture(session.packets), *words)
            found = [self.side("host.hex"), self.side("station.hex"), status]
            self.count(f"{name}: {said}, {fault}, {found}", found == wanted and fault == "")
            pieces = self.recording()
            recorded = [b"".join(data for _, sender, data in pieces if sender == side) for side in ("host", "station")]
            times = [time for time, _, _ in pieces]
            self.count(f"{name}: {pieces}", recorded == found[:2] and times == sorted(times) and times[:1] in ([], [0]))

    def test_times(self):
        """In milliseconds since the first packet with data."""
        for name, pieces in RECORDED.items():
            session, words, *_ = CAPTURES[name]
            self.run_script(self.capture(session.packets), *words)
            found, begun = self.recording(), time_of(pieces[0][0])
            wanted = [((time_of(number) - begun) // 1000, sender, data) for number, sender, data in pieces]
            self.count(f"{name}: {found}, not {wanted}", found == wanted)

    @unittest.skipUnless(os.path.exists(PROGRAM), "there is no program")
    def test_trace(self):
        """The program tells the recording as one dialogue."""
        self.run_script(self.capture(CAPTURES["whole"][0].packets))
        done = subprocess.run([PROGRAM, "trace", "session.recording"], cwd=self.folder, capture_output=True, text=True)
        self.count(f"{done}", (done.returncode, done.stdout, done.stderr) == (0, TOLD, ""))

    def test_modes(self):
        """Only their owner can read the files."""
        self.run_script(self.capture(CAPTURES["whole"][0].packets))
        for name in FILES:
            mode = os.stat(os.path.join(self.folder, name)).st_mode
            self.count(f"{name}: {mode:o}", mode & 0o777 == 0o600)

    def test_cut_packets(self):
        """A capture that has only the beginning of each packet: a side ends before the first byte that it lacks."""
        session = Session().open().host(DO).station(WILL + EOR_OPTION).host(SEND + INVITE).station(ANSWER)
        host, station = DO + SEND + INVITE, WILL + EOR_OPTION + ANSWER
        again = Session().open().host(DO).host(SEND + INVITE).back("host", len(SEND + INVITE)).host(SEND).host(INVITE)
        # What is kept of each packet, of which 40 bytes are headers; what is wanted of each side; and what it lacks.
        for session, longest, words, *wanted in [
            (session, 48, [], host[:11], station[:14], [10, 7]),
            (session, 57, [], host[:20], station, [1]),
            (session, 58, [], host, station, []),
            (session, 40, ["0"], b"", b"", [21, 21]),
            (again, 52, [], host, b"", []),
        ]:
            status, said, fault = self.run_script(self.capture(session.packets, longest), *words)
            found = [self.side("host.hex"), self.side("station.hex"), [int(n) for n in re.findall(r"next (\d+)", said)]]
            self.count(f"{longest}: {status}, {said}, {fault}, {found}", (found, status) == (wanted, wanted[2] != []))

    def test_other_tshark(self):
        """An older one has colons in what packets hold."""
        with open(os.path.join(self.folder, "tshark"), "w") as file:
            colons = """awk -F '\\t' -v OFS='\\t' '{ gsub(/../, "&:", $15); print }'"""
            file.write(f'#!/bin/sh\n{shutil.which("tshark")} "$@" | {colons}\n')
            os.chmod(file.fileno(), 0o755)
        status, said, fault = self.run_script(self.capture(CAPTURES["whole"][0].packets), path=f"{self.folder}:{os.environ['PATH']}")
        self.count(f"{status}, {said}, {fault}", (status, self.side("host.hex")) == (0, DO + SEND + INVITE))

    def test_tshark_fails(self):
        """Where tshark doesn't tell of the connection that it has told of, nothing is taken."""
        with open(os.path.join(self.folder, "tshark"), "w") as file:
            file.write(f'#!/bin/sh\ncase "$*" in *tcp.stream\\ ==*) exit 1 ;; esac\nexec {shutil.which("tshark")} "$@"\n')
            os.chmod(file.fileno(), 0o755)
        done = self.run_script(self.capture(CAPTURES["whole"][0].packets), path=f"{self.folder}:{os.environ['PATH']}")
        self.count(f"{done}", (done[0], done[2]) == (2, "tshark tells nothing of that stream\n"))

    def test_an_earlier_run(self):
        """Where nothing is taken, no file of an earlier run stays; and no capture is taken for one."""
        good = self.capture(CAPTURES["whole"][0].packets)
        for words in [good, "7"], ["no such file"], [self.capture(web().packets)]:
            self.run_script(good)
            found = self.run_script(*words)[0], [name for name in FILES if os.path.exists(os.path.join(self.folder, name))]
            self.count(f"{words}: {found}", found == (2, []))
        os.rename(good, os.path.join(self.folder, "session.recording"))
        status, _, fault = self.run_script("session.recording")
        self.count(fault, status == 2 and os.path.getsize(os.path.join(self.folder, "session.recording")) > 0)

    def test_wrong_uses(self):
        good, nothing = self.capture(Session().open().packets), self.capture([])
        for words in [], [good, "0", "0"], ["no such file"], [SCRIPT], [nothing]:
            status, said, fault = self.run_script(*words)
            self.count(f"{words}: {status}, {said}, {fault}", (status, said, fault.count("\n")) == (2, "", 1))

    def test_cut_off(self):
        """A capture that ends inside a packet, as one that was stopped."""
        name = self.capture(sign_on(Session().open()).host(INVITE).packets)
        with open(name, "r+b") as file:
            file.truncate(os.path.getsize(name) - 3)
        status, said, fault = self.run_script(name)
        self.count(f"{status}, {said}, {fault}", (status, self.side("host.hex")) == (0, DO + SEND + INVITE))

    def test_lists(self):
        """Where none is meant, all are listed, and no file is written."""
        none = self.capture(Session().open().host(DO).packets)
        several = self.capture(two_sessions(sign_on(Session().open()), sign_on(web())).packets)
        for words, rows in ([none], 1), ([none, "1"], 1), ([none, "first"], 1), ([several], 2), ([several, "2"], 2):
            status, said, fault = self.run_script(*words)
            found = (status, said, fault.count("stream "), os.path.exists(os.path.join(self.folder, "host.hex")))
            self.count(f"{words}: {found}, {fault}", fault.count("\nstream ") == rows and found[:2] == (2, "") and not found[3])

    def test_says_which(self):
        _, said, _ = self.run_script(self.capture(two_sessions(web(), sign_on(Session().open())).packets))
        self.count(said, re.match(r"stream 1: [0-9.]+:23 host, [0-9.]+:[0-9]+ station\n", said))


main()
