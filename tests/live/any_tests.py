"""`serve --any` at stations of Python: what it tells of any record and any terminal, and what it refuses."""
import socket
import unittest

from live.lines import NAMED, READY, served
from records import is_name, record
from refusals import told_refusal

# What a station sends (RFC 1205, section 3; RFC 885), and what is told: no body, Attention, an answer, a body with FF,
# one that is no body of the data stream, two records, and a command inside one.
TOLD = [
    (record(opcode=0), "record flags 0000 opcode 0\n"),
    (record(opcode=0, flags=0x4000), "record flags 4000 opcode 0\n"),
    (record("0638F1110635C2D6C2"), "record flags 0000 opcode 3 0638F1110635C2D6C2\n"),
    (record("FF0A"), "record flags 0000 opcode 3 FF0A\n"),
    (record("0001", 10, flags=0x1234), "record flags 1234 opcode 10 0001\n"),
    (record(opcode=1) + record("04", 12), "record flags 0000 opcode 1\nrecord flags 0000 opcode 12 04\n"),
    (bytes.fromhex("000B12A0000004000003FFF188FFEF"), "record flags 0000 opcode 3 88\n"),
]

# Bytes of which the last is refused, and why (RFC 854; RFC 1205, section 3).
REFUSED = [
    ("0009", "10 LengthBelowHeader"),
    ("000A12A1", "11 BadType"),
    ("000A12A00001", "12 BadReserved"),
    ("000A12A0000005", "13 BadVariableLength"),
    ("000A12A0000004000007", "14 UnknownOpcode"),
    ("000A12A000000400000304", "15 TooLong"),
    ("000B12A0000004000003FFEF", "16 TooShort"),
    ("FF00", "1 BadCommand"),
]


def send_last(side, data):
    """Sends bytes behind which nothing comes: who refuses one of them waits until the station closes."""
    side.send(data)
    side.stream.shutdown(socket.SHUT_WR)


class TestAny(unittest.TestCase):
    def test_any_record_is_told(self):
        for pieces in 0, 1:
            for sent, told in TOLD:
                serve, side = served("await\n" + "await\n" * told.count("\n"), "--any", pieces=pieces)
                side.send(sent, pieces)
                side.close()
                serve.end(0, NAMED + told)

    def test_bytes_that_are_refused(self):
        for sent, reason in REFUSED:
            serve, side = served("await\nawait\nsend 3\n", "--any")
            send_last(side, bytes.fromhex(sent))
            serve.end(1, NAMED + told_refusal("host", len(side.sent) - 1, reason))
            side.close()

    def test_a_record_before_it_is_allowed(self):
        serve, side = served("send 10\nawait\n", "--any", is_ready=False)
        send_last(side, record(opcode=0, flags=0x4000))
        serve.end(1, "send refused NotAllowed\n" + told_refusal("host", 11, "60 RecordBeforeNegotiation"))
        side.close()

    def test_any_terminal(self):
        """A name that a host end refuses, one as it came, and none; but a station without a terminal type is refused."""
        for name in b"IBM-3477-FC", b"ibm-3179-2", b"xterm", b"":
            serve, side = served("await\nsend 10 FF01\n", "--any", name=name)
            side.take(record("FF01", 10))
            side.close()
            serve.end(0, "terminal %s\n" % name.decode())
        serve, side = served("await\n", "--any", is_ready=False)
        send_last(side, bytes.fromhex("FFFC18"))
        serve.end(1, told_refusal("host", 2, "61 UnsupportedTerminal"))
        side.close()

    def test_the_first_name_stays(self):
        serve, side = served("await\nawait\n", "--any")
        side.send(bytes.fromhex("FFFB18") + is_name(b"IBM-5251-11") + record(opcode=0))
        side.close()
        serve.end(0, NAMED + "record flags 0000 opcode 0\n")

    def test_waits_that_are_not_met(self):
        for words, text, told in (
            (["--any"], "await\nawait F4\n", NAMED + "record flags 0000 opcode 3 0101F1\nended\n"),
            ([], "await\nsend 3 04520000\nawait F4\n", READY + "answer 1 1 F1\nended\n"),
        ):
            serve, side = served(text, *words)
            if not words:
                side.take(record("04520000"))
            side.send(record("0101F1"))
            side.close()
            serve.end(1, told)
