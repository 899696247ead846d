#!/usr/bin/env python3
"""What becomes of a Telnet Synch (RFC 854) at `t5250 connect` and `t5250 serve`: its data mark is lost.

A Synch sends the data mark, IAC DM, so that its last byte is TCP urgent data. The kit's sockets have no SO_OOBINLINE,
so the system takes that byte out of the stream, and the byte behind it stands behind the IAC. The tests say so: they
are to be turned round once the kit has the option. A data mark that isn't urgent is a Telnet command like any other.

Another program than that of `crates/t5250/out` may be named with a slash. The last line tells how many passed and how
many failed, and the status is 1 where one failed.
"""
import socket
import unittest

from counted import main
from live.lines import KINDS, NAMED, at_host, served
from peers import Side, negotiate_as_host
from records import ANSWERED, ASKED, record
from refusals import told_refusal

DATA_MARK = b"\xff\xf2"
# A record of opcode 0 without a body. Its first byte is 00, which is no Telnet command.
RECORD = record(opcode=0)


def synch(side):
    """IAC DM, whose last byte is urgent."""
    side.stream.send(DATA_MARK, socket.MSG_OOB)


def send_synch(side):
    synch(side)
    side.send(RECORD)


def send_synch_and_command(side):
    """A NOP behind it, whose IAC makes a doubled FF, a byte of data: FFF1 is the length of a record then."""
    synch(side)
    side.send(b"\xff\xf1")
    side.send(RECORD)


# The record's first byte stands behind the IAC then, and is refused there, or in the place of a record's type: how many
# bytes of the stream it comes behind, and why it is refused.
LOST = (send_synch, 1, "1 BadCommand"), (send_synch_and_command, 3, "11 BadType")


def connect(play, words, status, printed):
    """Runs `connect` at a host that a function plays behind the negotiation."""
    def play_all(side):
        negotiate_as_host(side)
        play(side)
        side.read()
    at_host(play_all, ["--wait", "60", *words], None, status, printed, script="await record\n")


def serve(play, words, status, printed):
    """The same of `serve`, for a station."""
    run, side = served(None, *words, wait=60, script="await\n")
    play(side)
    side.close()
    run.end(status, printed)


class TestUrgent(unittest.TestCase):
    def test_a_socket_loses_it(self):
        """The system keeps an urgent byte in its place only where the socket has SO_OOBINLINE."""
        for is_inline in 0, 1:
            with socket.create_server(("127.0.0.1", 0)) as server:
                sender = Side(socket.create_connection(server.getsockname()))
                taker = Side(server.accept()[0])
            taker.stream.setsockopt(socket.SOL_SOCKET, socket.SO_OOBINLINE, is_inline)
            synch(sender)
            sender.send(b"\x00")
            taker.take(DATA_MARK + b"\x00" if is_inline else b"\xff\x00")
            sender.close()
            taker.close()

    def test_connect_takes_a_data_mark(self):
        """In the data it is a command of no effect: the record behind it is taken."""
        for words in [], ["--strict"]:
            with self.subTest(words):
                connect(lambda side: side.send(DATA_MARK + RECORD), words, 0, "")

    def test_connect_loses_it(self):
        for words in [], ["--strict"]:
            with self.subTest(words):
                for play, count, reason in LOST:
                    # Where the bytes are tokens, it is a record that a live station refuses, and goes on after.
                    goes_on = not words and reason != "1 BadCommand"
                    told = told_refusal("record" if goes_on else "station", len(ASKED) + count, reason)
                    connect(play, words, 1, told + "ended (line 1)\n" * goes_on)

    def test_serve_takes_a_data_mark(self):
        serve(lambda side: side.send(DATA_MARK + RECORD), ["--any"], 0, NAMED + "record flags 0000 opcode 0\n")

    def test_serve_loses_it(self):
        for words, told in KINDS:
            with self.subTest(words):
                for play, count, reason in LOST:
                    serve(play, words, 1, told + told_refusal("host", len(ANSWERED) + count, reason))


main(needs_program=True)
