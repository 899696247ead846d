"""A host's end in Python, with a station in the same process."""
from __future__ import annotations

import unittest

from ribbonscarp import (
    Answer,
    AnswerField,
    Event,
    EventKind,
    Host,
    Key,
    Opcode,
    Reason,
    Refused,
    SendRefused,
    Status,
    StatusError,
)
from support import FORM, PAST_END, Pair, record


class HostTest(unittest.TestCase):
    def setUp(self) -> None:
        self.pair = Pair()
        self.addCleanup(self.pair.close)

    def test_ready(self) -> None:
        self.assertEqual(self.pair.host.opening, bytes.fromhex("FFFD18"))
        self.assertEqual(self.pair.events, [Event(EventKind.READY, terminal="IBM-3179-2")])

    def test_answer(self) -> None:
        pair = self.pair
        sent = pair.host.send(FORM)
        self.assertEqual(sent, record(FORM))
        pair.carry(sent)
        pair.station.type("BOB")
        pair.answer(pair.station.press(Key.ENTER))
        answer = Answer((6, 56), Key.ENTER, (AnswerField(6, 53, b"\xc2\xd6\xc2"),))
        self.assertEqual(pair.events[1:], [Event(EventKind.ANSWER, answer=answer)])
        self.assertEqual(answer.fields[0].text, "BOB")
        self.assertEqual(answer.field(6, 53), answer.fields[0])
        self.assertIsNone(answer.field(6, 54))

    def test_many_events(self) -> None:
        """All that one piece tells, in order, each answer with its own fields."""
        pair = self.pair
        pair.carry(pair.host.send(FORM))
        pair.station.type("A")
        up = pair.station.press(Key.ATTENTION) + pair.station.press(Key.F24) + pair.station.press(Key.SYSTEM_REQUEST)
        pair.answer(up)
        kinds = [event.kind for event in pair.events[1:] if isinstance(event, Event)]
        self.assertEqual(kinds, [EventKind.ATTENTION, EventKind.ANSWER, EventKind.SYSTEM_REQUEST])

    def test_cancel(self) -> None:
        pair = self.pair
        with self.assertRaises(StatusError) as caught:
            pair.host.cancel()
        self.assertEqual(caught.exception.status, Status.NO_READ_TO_CANCEL)
        pair.carry(pair.host.send(FORM))
        with self.assertRaises(StatusError) as caught:
            pair.host.send(FORM)
        self.assertEqual(caught.exception.status, Status.READ_OUTSTANDING)
        self.assertEqual(pair.host.send(b"", Opcode.MESSAGE_LIGHT_ON), record(b"", 0x0B))
        pair.carry(pair.host.cancel())
        self.assertEqual(pair.events[1:], [Event(EventKind.CANCELLED)])

    def test_send_refused(self) -> None:
        host = self.pair.host
        with self.assertRaises(SendRefused) as caught:
            host.send(PAST_END)
        self.assertEqual(caught.exception.reason, Reason.PAST_END)
        self.assertEqual(str(caught.exception), "51: a write goes past the last cell of the screen")
        with self.assertRaisesRegex(ValueError, "no record of opcode 03 has this body: its byte 0, C1, is wrong .20: "):
            host.send(b"\xc1")
        with self.assertRaises(ValueError):
            host.send(b"", Opcode.CANCEL_INVITE)
        with self.assertRaises(StatusError) as failed:
            host.send(bytes.fromhex("04110000") + b"\x11\x01\x01" * 30000)
        self.assertEqual(failed.exception.status, Status.TOO_BIG)

    def test_early(self) -> None:
        with Host() as host:
            with self.assertRaises(StatusError) as caught:
                host.send(FORM)
            self.assertEqual(caught.exception.status, Status.NOT_READY)

    def test_refused(self) -> None:
        """What was told and written before the refused byte is there."""
        host = self.pair.host
        attention = bytes.fromhex("000A12A0000004400000FFEF")
        answer = record(bytes.fromhex("0635F1"))
        with self.assertRaises(Refused) as caught:
            host.push(b"\xff\xfb\x27" + attention + answer)
        error = caught.exception
        self.assertEqual(error.reason, Reason.UNASKED_ANSWER)
        self.assertEqual(error.reply, b"\xff\xfe\x27")
        self.assertEqual(error.events, (Event(EventKind.ATTENTION),))
        with self.assertRaises(StatusError) as failed:
            host.push(b"A")
        self.assertEqual(failed.exception.status, Status.FAILED)

    def test_terminal_refused(self) -> None:
        """A terminal that isn't supported (61)."""
        with Host() as host:
            with self.assertRaises(Refused) as caught:
                host.push(bytes.fromhex("FFFB18 FFFA1800") + b"IBM-3477-FC" + bytes.fromhex("FFF0"))
            self.assertEqual((caught.exception.reason, caught.exception.place), (Reason.UNSUPPORTED_TERMINAL, 19))
