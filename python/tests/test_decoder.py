"""A decoder in Python: steps, places, refusals."""
from __future__ import annotations

import time
import unittest

from ribbonscarp import (
    Body,
    Cells,
    Command,
    Decoder,
    Element,
    Header,
    Opcode,
    Read,
    Reason,
    RecordEnd,
    Refused,
    Status,
    StatusError,
    Truncated,
)
from support import ASKED, record

STREAM = bytes.fromhex("FFF1") + record(bytes.fromhex("0440 04110008 C1"))


class DecoderTest(unittest.TestCase):
    def test_steps(self) -> None:
        wanted = [
            Command(1, b"\xff\xf1"),
            Header(11, 0, 17, Opcode.PUT_GET),
            Element(13, b"\x04\x40"),
            Element(17, b"\x04\x11\x00\x08"),
            Cells(18, b"\xc1"),
            RecordEnd(20),
        ]
        with Decoder() as decoder:
            self.assertEqual(decoder.push(STREAM), wanted)
            decoder.finish()
        with Decoder() as decoder:
            cut = [step for byte in STREAM for step in decoder.push(bytes([byte]))]
            self.assertEqual(cut, wanted)
            self.assertEqual(decoder.push(b""), [])

    def test_names(self) -> None:
        """Each element of the profile, and those in addition to it, have the names and operands that their bytes spell."""
        body = Body().clear().write(0xA0, 8).header(b"\x80\x18").address(2, 3).cursor(4, 5).move_cursor(6, 7)
        body.repeat(8, 9, "-").erase(10, 11).field(12, 13, 20, ffw=0x4720, attribute=0x27).output(14, 15, 5)
        body.data(bytes.fromhex("1D 4000 8181 24 0003")).clear_format().read(Read.MDT_FIELDS, 1, 2).write_error("No")
        with Decoder() as decoder:
            steps = decoder.push(record(bytes(body)))
        told = [(step.name, step.operands) for step in steps if isinstance(step, Element)]
        start = {"ffw": 0x4720, "fcws": (), "attribute": 0x27, "length": 20}
        self.assertEqual(
            told,
            [
                ("CLEAR-UNIT", {}),
                ("WRITE", {"cc1": 0xA0, "cc2": 8}),
                ("SOH", {"header": b"\x80\x18"}),
                ("SBA", {"row": 2, "column": 3}),
                ("IC", {"row": 4, "column": 5}),
                ("MC", {"row": 6, "column": 7}),
                ("RA", {"row": 8, "column": 9, "byte": 0x60}),
                ("EA", {"row": 10, "column": 11, "kinds": b"\xff"}),
                ("SBA", {"row": 12, "column": 12}),
                ("SF", start),
                ("SBA", {"row": 14, "column": 14}),
                ("SF", {"ffw": None, "fcws": (), "attribute": 0x20, "length": 5}),
                ("SF", {"ffw": 0x4000, "fcws": (0x8181,), "attribute": 0x24, "length": 3}),
                ("CLEAR-FORMAT", {}),
                ("READ-MDT", {"cc1": 1, "cc2": 2}),
                ("WRITE-ERROR", {}),
            ],
        )

    def test_roll(self) -> None:
        """A Roll has its first byte and its rows."""
        with Decoder() as decoder:
            steps = decoder.push(record(bytes.fromhex("0423810305")))
        told = [(step.name, step.operands) for step in steps if isinstance(step, Element)]
        self.assertEqual(told, [("ROLL", {"control": 0x81, "top": 3, "bottom": 5})])

    def test_cells(self) -> None:
        """A run of cells is one step, in any pieces; an FF begins one of its own."""
        body = bytes.fromhex("04110008 C140C2 FF 20 C3 110101 C4")
        with Decoder() as decoder:
            steps = decoder.push(record(body))
        wanted = [Cells(16, b"\xc1\x40\xc2"), Cells(20, b"\xff\x20\xc3"), Cells(24, b"\xc4")]
        self.assertEqual([step for step in steps if isinstance(step, Cells)], wanted)
        self.assertEqual([step.text for step in wanted], ["A B", "\x9f C", "D"])
        with Decoder() as decoder:
            cut = [step for byte in record(body) for step in decoder.push(bytes([byte]))]
        self.assertEqual(b"".join(step.data for step in cut if isinstance(step, Cells)), b"\xc1\x40\xc2\xff\x20\xc3\xc4")

    def test_cells_before_refusal(self) -> None:
        """Cells that a record has before a byte too many are told with the refusal."""
        with Decoder() as decoder, self.assertRaises(Refused) as caught:
            decoder.push(bytes.fromhex("0011 12A0 0000 04 0000 03 04110008 C1C2C3 C4"))
        self.assertEqual((caught.exception.place, caught.exception.reason), (17, Reason.TOO_LONG))
        self.assertEqual(caught.exception.steps[-1], Cells(16, b"\xc1\xc2\xc3"))

    def test_fast(self) -> None:
        """Five million bytes of runs of cells in a second of the processor's time."""
        screen = record(bytes(Body().clear().write().address(1, 1)) + b"\xc1" * 1920)
        stream = screen * (1_000_000 // len(screen))
        with Decoder() as decoder:
            began = time.process_time()
            decoder.push(stream)
            took = time.process_time() - began
        self.assertLess(took, len(stream) / 5_000_000)

    def test_command_inside(self) -> None:
        """A Telnet command may stand inside a record."""
        invite = record(b"", 1)
        with Decoder() as decoder:
            self.assertEqual(
                decoder.push(invite[:2] + b"\xff\xf1" + invite[2:]),
                [Command(3, b"\xff\xf1"), Header(11, 0, 10, Opcode.INVITE), RecordEnd(13)],
            )

    def test_refused(self) -> None:
        """5250 Query, which the profile refuses at its code (30)."""
        query = bytes.fromhex("0011 12A0 0000 04 0000 03 04F3 0005 D97000 FFEF")
        with Decoder() as decoder:
            self.assertEqual(
                decoder.push(query), [Header(9, 0, 17, Opcode.PUT_GET), Element(16, query[10:17]), RecordEnd(18)]
            )
        with Decoder(strict=True) as decoder:
            decoder.push(ASKED)
            with self.assertRaises(Refused) as caught:
                decoder.push(query)
            self.assertEqual(caught.exception.reason, Reason.STRUCTURED_FIELD)
            self.assertEqual(caught.exception.place, len(ASKED) + 11)
            self.assertEqual(caught.exception.steps, (Header(len(ASKED) + 9, 0, 17, Opcode.PUT_GET),))
            self.assertEqual(
                str(caught.exception), "byte 32 is refused: 30: structured fields aren't part of the profile"
            )
            for call in (lambda: decoder.push(b"A"), decoder.finish):
                with self.assertRaises(StatusError) as failed:
                    call()
                self.assertEqual(failed.exception.status, Status.FAILED)

    def test_truncated(self) -> None:
        with Decoder() as decoder:
            decoder.push(STREAM[:-1])
            with self.assertRaises(Truncated) as caught:
                decoder.finish()
            self.assertEqual(caught.exception.length, len(STREAM) - 1)

    def test_closed(self) -> None:
        decoder = Decoder()
        decoder.close()
        decoder.close()
        with self.assertRaises(StatusError) as caught:
            decoder.push(b"A")
        self.assertEqual(caught.exception.status, Status.NOTHING_HELD)
