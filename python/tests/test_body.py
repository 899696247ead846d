"""Bodies in the making, and a host that sends any record and takes any."""
from __future__ import annotations

import socket
import unittest
from collections.abc import Callable

from ribbonscarp import AnyHost, Body, EventKind, HostSession, Key, Opcode, Read, Session, connect, listen
from support import FORM, Beside, ready_station, record, run_connect


class BodyTest(unittest.TestCase):
    def test_spelled(self) -> None:
        """Each element as SC30-3533 spells it."""
        rows: list[tuple[Body, str]] = [
            (Body(), ""),
            (Body().clear(), "0440"),
            (Body().clear_format(), "0450"),
            (Body().write(), "04110008"),
            (Body().write(0x20, 0x0C), "0411200C"),
            (Body().read(), "04520000"),
            (Body().read(Read.INPUT_FIELDS, 0x10, 8), "04421008"),
            (Body().read(Read.MDT_FIELDS_ALTERNATE), "04820000"),
            (Body().header(b"\x00\x00\x00\x18"), "010400000018"),
            (Body().address(6, 20), "110614"),
            (Body().cursor(6, 20), "130614"),
            (Body().move_cursor(24, 80), "141850"),
            (Body().repeat(7, 1, "-"), "02070160"),
            (Body().repeat(7, 1, 0x00), "02070100"),
            (Body().erase(7, 1), "03070102FF"),
            (Body().attribute(0x22), "22"),
            (Body().text(6, 2, "Name"), "110602D5819485"),
            (Body().text(6, 2, "é", 0x22), "110601225120"),
            (Body().text(6, 1, "A", 0x22), "11055022C120"),
            (Body().more("A"), "C1"),
            (Body().field(6, 20, 10), "1106131D400024000A"),
            (Body().field(6, 1, 300, ffw=0x4820, attribute=0x27, text="AB"), "1105501D482027012CC1C2"),
            (Body().output(6, 20, 10, attribute=0x22), "1106131D22000A"),
            (Body().data(b"\x04\x40"), "0440"),
            (Body().query(), "04F30005D97000"),
            (Body().save_screen(), "0402"),
            (Body().read_screen(), "0462"),
            (Body().read_immediate(), "0472"),
            (Body().write_error("A"), "0421C1"),
        ]
        for body, spelled in rows:
            self.assertEqual(bytes(body).hex().upper(), spelled)
        self.assertEqual(repr(Body().clear().write()), "<Body 04 40 04 11 00 08>")
        self.assertEqual((Body().clear() == Body().clear(), Body().clear() == b"\x04\x40"), (True, True))
        self.assertNotEqual(Body().clear(), Body())

    def test_form(self) -> None:
        """The form of the other tests, and what a station shows of one with text."""
        self.assertEqual(Body().clear().write().field(6, 53, 10, attribute=0x20).read(), FORM)
        body = Body().clear().write().text(1, 30, "Sign On", 0x22).text(6, 2, "Name").field(6, 20, 10, text="BOB").read()
        with ready_station(bytes(body)) as station:
            screen = station.screen
        self.assertEqual((screen.row(1).strip(), screen.field("Name").text), ("Sign On", "BOB"))

    def test_refused(self) -> None:
        """Nothing is then appended."""
        calls: list[tuple[Callable[[Body], object], str]] = [
            (lambda body: body.text(25, 1, "A"), "no cell is at row 25, column 1"),
            (lambda body: body.address(300, 1), "no cell is at row 300, column 1"),
            (lambda body: body.text(6, 2, "\u20ac"), "no text is spelled of \u20ac"),
            (lambda body: body.text(6, 2, "\ud800"), "no text is spelled of"),
            (lambda body: body.attribute(0x40), "no attribute is spelled of 40"),
            (lambda body: body.write(0x100), "100 is no byte"),
            (lambda body: body.field(6, 2, 4, ffw=0x0000), "no field is spelled of 0, 24, 4"),
            (lambda body: body.field(6, 2, 70000), "11170 is no word of two bytes"),
            (lambda body: body.field(1, 1, 4), "row 1, column 1 has no cell before it"),
            (lambda body: body.field(6, 2, 2, text="ABC"), "a field of 2 cells doesn't hold 'ABC'"),
            (lambda body: body.repeat(7, 1, 0x04), "no repeat is spelled of 7, 1, 4"),
            (lambda body: body.header(b"\0" * 8), "no header is spelled of"),
            (lambda body: body.read(Read.NONE), "no read is spelled of 0"),
        ]
        for call, text in calls:
            body = Body().clear()
            with self.assertRaisesRegex(ValueError, text):
                call(body)
            self.assertEqual(bytes(body), b"\x04\x40")

    def test_wrong_body_is_told(self) -> None:
        """By its byte and the reason, also after bytes FF, which are doubled on the line."""
        rows = [
            ("C1", "its byte 0, C1, is wrong .20: "),
            ("0440 04110008 111901", "its byte 7, 19, is wrong .24: "),
            ("0440 04110008 110101 0205 50FF FF 04F3", "its byte 15, F3, is wrong .30: "),
            ("04110008 110101", None),
            ("0440 0411", "it ends inside an element, after its 4 bytes .44: "),
            ("04F30005D97000", "its byte 1, F3, is wrong .30: "),
        ]
        line, station = socket.socketpair()
        with HostSession(sock=line, wait=60) as host, Session(sock=station, wait=60) as session:

            def settle() -> None:
                session.wait_for(lambda screen: screen.state.is_ready)

            beside = Beside(settle)
            host.wait_ready()
            beside.finish()
            for body, text in rows:
                if text is None:
                    host.send(bytes.fromhex(body))
                else:
                    with self.assertRaisesRegex(ValueError, f"no record of opcode 03 has this body: {text}"):
                        host.send(bytes.fromhex(body))


class AnyHostTest(unittest.TestCase):
    def test_query_and_save(self) -> None:
        """A station of the program answers a Query, gives its screen, and takes it back."""
        with listen(wait=60, any=True) as listener:
            script = "await text Name\nawait record\nawait record\nawait text Other\nawait text Name\nawait record\n"
            script += "type BOB\nkey F5\n"
            station = run_connect(listener.port, script, "--terminal", "IBM-5251-11")
            with listener.accept() as host:
                self.assertEqual(host.wait_ready(), "IBM-5251-11")
                host.send(Body().clear().write().text(6, 2, "Name").field(6, 20, 10).cursor(6, 20))
                host.send(Body().query())
                reply = host.wait_record()
                self.assertEqual((reply.opcode, reply.body[:5].hex().upper()), (0, "000088003A"))
                host.send(Body().save_screen(), Opcode.SAVE_SCREEN)
                saved = host.wait_record()
                self.assertEqual((saved.opcode, saved.body[:2].hex().upper()), (4, "0412"))
                host.send(Body().clear().write(0, 0).text(1, 2, "Other"), Opcode.OUTPUT_ONLY)
                host.send(saved.body, Opcode.RESTORE_SCREEN)
                host.send(Body().read())
                answer = host.wait_answer()
                self.assertEqual((answer.key, [field.text for field in answer.fields]), (Key.F5, ["BOB"]))
            printed, _ = station.communicate(timeout=120)
        self.assertEqual((printed, station.returncode), ("", 0))

    def test_any_station(self) -> None:
        """Any terminal, and records that a host of the profile refuses; every event has its record."""
        line, station = socket.socketpair()
        with HostSession(sock=line, wait=60, any=True) as host, station:
            self.assertEqual(station.recv(100), bytes.fromhex("FFFD18"))
            station.sendall(bytes.fromhex("FFFB18 FFFB27 FFFD03"))
            station.sendall(bytes.fromhex("FFFA1800") + b"IBM-3477-FC" + bytes.fromhex("FFF0 FFFB19FFFD19FFFB00FFFD00"))
            self.assertEqual(host.wait_ready(), "IBM-3477-FC")
            asked = "FFFA1801FFF0 FFFE27 FFFC03 FFFD19FFFB19FFFD00FFFB00"
            self.assertEqual(station.recv(100), bytes.fromhex(asked))
            attention, odd = record(b"", 0)[:7] + b"\x40\x00" + record(b"", 0)[9:], record(b"\xff\x00\xff", 0x77)
            answer = record(bytes.fromhex("0638F1 110635 C2D6C2 110735 F1"), 3)
            for byte in attention + odd:
                station.sendall(bytes([byte]))
            station.sendall(answer + b"AB\xff\xef" + record(b"", 10))
            events = [host.wait_event() for _ in range(5)]
            kinds = [EventKind.ATTENTION, EventKind.RECORD, EventKind.ANSWER, EventKind.RECORD, EventKind.CANCELLED]
            self.assertEqual([event.kind for event in events], kinds)
            records = [event.record for event in events if event.record is not None]
            self.assertEqual((records[1].opcode, records[1].body, records[1].flags), (0x77, b"\xff\x00\xff", 0))
            self.assertEqual((records[3].raw, records[3].opcode, records[3].body), (b"AB", 0, b""))
            assert events[2].answer is not None
            self.assertEqual(events[2].answer.cursor, (6, 56))
            found = events[2].answer.field(6, 53)
            self.assertEqual(found and found.text, "BOB")
            # It sends any record, and bytes that are none.
            host.send(b"C1", 0x77, 0x8000)
            self.assertEqual(station.recv(100).hex().upper(), "000C12A000000480007743" + "31FFEF")
            host.send_bytes(b"\xff\x01")
            self.assertEqual(station.recv(100), b"\xff\x01")
            host.cancel()
            self.assertEqual(station.recv(100), record(b"", 10))
            with self.assertRaisesRegex(ValueError, "no record has a body of 70000 bytes"):
                host.send(b"A" * 70000)

    def test_answers(self) -> None:
        """What has the form of an answer is one; what Read Input Fields brings stands in the record."""
        rows = [("0101F1", True), ("0101F1C1C2", True), ("0101F11106", True), ("000088003A", False), ("1901F1", False),
                ("0101", False), ("010100", False)]
        for body, is_answer in rows:
            [event] = AnyHost().push(record(bytes.fromhex(body))).events
            self.assertIs(event.kind, EventKind.ANSWER if is_answer else EventKind.RECORD, body)
            self.assertEqual(event.answer is not None and event.answer.fields, () if is_answer else False)

    def test_not_without_any(self) -> None:
        line, station = socket.socketpair()
        with HostSession(sock=line, wait=60) as host, station:
            calls: list[Callable[[], object]] = [host.wait_record, lambda: host.send_bytes(b"")]
            calls.append(lambda: host.send(FORM, flags=1))
            for call in calls:
                with self.assertRaisesRegex(ValueError, "any=True"):
                    call()

    def test_regression(self) -> None:
        """A station of this package at it: an error, and Reset."""
        with listen(wait=60, any=True) as listener:
            with connect("127.0.0.1", listener.port, wait=60) as session, listener.accept() as host:
                beside = Beside(lambda: self.play(host))
                session.wait_text("No such item")
                self.assertEqual(session.screen.state.error_row, 24)
                session.press("Reset")
                session.fill(1, "BOB")
                session.press("Enter")
                beside.finish()

    def play(self, host: HostSession) -> None:
        host.wait_ready()
        host.send(FORM)
        host.send(Body().write_error("No such item"))
        self.assertEqual(host.wait_answer().fields[0].text, "BOB")
