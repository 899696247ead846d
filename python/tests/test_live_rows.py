"""What a live station answers to bad input, to Roll, and to who it is: worked examples, by their bytes."""
from __future__ import annotations

import contextlib
import unittest

from records import OF_COMMAND, OF_OTHER
from ribbonscarp import Key, KeyRefused, Reason, Refused, Station, Status, StatusError
from support import ASKED, FORM, ready_station, record

# A Roll with a bit set that is to be off, which its byte 12 is refused for; and Query.
ROLL, QUERY = record("0423 61 01 05"), record("04F3 0005 D970 00")
AT_ROLL = (Reason.ROLL, 12)
# An option that no station performs, and what it answers.
ASK, REFUSES = bytes.fromhex("FFFD26"), bytes.fromhex("FFFC26")
BEHIND_FORM = len(ASKED + record(FORM))
NOTHING_TYPED, B_TYPED, BO_TYPED = map(record, ("0635F1", "0636F1 110635 C2", "0637F1 110635 C2D6"))

# NEW-ENVIRON (RFC 1572): SEND, also with a seed of eight bytes, of which one is FF, and what it answers (RFC 4777).
DO, WILL, SEND = bytes.fromhex("FFFD27"), bytes.fromhex("FFFB27"), bytes.fromhex("FFFA2701FFF0")
SEND_SEED = b"\xff\xfa\x27\x01\x03IBMRSEED\x01\x02\xff\xff\x04\x05\x06\x07\x08\xff\xf0"
UNNAMED = b"\x03KBDTYPE\x01AGB\x03CODEPAGE\x01273\x03CHARSET\x01697\xff\xf0"
ANNA1, WITHOUT_NAME = b"\xff\xfa\x27\x00\x03DEVNAME\x01ANNA1" + UNNAMED, b"\xff\xfa\x27\x00" + UNNAMED


def bytewise(station: Station, data: bytes) -> bytes:
    """What a station writes at bytes that come one at a time."""
    return b"".join(station.push(data[at : at + 1]) for at in range(len(data)))


def anna(data: bytes = b"") -> Station:
    """ANNA1 at page 273, to which these bytes have come."""
    station = Station(device="ANNA1", code_page=273)
    station.push(data)
    return station


def first_of(station: Station, *rows: int) -> list[int]:
    """What the first cells of rows hold."""
    screen = station.screen
    return [screen.cell(row, 1).byte for row in rows]


class RowsTest(unittest.TestCase):
    def refuses(self, station: Station, sent: bytes | str, answer: bytes, reason: Reason, place: int) -> None:
        """A record of bytes or hex is answered so, and refused for a reason at one of its bytes."""
        before = station.refused_records
        self.assertEqual(station.push(bytes.fromhex(sent) if isinstance(sent, str) else sent), answer)
        self.assertEqual(station.refused_records, [*before, (reason, place)])

    def carries_out(self, station: Station, *bodies: str) -> None:
        """Records of these bodies are carried out, and nothing is written."""
        for body in bodies:
            self.assertEqual(station.push(record(body)), b"", body)

    def enters(self, station: Station, answer: bytes) -> None:
        """Enter sends this record."""
        self.assertEqual(station.press(Key.ENTER), answer)

    def ends(self, station: Station, sent: bytes, reason: Reason, place: int) -> None:
        """A byte of these ends the session, and none is taken after it."""
        with self.assertRaises(Refused) as refused:
            station.push(sent)
        self.assertEqual((refused.exception.reason, refused.exception.place), (reason, place))
        with self.assertRaises(StatusError) as failed:
            station.push(b"\0")
        self.assertEqual(failed.exception.status, Status.FAILED)


class RefusedRecordsTest(RowsTest):
    def test_a_refused_command_is_answered_at_its_eor_and_nothing_else_happens(self) -> None:
        with ready_station(FORM) as station:
            station.type("B")
            for at in range(len(ROLL)):
                is_last = at + 1 == len(ROLL)
                self.assertEqual(station.push(ROLL[at : at + 1]), OF_COMMAND if is_last else b"")
                self.assertEqual(station.refused_records, [AT_ROLL] * is_last)
            self.assertEqual(station.state.records, 1)
            station.type("O")
            self.enters(station, BO_TYPED)

    def test_keys_and_telnet_commands_act_while_a_record_is_passed_over(self) -> None:
        with ready_station(FORM) as station:
            station.type("B")
            self.assertEqual(bytewise(station, bytes.fromhex("0012 12A0 0000 04 0000 03 04110000")), b"")
            station.type("O")
            self.assertEqual(bytewise(station, b"\x12\x03" + ASK), REFUSES)
            self.assertEqual(bytewise(station, bytes.fromhex("2200 FFFF FFEF")), OF_OTHER)
            self.assertEqual(station.refused_records, [(Reason.EXTENDED_ATTRIBUTE, 14)])
            self.enters(station, BO_TYPED)

    def test_a_record_of_another_type_is_answered(self) -> None:
        with ready_station(FORM) as station:
            self.refuses(station, "000A 13A0 0000 04 0000 03 FFEF", OF_OTHER, Reason.BAD_TYPE, 2)

    def test_a_record_that_asks_twice_is_answered_as_a_whole_and_a_query_after_it(self) -> None:
        with ready_station(FORM) as station:
            self.refuses(station, record("04F3 0005 D970 00 0402"), OF_COMMAND, Reason.SAVE_RESTORE, 19)
            self.assertEqual((len(station.push(QUERY)), station.state.records), (73, 2))

    def test_records_are_refused_at_their_eor(self) -> None:
        """An empty one, one that ends inside a command, one past the last cell, and one of another type with FFs."""
        with ready_station(FORM) as station:
            self.refuses(station, "FFEF", OF_OTHER, Reason.TOO_SHORT, 0)
            self.refuses(station, record("04"), OF_OTHER, Reason.ENDED_INSIDE, 11)
            self.refuses(station, record("04110000 111850 C1C2"), OF_OTHER, Reason.PAST_END, 19)
            self.refuses(station, "0020 13 FFFF FFFF 00 FFEF", OF_OTHER, Reason.BAD_TYPE, 2)
            self.enters(station, NOTHING_TYPED)

    def test_three_records_are_refused_and_the_form_is_shown(self) -> None:
        with ready_station() as station:
            for _ in range(3):
                self.refuses(station, ROLL, OF_COMMAND, *AT_ROLL)
            self.carries_out(station, FORM.hex())
            self.assertEqual(station.state.records, 1)
            self.enters(station, NOTHING_TYPED)

    def test_a_thousand_records_are_answered(self) -> None:
        with ready_station(FORM) as station:
            station.type("B")
            self.assertEqual(station.push(ROLL * 1000), OF_COMMAND * 1000)
            self.assertEqual((station.refused_records, station.state.records), ([AT_ROLL] * 1000, 1))
            station.type("O")
            self.enters(station, BO_TYPED)

    def test_a_record_of_65535_bytes_is_passed_over(self) -> None:
        with ready_station(FORM) as station:
            sent = record(b"\x04\x23" + bytes(65523))
            self.assertEqual((len(sent), sent[:5]), (65535 + 4, bytes.fromhex("FFFFFFFF12")))
            self.refuses(station, sent, OF_COMMAND, Reason.ROLL, 13)
            self.enters(station, NOTHING_TYPED)

    def test_each_byte_of_a_record_may_be_bad(self) -> None:
        """Each of a header and a body becomes each of some others. They come whole, in single bytes, and with a key and
        a Telnet command before each."""
        good = record("04110000 110635 C1C2")

        def between(station: Station, data: bytes) -> bytes:
            written = b""
            for at, byte in enumerate(data):
                if byte != 0xEF:
                    # The keyboard is locked after a record that is carried out.
                    with contextlib.suppress(KeyRefused):
                        station.press(Key.TAB)
                    self.assertEqual(station.push(ASK), REFUSES)
                written += station.push(data[at : at + 1])
            return written

        with ready_station(FORM) as whole, ready_station(FORM) as single, ready_station(FORM) as mixed:
            refused = 0
            for place in range(len(good) - 2):
                for bad in b"\x00\x02\x13\x20\x7f\xfe":
                    data = good[:place] + bytes([bad]) + good[place + 1 :]
                    answer = whole.push(data)
                    self.assertIn(answer, (b"", OF_COMMAND, OF_OTHER))
                    self.assertEqual((bytewise(single, data), between(mixed, data)), (answer, answer), data.hex())
                    refused += answer != b""
                    self.assertEqual(len(whole.refused_records), refused)
            self.assertEqual(single.refused_records, whole.refused_records)
            self.assertEqual(mixed.refused_records, whole.refused_records)
            self.assertGreater(refused, 60)
            self.carries_out(whole, FORM.hex())
            self.enters(whole, NOTHING_TYPED)

    def test_pieces_may_be_cut_anywhere(self) -> None:
        """A refused record with a doubled FF and a Telnet command in it, a form, another refused one and a query."""
        inside = bytes.fromhex("0020 12A0 0000 04 0000 03 04110000 1203 FFFF 22 FFFD26 00 FFEF")
        stream = inside + record(FORM) + ROLL + QUERY
        with ready_station(FORM) as station:
            wanted = bytewise(station, stream)
        self.assertTrue(wanted.startswith(REFUSES + OF_OTHER + OF_COMMAND))
        for cut in range(len(stream)):
            with ready_station(FORM) as station:
                self.assertEqual(station.push(stream[:cut]) + station.push(stream[cut:]), wanted, cut)
                self.assertEqual(station.refused_records, [(Reason.EXTENDED_ATTRIBUTE, 14), AT_ROLL])
                self.assertEqual(station.state.records, 3)
                # So many bytes were taken.
                self.ends(station, b"\xff\x01", Reason.BAD_COMMAND, BEHIND_FORM + len(stream) + 1)

    def test_keys_and_telnet_commands_may_stand_before_each_byte(self) -> None:
        for place in range(len(ROLL) - 1):
            with ready_station(FORM) as station:
                self.assertEqual(station.push(ROLL[:place]), b"", place)
                station.type("B")
                self.assertEqual(station.push(ASK), REFUSES)
                self.refuses(station, ROLL[place:], OF_COMMAND, *AT_ROLL)
                self.enters(station, B_TYPED)


class EndsTest(RowsTest):
    def test_before_records_are_allowed_the_session_ends(self) -> None:
        early = Reason.RECORD_BEFORE_NEGOTIATION
        for sent, reason, place in (b"SSH-2.0-x", Reason.BAD_TYPE, 2), (record(FORM), early, 30):
            with self.subTest(reason), Station() as station:
                self.ends(station, sent, reason, place)
                self.assertEqual(station.refused_records, [])

    def test_a_station_of_the_profile_ends_there(self) -> None:
        with Station(strict=True) as station:
            self.ends(station, ROLL, Reason.ROLL, 11)

    def test_bytes_that_are_no_tokens_end_the_session(self) -> None:
        with ready_station(FORM) as station:
            self.ends(station, b"\x00\xff\x00", Reason.BAD_COMMAND, BEHIND_FORM + 2)

    def test_records_that_are_no_longer_allowed_end_the_session(self) -> None:
        with ready_station(FORM) as station:
            for sent, wanted in (("000F13", ""), ("FFFC19", "FFFE19"), ("FF", "")):
                self.assertEqual(station.push(bytes.fromhex(sent)), bytes.fromhex(wanted))
            self.ends(station, b"\xef", Reason.RECORD_BEFORE_NEGOTIATION, BEHIND_FORM + 7)


class RollsTest(RowsTest):
    def rows_after(self, body: str) -> Station:
        """The form, A in row 3, B in row 4, and then this."""
        station = ready_station(FORM)
        self.addCleanup(station.close)
        self.carries_out(station, "04110000 110301C1 110401C2" + body)
        return station

    def test_up_each_row_gets_what_the_row_below_held(self) -> None:
        station = self.rows_after("0423 010305")
        self.assertEqual(first_of(station, 3, 4, 5), [0xC2, 0x00, 0x00])
        self.assertEqual(station.state.cursor, (6, 53))
        station.type("B")
        self.enters(station, B_TYPED)

    def test_down_each_row_gets_what_the_row_above_held(self) -> None:
        self.assertEqual(first_of(self.rows_after("0423 810305"), 3, 4, 5), [0xC1, 0xC1, 0xC2])

    def test_a_row_that_nothing_comes_to_keeps_its_own(self) -> None:
        self.assertEqual(first_of(self.rows_after("0423 010304"), 3, 4), [0xC2, 0xC2])
        for roll in ("0423 000305", "0423 020304", "0423 9F0118"):
            self.assertEqual(first_of(self.rows_after(roll), 3, 4), [0xC1, 0xC2], roll)

    def test_bytes_of_each_kind_move_as_they_are(self) -> None:
        """Such as cells hold beside text: none, attributes, the first and the last that are no orders."""
        with ready_station() as station:
            self.carries_out(station, "04110000 110501 00203F05FF", "0423 040118")
            self.assertEqual(bytes(cell.byte for cell in station.screen.cells[0][:6]), b"\x00\x20\x3f\x05\xff\x00")

    def test_a_field_stays_where_it_is(self) -> None:
        with ready_station(FORM) as station:
            station.type("B")
            self.carries_out(station, "0423 010607 04110000")
            self.enters(station, record("0636F1 110635"))

    def test_an_errors_row_comes_back_first(self) -> None:
        with ready_station(FORM) as station:
            self.carries_out(station, "04110000 111801C1 0421C5")
            self.assertEqual(first_of(station, 24), [0xC5])
            self.carries_out(station, "0423 011718")
            self.assertEqual(first_of(station, 23, 24), [0xC1, 0xC1])
            self.assertEqual((station.state.error_row, station.state.is_locked), (None, True))

    def test_each_byte_has_its_values(self) -> None:
        """Of a control byte and of each row, whole and in single bytes."""
        rows = [(f"{control:02X}0118", 12 if control & 0x60 else None) for control in range(256)]
        rows += [(f"01{row}18", 13) for row in ("00", "19", "FF")]
        rows += [(f"0105{row}", 14) for row in ("00", "04", "19", "FF")]
        with ready_station(FORM) as whole, ready_station(FORM) as single:
            for operands, place in rows:
                sent = record("0423" + operands)
                wanted = b"" if place is None else OF_COMMAND
                self.assertEqual((whole.push(sent), bytewise(single, sent)), (wanted, wanted), operands)
            places = [(Reason.ROLL, place) for _, place in rows if place is not None]
            self.assertEqual(len(places), 192 + 3 + 4)
            self.assertEqual((whole.refused_records, single.refused_records), (places, places))

    def test_it_stands_where_a_command_may_and_commands_follow_it(self) -> None:
        with ready_station(FORM) as station:
            self.carries_out(station, "0421 C5 0423 011818 04520000")
            self.refuses(station, record("0423 010305 C1"), OF_COMMAND, Reason.NO_ESCAPE, 15)
            self.refuses(station, record("0402 0423 010305"), OF_COMMAND, Reason.SAVE_RESTORE, 13)
            self.refuses(station, record("0423 0103"), OF_OTHER, Reason.ENDED_INSIDE, 14)


class IdentitiesTest(RowsTest):
    def answers(self, data: bytes, rows: list[tuple[bytes, bytes]], names_refused: int = 0) -> list[Station]:
        """What ANNA1 answers after some bytes, in pieces and byte by byte; then both stations."""
        stations = [anna(data), anna(data)]
        for station in stations:
            self.addCleanup(station.close)
        for sent, wanted in rows:
            self.assertEqual((stations[0].push(sent), bytewise(stations[1], sent)), (wanted, wanted), sent.hex())
        self.assertEqual([station.names_refused for station in stations], [names_refused] * 2)
        return stations

    def test_it_tells_who_it_is_and_its_name_once(self) -> None:
        self.answers(b"", [(SEND, b""), (DO, WILL), (DO, b""), (SEND_SEED, ANNA1), (SEND_SEED, WITHOUT_NAME)], 1)

    def test_it_tells_who_it_is_while_it_passes_over_a_record(self) -> None:
        """The option comes inside it, at each of its places."""
        for place in range(len(ROLL) - 1):
            rows = [(ROLL[:place], b""), (DO, WILL), (SEND, ANNA1), (ASK, REFUSES), (SEND_SEED, WITHOUT_NAME)]
            rows += [(ROLL[place:], OF_COMMAND), (bytes.fromhex("FFFE27"), bytes.fromhex("FFFC27")), (SEND, b"")]
            for station in self.answers(ASKED, rows, 1):
                self.assertEqual(station.refused_records, [AT_ROLL])

    def test_a_question_may_have_64_bytes(self) -> None:
        """Each but the first is FF, which stands twice."""

        def send(length: int) -> bytes:
            return bytes.fromhex("FFFA27") + b"\x01"[:length] + b"\xff\xff" * (length - 1) + bytes.fromhex("FFF0")

        for length in range(65):
            self.answers(ASKED, [(DO, WILL), (send(length), ANNA1 if length else b"")])
        with anna(ASKED + DO) as station:
            self.ends(station, send(65), Reason.SUB_TOO_LONG, len(ASKED + DO) + 131)


if __name__ == "__main__":
    unittest.main()
