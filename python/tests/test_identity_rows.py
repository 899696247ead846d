"""Who a live station says that it is (RFC 1572, RFC 4777), beside what test_live_rows.py has: worked examples."""
from __future__ import annotations

import unittest
from ctypes import byref

from records import is_name
from ribbonscarp import Station, Status
from ribbonscarp.library import Identity, StationHandle, library
from test_live_rows import ANNA1, DO, SEND, SEND_SEED, WILL, WITHOUT_NAME, anna, bytewise

# What stations say, by what they are made of: one without a device, another keyboard, and the longest answer.
USI = b"\xff\xfa\x27\x00\x03KBDTYPE\x01USI\x03CODEPAGE\x011140\x03CHARSET\x01695\xff\xf0"
US2 = b"\xff\xfa\x27\x00\x03KBDTYPE\x01US2\x03CODEPAGE\x01037\x03CHARSET\x01697\xff\xf0"
LONGEST = b"\xff\xfa\x27\x00\x03DEVNAME\x01$TEN_CHARS\x03KBDTYPE\x01ICB\x03CODEPAGE\x011149\x03CHARSET\x01695\xff\xf0"

DONT, WONT = bytes.fromhex("FFFE27"), bytes.fromhex("FFFC27")
IS, INFO, NO_BYTE = (bytes.fromhex(word) for word in ("FFFA2700FFF0", "FFFA2702FFF0", "FFFA27FFF0"))
# Words of the option, and what answers each.
WORDS = [(SEND, b""), (DONT, b""), (WILL, DONT), (WONT, b""), (DO, WILL), (IS, b""), (INFO, b""), (NO_BYTE, b"")]
WORDS += [(DONT, WONT), (SEND, b""), (DO, WILL), (SEND, ANNA1)]
# Words of other options, what a station of the profile answers too, and whether records are allowed then.
OTHERS = [
    ("FFF6", "", False),
    ("FFFD18", "FFFB18", False),
    ("FFFA1801FFF0", is_name().hex(), False),
    ("FFFD19", "FFFB19", False),
    ("FFFB19", "FFFD19", False),
    ("FFFD26", "FFFC26", False),
    ("FFFD00", "FFFB00", False),
    ("FFFB00", "FFFD00", True),
    ("FFFE19", "FFFC19", False),
]

# Names as they are given, and as they are told; and bytes that are none.
NAMES = [("ANNA1", b"ANNA1"), ("anna1", b"ANNA1"), ("$", b"$"), ("#a", b"#A"), ("@_.9", b"@_.9")]
NAMES += [("ABCDEFGHIJ", b"ABCDEFGHIJ")]
NO_NAMES = [b"1ABC", b"TOOLONGNAME", b"_A", b".A", b"A B", b"A-B", b"A\xff", b"\xc3\x84"]
NO_KEYBOARDS = [b"US", b"USBX", b"U-B", b"US\xff"]
LETTERS = b"ABCDEFGHIJKLMNOPQRSTUVWXYZabcdefghijklmnopqrstuvwxyz$#@"
LATER = b"0123456789_."


def is_taken(device: bytes | None, keyboard: bytes | None = None) -> bool:
    """Whether there is a station with this name and keyboard."""
    handle = StationHandle()
    status = library().ribbon_station_new_live(byref(handle), b"IBM-3179-2", byref(Identity(device, keyboard, 37)))
    library().ribbon_station_free(byref(handle))
    assert status in (Status.DONE, Status.BAD_ARGUMENT)
    return bool(status == Status.DONE)


class IdentityRowsTest(unittest.TestCase):
    def test_a_station_tells_who_it_is(self) -> None:
        with anna() as station:
            self.assertEqual([station.push(sent) for sent in (DO, SEND, DO)], [WILL, ANNA1, b""])
            self.assertEqual(station.names_refused, 0)

    def test_a_name_is_told_once(self) -> None:
        with anna() as station:
            self.assertEqual(station.push(DO + 2 * SEND_SEED), WILL + ANNA1 + WITHOUT_NAME)
            self.assertEqual(station.names_refused, 1)
            self.assertEqual(station.push(10_000 * SEND), 10_000 * WITHOUT_NAME)
            self.assertEqual(station.names_refused, 10_001)

    def test_without_a_device_none_is_refused(self) -> None:
        with Station(code_page=1140, keyboard="usi") as station:
            self.assertEqual(station.push(DO + 2 * SEND), WILL + 2 * USI)
            self.assertEqual(station.names_refused, 0)

    def test_the_longest_answer_has_63_bytes(self) -> None:
        self.assertEqual(len(LONGEST), 63)
        with Station(device="$ten_chars", code_page=1149) as station:
            self.assertEqual(station.push(DO + SEND), WILL + LONGEST)

    def test_other_words_of_the_option(self) -> None:
        for push in Station.push, bytewise:
            with anna() as station:
                for sent, answer in WORDS:
                    self.assertEqual(push(station, sent), answer, sent.hex())

    def test_other_options_are_the_profiles(self) -> None:
        with anna() as station, Station(strict=True) as profile:
            for sent, answer, is_ready in OTHERS:
                for each in station, profile:
                    self.assertEqual(each.push(bytes.fromhex(sent)), bytes.fromhex(answer), sent)
                    self.assertEqual(each.state.is_ready, is_ready, sent)

    def test_names(self) -> None:
        for given, name in NAMES:
            with Station(device=given, code_page=273) as station:
                self.assertEqual(station.push(DO + SEND), WILL + ANNA1.replace(b"ANNA1", name))
        for bad in NO_NAMES:
            self.assertFalse(is_taken(bad), bad)

    def test_a_byte_that_stands_in_names(self) -> None:
        for byte in range(1, 256):
            self.assertEqual(is_taken(bytes([byte])), byte in LETTERS, byte)
            self.assertEqual(is_taken(bytes([0x41, byte])), byte in LETTERS + LATER, byte)

    def test_keyboard_types(self) -> None:
        with Station(keyboard="us2") as station:
            self.assertEqual(station.push(DO + SEND), WILL + US2)
        for bad in NO_KEYBOARDS:
            self.assertFalse(is_taken(None, bad), bad)


if __name__ == "__main__":
    unittest.main()
