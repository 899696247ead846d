"""The code pages, each byte against its table (IBM Character Data Representation Architecture)."""
from __future__ import annotations

import unittest
from ctypes import byref, c_uint8, c_uint16, c_uint32

from ribbonscarp import CODE_PAGES, Status
from ribbonscarp.library import library

# The pages of a country, and those with the euro sign for the currency sign.
COUNTRIES = (37, 273, 277, 278, 280, 284, 285, 297, 500, 871)
EUROS = range(1140, 1150)

# The pages that Python knows. On 273 it has an overline where IBM's table has the macron.
CODECS = {37: "cp037", 273: "cp273", 500: "cp500", 1140: "cp1140"}
# What other pages of a country change of 037: bytes, and their characters.
CHANGES = {
    277: ("474A4F5A5B5F676A707B7C809C9E9FA1B0BABBC0D0DC", "}#!¤Å^$ø¦ÆØ@{[]ü¢¬|æå~"),
    278: ("43474A4F515A5B5F63676A71797B7C9FA1B0B5BABBC0CCD0DCE0EC", "{}§!`¤Å^#$ö\\éÄÖ]ü¢[¬|ä¦å~É@"),
    280: ("44484A4F5154585A5F6A797B7C90A1B0B1B5BABBC0CDD0DDE0", "{\\°!]}~é^òù£§[ì¢#@¬|à¦è`ç"),
    284: ("494A5A696A7BA1B0BABBBD", "¦[]#ñÑ¨¢^!~"),
    285: ("4A5BA1B0B1BABC", "$£¯¢[^~"),
    297: ("44484A4F51545A5F6A797B7C90A0A1B0B1B5BABBBDC0D0DDE0", "@\\°!{}§^ùµ£à[`¨¢#]¬|~éè¦ç"),
    871: ("4A4F5A5F797C8C8E9C9EA1ACAEB0BABBBEC0CCD0E0EC", "Þ!ÆÖðÐ`{}]ö@[¢¬|\\þ~æ´^"),
}
NO_PAGES = (0, 36, 38, 272, 290, 437, 499, 870, 1139, 1150, 65535)


def table_of(page: int) -> dict[int, str]:
    """The characters of bytes 40 to FE."""
    if page in EUROS and page not in CODECS:
        return {byte: character.replace("¤", "€") for byte, character in table_of(COUNTRIES[page - 1140]).items()}
    codec = CODECS.get(page, "cp037")
    table = {byte: bytes([byte]).decode(codec).replace("\u203e", "\u00af") for byte in range(0x40, 0xFF)}
    changed, characters = CHANGES.get(page, ("", ""))
    return table | dict(zip(bytes.fromhex(changed), characters))


def character_of(page: int, byte: int) -> str | None:
    """The character of a byte, where there is one."""
    told = c_uint32()
    status = library().ribbon_from_page(c_uint16(page), c_uint8(byte), byref(told))
    assert status in (Status.DONE, Status.BAD_ARGUMENT)
    return chr(told.value) if status == Status.DONE else None


def byte_of(page: int, character: str) -> int | None:
    """The byte of a character, where there is one."""
    told = c_uint8()
    status = library().ribbon_to_page(page, ord(character), byref(told))
    assert status in (Status.DONE, Status.BAD_ARGUMENT)
    return told.value if status == Status.DONE else None


class PagesTest(unittest.TestCase):
    def test_pages_are_their_tables(self) -> None:
        self.assertEqual(CODE_PAGES, (*COUNTRIES, *EUROS))
        for page in CODE_PAGES:
            table = table_of(page)
            self.assertEqual(len(set(table.values())), 0xFF - 0x40, page)
            for byte in range(256):
                self.assertEqual(character_of(page, byte), table.get(byte), (page, byte))
            for byte, character in table.items():
                self.assertEqual(byte_of(page, character), byte, (page, character))
            for character in "\x9f", "Ā", "¤" if page in EUROS else "€":
                self.assertIsNone(byte_of(page, character), (page, character))

    def test_numbers_of_no_page(self) -> None:
        for number in NO_PAGES:
            self.assertEqual((character_of(number, 0xC1), byte_of(number, "A")), (None, None), number)


if __name__ == "__main__":
    unittest.main()
