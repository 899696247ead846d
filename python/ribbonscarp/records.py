"""Records as they go over a connection (RFC 1205, section 3; RFC 885), and what a station's stream is made of."""
from __future__ import annotations

import re
from collections.abc import Iterator
from dataclasses import dataclass

HEADER = 10
"""Bytes of a record's header: length, type, reserved, the length of its variable part, flags, opcode."""

END_OF_RECORD = b"\xff\xef"
"""IAC EOR."""

COMMAND = re.compile(rb"\xff(?:[\xfb-\xfe].|\xfa(?:[^\xff]|\xff[^\xf0])*\xff\xf0|[^\xfa-\xfe])", re.DOTALL)
"""IAC with a command; of an option with its number, of a subnegotiation up to its IAC SE."""


def escaped(data: bytes) -> bytes:
    """Bytes with each FF doubled, as Telnet sends data (RFC 854)."""
    return data.replace(b"\xff", b"\xff\xff")


def spell_record(body: bytes, opcode: int, flags: int = 0) -> bytes:
    """The record of a body. `ValueError` where it would be longer than 65,535 bytes, or a number has no place in it."""
    return escaped(spell_header(len(body), opcode, flags) + body) + END_OF_RECORD


def spell_header(size: int, opcode: int, flags: int = 0) -> bytes:
    """The header of a record whose body has so many bytes. `ValueError` where a number has no place in it."""
    length = HEADER + size
    if length > 0xFFFF or not 0 <= opcode <= 0xFF or not 0 <= flags <= 0xFFFF:
        raise ValueError(f"no record has a body of {size} bytes, opcode {opcode:X} and flags {flags:X}")
    return length.to_bytes(2, "big") + b"\x12\xa0\x00\x00\x04" + flags.to_bytes(2, "big") + bytes([opcode])


@dataclass(frozen=True)
class Record:
    """A record that came, by its bytes: header and body, without IAC EOR."""

    raw: bytes

    @property
    def flags(self) -> int:
        """The flags of its header, of all 16 bits: 4000 is Attention, 0400 System Request."""
        return int.from_bytes(self.raw[7:9], "big")

    @property
    def opcode(self) -> int:
        """What it asks of its receiver; 0 where it has no whole header."""
        return self.raw[9] if len(self.raw) >= HEADER else 0

    @property
    def body(self) -> bytes:
        """What stands after its header."""
        return self.raw[HEADER:]


class Tokens:
    """Splits a Telnet stream, in any pieces: records, and commands by their bytes.

    `taken` counts the bytes up to the end of what `push` gave last, and of the record since then; `waiting` those of a
    command that isn't complete.
    """

    def __init__(self) -> None:
        self._come = bytearray()
        self._record = bytearray()
        self.taken = 0

    @property
    def waiting(self) -> int:
        return len(self._come)

    @property
    def held(self) -> int:
        """How many bytes it keeps of a record and a command whose ends haven't come."""
        return len(self._come) + len(self._record)

    def push(self, data: bytes) -> Iterator[Record | bytes]:
        """Takes bytes, and gives what is complete with them."""
        self._come += data
        while self._come:
            at = self._come.find(0xFF)
            at = len(self._come) if at < 0 else at
            self._record += self._come[:at]
            self.taken += at
            del self._come[:at]
            command = COMMAND.match(self._come)
            if command is None:
                return
            spelling = bytes(command.group())
            self.taken += len(spelling)
            del self._come[: len(spelling)]
            if spelling == b"\xff\xff":
                self._record.append(0xFF)
            elif spelling == END_OF_RECORD:
                yield Record(bytes(self._record))
                self._record.clear()
            else:
                yield spelling
