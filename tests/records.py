"""Records and options as they go over the line (RFC 854, 885, 1091, 1205)."""
import struct

IAC, EOR, SB, SE = 0xFF, 0xEF, 0xFA, 0xF0
WILL, DO = 0xFB, 0xFD
BINARY, TERMINAL, END_OF_RECORD = 0, 24, 25
OPENING = bytes([IAC, DO, TERMINAL])
SEND_NAME = bytes([IAC, SB, TERMINAL, 1, IAC, SE])
# End of record and binary both ways, and the answers.
OPTIONS = [(bytes([IAC, verb, option]), bytes([IAC, answer, option]))
           for option in (END_OF_RECORD, BINARY) for verb, answer in ((DO, WILL), (WILL, DO))]


def is_name(name: bytes = b"IBM-3179-2") -> bytes:
    return bytes([IAC, SB, TERMINAL, 0]) + name + bytes([IAC, SE])


def negotiation(name: bytes = b"IBM-3179-2") -> list[tuple[bytes, bytes]]:
    """What a host asks and offers until records are allowed (RFC 1205 and 4777), each with its station's answer."""
    return [(OPENING, bytes([IAC, WILL, TERMINAL])), (SEND_NAME, is_name(name)), *OPTIONS]


# What a station answers to a record that it refuses for a command, and for another reason (SC30-3533, negative responses).
OF_COMMAND, OF_OTHER = (bytes.fromhex("000E12A0000004800000" + sense + "FFEF") for sense in ("10030101", "10050121"))

ASKED, ANSWERED = (b"".join(tokens) for tokens in zip(*negotiation()))


def record(body: bytes | str = b"", opcode: int = 3, flags: int = 0) -> bytes:
    """A record as it goes over the line (RFC 1205, section 3; RFC 885), of a body as bytes or in hex."""
    body = bytes.fromhex(body) if isinstance(body, str) else body
    head = struct.pack(">HHHBHB", 10 + len(body), 0x12A0, 0, 4, flags, opcode)
    return (head + body).replace(b"\xff", b"\xff\xff") + bytes([IAC, EOR])
