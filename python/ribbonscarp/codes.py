"""Numbers with a name: statuses, reasons, refusals, keys, opcodes and terminals, as `ribbonscarp.h` has them."""
from __future__ import annotations

from enum import Enum, IntEnum


class Status(IntEnum):
    """What a call of the library comes to."""

    DONE = 0
    REFUSED = 1
    FAILED = 2
    NO_MEMORY = 3
    NOTHING_HELD = 4
    IN_USE = 5
    NO_ROOM = 6
    BAD_ARGUMENT = 7
    NOT_READY = 8
    KEY_REFUSED = 9
    TRUNCATED = 10
    READ_OUTSTANDING = 11
    NO_READ_TO_CANCEL = 12
    TOO_BIG = 13
    NO_ANSWER = 14
    NULL = 100


class Reason(IntEnum):
    """Why bytes are refused: 1 to 45 by the grammar, at a byte; 50 to 63 a whole item, at its last byte."""

    BAD_COMMAND = 1
    STRAY_SE = 2
    BAD_SUB = 3
    SUB_TOO_LONG = 4
    LENGTH_BELOW_HEADER = 10
    BAD_TYPE = 11
    BAD_RESERVED = 12
    BAD_VARIABLE_LENGTH = 13
    UNKNOWN_OPCODE = 14
    TOO_LONG = 15
    TOO_SHORT = 16
    NO_ESCAPE = 20
    UNKNOWN_COMMAND = 21
    BAD_ADDRESS = 24
    BAD_SOH_LENGTH = 25
    RESEQUENCING = 26
    BAD_ERASE_LIST = 27
    BAD_REPEAT = 28
    BAD_FORMAT_BYTE = 29
    STRUCTURED_FIELD = 30
    ALTERNATE_SIZE = 31
    SAVE_RESTORE = 32
    ROLL = 33
    ERROR_CODE = 34
    READ_SCREEN = 35
    READ_IMMEDIATE = 36
    EXTENDED_ATTRIBUTE = 38
    TRANSPARENT_DATA = 39
    DISPLAY_STRUCTURED_FIELD = 40
    TOO_MANY_FCWS = 41
    LEFT_OUT_SHIFT = 42
    BAD_AID = 43
    ENDED_INSIDE = 44
    BAD_ANSWER_BYTE = 45
    BACKWARD_ADDRESS = 50
    PAST_END = 51
    ZERO_LENGTH = 52
    FIELD_PAST_END = 53
    FIELD_OVERLAP = 54
    TABLE_FULL = 55
    RECORD_BEFORE_NEGOTIATION = 60
    UNSUPPORTED_TERMINAL = 61
    UNASKED_ANSWER = 62
    ANSWER_MISMATCH = 63


class KeyRefusal(IntEnum):
    """Why a key is refused."""

    LOCKED = 1
    PROTECTED = 2
    WRONG_CHARACTER = 3
    DUP_NOT_ALLOWED = 4
    FIELD_HAS_NO_ROOM = 5
    NO_READ_PENDING = 6
    MANDATORY_ENTER = 7
    FIELD_EXIT_REQUIRED = 8
    MANDATORY_FILL = 9


class Opcode(IntEnum):
    """What a record asks of its receiver (RFC 1205, section 3). `CANCEL_INVITE` is what `Host.cancel` sends."""

    NO_OPERATION = 0x00
    INVITE = 0x01
    OUTPUT_ONLY = 0x02
    PUT_GET = 0x03
    SAVE_SCREEN = 0x04
    RESTORE_SCREEN = 0x05
    READ_IMMEDIATE = 0x06
    READ_SCREEN = 0x08
    CANCEL_INVITE = 0x0A
    MESSAGE_LIGHT_ON = 0x0B
    MESSAGE_LIGHT_OFF = 0x0C


class Read(IntEnum):
    """The read that waits for a key."""

    NONE = 0
    INPUT_FIELDS = 1
    MDT_FIELDS = 2
    MDT_FIELDS_ALTERNATE = 3


TERMINALS = ("IBM-5251-11", "IBM-5291-1", "IBM-5292-2", "IBM-3196-A1", "IBM-3179-2")
"""The terminal types (RFC 1205, section 2), in the order of their numbers, from 1."""

CODE_PAGES = (37, 273, 277, 278, 280, 284, 285, 297, 500, 871, *range(1140, 1150))
"""The code pages of a station, by their numbers."""

CHARACTER, INSERTED_CHARACTER, AID = 1, 2, 15
"""Kinds of key that take a value: a character, or the byte of an attention key."""


class Key(Enum):
    """A key that is no character: its kind and its value in the library (SC30-3533, keyboard functions, AID codes).

    `PAGE_DOWN` is `ROLL_UP` and `PAGE_UP` is `ROLL_DOWN`: the keys of a PC for them.
    """

    LEFT = (3, 0)
    RIGHT = (4, 0)
    UP = (5, 0)
    DOWN = (6, 0)
    HOME = (7, 0)
    TAB = (8, 0)
    BACK_TAB = (9, 0)
    FIELD_EXIT = (10, 0)
    FIELD_MINUS = (11, 0)
    DUP = (12, 0)
    DELETE = (13, 0)
    ERASE_INPUT = (14, 0)
    ATTENTION = (16, 0)
    SYSTEM_REQUEST = (17, 0)
    RESET = (18, 0)
    F1 = (AID, 0x31)
    F2 = (AID, 0x32)
    F3 = (AID, 0x33)
    F4 = (AID, 0x34)
    F5 = (AID, 0x35)
    F6 = (AID, 0x36)
    F7 = (AID, 0x37)
    F8 = (AID, 0x38)
    F9 = (AID, 0x39)
    F10 = (AID, 0x3A)
    F11 = (AID, 0x3B)
    F12 = (AID, 0x3C)
    F13 = (AID, 0xB1)
    F14 = (AID, 0xB2)
    F15 = (AID, 0xB3)
    F16 = (AID, 0xB4)
    F17 = (AID, 0xB5)
    F18 = (AID, 0xB6)
    F19 = (AID, 0xB7)
    F20 = (AID, 0xB8)
    F21 = (AID, 0xB9)
    F22 = (AID, 0xBA)
    F23 = (AID, 0xBB)
    F24 = (AID, 0xBC)
    CLEAR = (AID, 0xBD)
    ENTER = (AID, 0xF1)
    HELP = (AID, 0xF3)
    ROLL_DOWN = (AID, 0xF4)
    ROLL_UP = (AID, 0xF5)
    PRINT = (AID, 0xF6)
    RECORD_BACKSPACE = (AID, 0xF8)
    PAGE_UP = (AID, 0xF4)
    PAGE_DOWN = (AID, 0xF5)

    @property
    def sends(self) -> bool:
        """Whether it is sent to the host, in whatever field it is pressed."""
        return self.value[0] in (AID, Key.ATTENTION.value[0], Key.SYSTEM_REQUEST.value[0])

    @staticmethod
    def named(name: str) -> Key:
        """The key of a name, in any case and with or without blanks, hyphens and underscores: `Enter`, `page down`.

        `ValueError` where no key has it.
        """
        key = _BY_NAME.get(_bare(name))
        if key is None:
            names = ", ".join(Key.__members__)
            raise ValueError(f"no key is {name!r}; a character is typed by type(); the keys are {names}")
        return key


def _bare(name: str) -> str:
    return "".join(filter(str.isalnum, name)).upper()


_BY_NAME = {_bare(name): key for name, key in Key.__members__.items()}
