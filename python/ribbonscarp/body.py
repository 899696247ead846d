"""Bodies of records, element by element (SC30-3533, commands and orders), as the library spells them."""
from __future__ import annotations

import ctypes
from typing import Any

from .codes import Read, Status
from .handle import check, front
from .library import BodyTold, library

INPUT = 0x4000
"""The format word of an input field that takes all characters."""

_QUERY, _SAVE, _ERROR = bytes.fromhex("04F30005D97000"), bytes.fromhex("0402"), bytes.fromhex("0421")
_READ_SCREEN, _READ_IMMEDIATE = bytes.fromhex("0462"), bytes.fromhex("0472")


class Body:
    """The body of a record in the making. Each call appends an element and gives the body, so that calls can be chained;
    `bytes` of it is what is sent.

    Rows count from 1 to 24, columns from 1 to 80. `ValueError` where the library doesn't spell the element: at a cell off
    the screen, an attribute other than 20 to 3F, a character that code page 037 lacks; nothing is then appended.
    """

    def __init__(self) -> None:
        self._spelled = b""

    def __bytes__(self) -> bytes:
        return self._spelled

    def __repr__(self) -> str:
        return f"<Body {self._spelled.hex(' ').upper()}>"

    def __eq__(self, other: object) -> bool:
        return isinstance(other, (Body, bytes)) and bytes(self) == bytes(other)

    __hash__ = None  # type: ignore[assignment]  # It changes.

    def clear(self) -> Body:
        """Clear Unit: an empty screen, no fields, a locked keyboard."""
        return self._spell("clear_unit")

    def clear_format(self) -> Body:
        """Clear Format Table: no fields."""
        return self._spell("clear_format")

    def write(self, first: int = 0x00, second: int = 0x08) -> Body:
        """Write to Display, with its two control characters; bit 08 of the second unlocks the keyboard, 04 sounds the
        alarm."""
        return self._spell("write", _byte(first), _byte(second))

    def read(self, read: Read = Read.MDT_FIELDS, first: int = 0x00, second: int = 0x00) -> Body:
        """A read of fields, with its two control characters."""
        return self._spell("read", read, _byte(first), _byte(second))

    def header(self, data: bytes) -> Body:
        """Start of Header, with at most 7 bytes, of which the third is 00."""
        return self._spell("header", bytes(data), len(data))

    def address(self, row: int, column: int) -> Body:
        """Set Buffer Address: what follows is written from a cell on."""
        return self._spell("address", *_cell(row, column))

    def cursor(self, row: int, column: int) -> Body:
        """Insert Cursor: where the cursor goes once the keyboard is unlocked."""
        return self._spell("insert_cursor", *_cell(row, column))

    def move_cursor(self, row: int, column: int) -> Body:
        """Move Cursor: where the cursor goes at once."""
        return self._spell("move_cursor", *_cell(row, column))

    def repeat(self, row: int, column: int, character: str | int) -> Body:
        """Repeat to Address: the cells from the address up to this one get a character, or a byte."""
        byte = character if isinstance(character, int) else bytes(Body().more(character))[0]
        return self._spell("repeat", *_cell(row, column), _byte(byte))

    def erase(self, row: int, column: int) -> Body:
        """Erase to Address: the cells from the address up to this one become empty."""
        return self._spell("erase", *_cell(row, column))

    def attribute(self, attribute: int) -> Body:
        """An attribute, 20 to 3F, in the next cell: what looks so begins after it."""
        return self._spell("attribute", _byte(attribute))

    def text(self, row: int, column: int, text: str, attribute: int | None = None) -> Body:
        """A text from a cell on. With an attribute, 20 to 3F, the cell before the text gets it, and the one after 20."""
        if attribute is None:
            return self._add(Body().address(row, column).more(text))
        return self._add(_before(row, column).attribute(attribute).more(text).attribute(0x20))

    def more(self, text: str) -> Body:
        """A text from the next cell on."""
        spelled = text.encode("utf-8", "surrogatepass")
        return self._spell("text", spelled, len(spelled))

    def field(
        self, row: int, column: int, length: int, *, ffw: int = INPUT, attribute: int = 0x24, text: str = ""
    ) -> Body:
        """An input field of so many cells from a cell on: its format word (FFW), the attribute that the cell before it
        gets, and what it holds."""
        if len(text) > length:
            raise ValueError(f"a field of {length} cells doesn't hold {text!r}")
        start = _before(row, column)._spell("field", _word(ffw), _byte(attribute), _word(length))
        return self._add(start.more(text))

    def output(self, row: int, column: int, length: int, *, attribute: int = 0x20) -> Body:
        """An output field of so many cells from a cell on, and the attribute that the cell before it gets."""
        return self._add(_before(row, column)._spell("output_field", _byte(attribute), _word(length)))

    def data(self, data: bytes) -> Body:
        """Bytes as they are, which may spell elements too."""
        return self._spell("bytes", bytes(data), len(data))

    def query(self) -> Body:
        """Write Structured Field, with a 5250 Query: what the station is. For a host with `any=True`, as what follows."""
        return self.data(_QUERY)

    def save_screen(self) -> Body:
        """Save Screen: the station sends what brings its screen back, as the body of a record."""
        return self.data(_SAVE)

    def read_screen(self) -> Body:
        """Read Screen: the station sends what its cells hold."""
        return self.data(_READ_SCREEN)

    def read_immediate(self) -> Body:
        """Read Immediate: the station sends its fields, without a key."""
        return self.data(_READ_IMMEDIATE)

    def write_error(self, text: str) -> Body:
        """Write Error Code: an error on the station's error row, until Reset."""
        return self._add(Body().data(_ERROR).more(text))

    def _add(self, part: Body) -> Body:
        self._spelled += part._spelled
        return self

    def _spell(self, name: str, *arguments: Any) -> Body:
        """Appends what a call of the library spells: no more bytes than ten and those of a text."""
        room = 10 + sum(len(argument) for argument in arguments if isinstance(argument, bytes))
        buffer, told = ctypes.create_string_buffer(room), BodyTold()
        library().ribbon_body_begin(ctypes.byref(told), buffer, room)
        status = getattr(library(), f"ribbon_body_{name}")(ctypes.byref(told), *arguments)
        if status == Status.BAD_ARGUMENT:
            shown = ", ".join(argument.decode("utf-8", "replace") if isinstance(argument, bytes) else f"{argument:X}"
                              for argument in arguments)
            raise ValueError(f"no {name.replace('_', ' ')} is spelled of {shown}")
        check(status)
        self._spelled += front(buffer, told.size)
        return self


def _before(row: int, column: int) -> Body:
    """The address of the cell before one, which has to be there."""
    _cell(row, column)
    if (row, column) == (1, 1):
        raise ValueError("row 1, column 1 has no cell before it for an attribute")
    return Body().address(row, column - 1) if column > 1 else Body().address(row - 1, 80)


def _byte(number: int) -> int:
    if not 0 <= number <= 0xFF:
        raise ValueError(f"{number:X} is no byte")
    return number


def _word(number: int) -> int:
    if not 0 <= number <= 0xFFFF:
        raise ValueError(f"{number:X} is no word of two bytes")
    return number


def _cell(row: int, column: int) -> tuple[int, int]:
    if not (1 <= row <= 24 and 1 <= column <= 80):
        raise ValueError(f"no cell is at row {row}, column {column}")
    return row, column
