"""A screen as it stood at one moment: rows of text, cells with their colours, and fields.

Rows count from 1 to 24 and columns from 1 to 80, as on the display; fields count from 1, in the order of their starts.
"""
from __future__ import annotations

import re
import struct
import sys
from collections.abc import Iterator
from dataclasses import dataclass
from functools import cached_property
from typing import Any

from .cells import Cell, is_hiding
from .codes import Read
from .fields import Field, Which, find_field, label_of, without_leaders
from .library import CELLS, COLUMNS, NO_FIELD, ROWS
from .markup import html_of

_UTF_32 = {"little": "utf-32-le", "big": "utf-32-be"}[sys.byteorder]


@dataclass(frozen=True)
class State:
    """What of a station is no cell and no field."""

    cursor: tuple[int, int]
    is_ready: bool
    is_locked: bool
    is_message_lit: bool
    is_blinking: bool
    pending_read: Read
    records: int
    field_count: int
    error_row: int | None = None
    """The row on which an error of the host's stands, until Reset."""
    alarms: int = 0
    """How many alarms the host has sounded since the station was made."""
    is_full: bool = False
    """The field that holds the cursor takes no further character before a key such as Field Exit leaves it."""


class Screen:
    """A screen as it stood when it was asked for."""

    def __init__(self, state: State, cells: bytes, fields: list[tuple[int, int, int, int]]) -> None:
        self.state = state
        self._cells = cells
        self._fields = fields

    @property
    def cursor(self) -> tuple[int, int]:
        """Row and column of the cursor."""
        return self.state.cursor

    @property
    def is_locked(self) -> bool:
        """Whether the keyboard is locked."""
        return self.state.is_locked

    @cached_property
    def rows(self) -> tuple[str, ...]:
        """The 24 rows as text, of 80 characters each; row 1 comes first."""
        return tuple(self._shown[at : at + COLUMNS] for at in range(0, len(self._shown), COLUMNS))

    @cached_property
    def cells(self) -> tuple[tuple[Cell, ...], ...]:
        """The cells, row by row."""
        every = [
            Cell(chr(character), byte, attribute, None if field == NO_FIELD else field + 1)
            for character, field, byte, attribute in self._told()
        ]
        return tuple(tuple(every[at : at + COLUMNS]) for at in range(0, len(every), COLUMNS))

    @cached_property
    def fields(self) -> tuple[Field, ...]:
        """The input fields, by their starts."""
        return tuple(self._make_field(at + 1, *told) for at, told in enumerate(self._fields))

    def row(self, number: int) -> str:
        """A row as text, without blanks at its end."""
        _within(number, ROWS, "row")
        return self.rows[number - 1].rstrip(" ")

    def cell(self, row: int, column: int) -> Cell:
        """The cell at a row and a column."""
        _within(row, ROWS, "row")
        _within(column, COLUMNS, "column")
        return self.cells[row - 1][column - 1]

    def text_at(self, row: int, column: int, length: int) -> str:
        """What so many cells show from one on, over the ends of rows."""
        _within(row, ROWS, "row")
        _within(column, COLUMNS, "column")
        place = (row - 1) * COLUMNS + column - 1
        return self._shown[place : place + length]

    def find(self, text: str) -> tuple[int, int] | None:
        """Row and column where a row shows the text first; `None` where none does."""
        for number, row in enumerate(self.rows, 1):
            at = row.find(text)
            if at >= 0:
                return number, at + 1
        return None

    def search(self, pattern: str | re.Pattern[str]) -> re.Match[str] | None:
        """The first match of a regular expression in a row; `None` where no row has one."""
        return next(filter(None, (re.search(pattern, row) for row in self.rows)), None)

    def __contains__(self, text: object) -> bool:
        """Whether a row shows a text, or has a match of a compiled regular expression."""
        if isinstance(text, re.Pattern):
            return self.search(text) is not None
        return isinstance(text, str) and self.find(text) is not None

    def __eq__(self, other: object) -> bool:
        """Whether the same is seen: cells, fields, cursor, lock, lights and a host's error."""
        return isinstance(other, Screen) and self._seen() == other._seen()

    def __hash__(self) -> int:
        return hash(self._seen())

    def __str__(self) -> str:
        """Its rows that aren't blank, as `t5250` prints them."""
        shown = [f"{number:2} {row.rstrip(' ')}" for number, row in enumerate(self.rows, 1)]
        return "\n".join(line for line in shown if line[3:])

    def __repr__(self) -> str:
        """The screen, in angle brackets: where the cursor stands, the keyboard, and the rows that aren't blank."""
        row, column = self.cursor
        lock = "locked" if self.is_locked else "unlocked"
        return f"<Screen: cursor {row} {column}, {lock}, {len(self._fields)} fields\n{self}>"

    def to_dict(self) -> dict[str, Any]:
        """What is seen, for JSON: the 24 rows, the cursor, the lock, the message light, a host's error, the fields."""
        state = self.state
        seen: dict[str, Any] = {"rows": list(self.rows), "cursor": list(state.cursor), "locked": state.is_locked}
        seen |= {"message": state.is_message_lit, "error_row": state.error_row}
        return seen | {"fields": [field.to_dict() for field in self.fields]}

    def to_html(self) -> str:
        """A `pre` element that shows the screen in its colours, with the cursor's cell in a box."""
        return html_of(self.cells, self.cursor)

    def field(self, which: Which) -> Field:
        """A field by its number, by the label before it, or by the row and column of one of its cells.

        A label is what stands before a field on its row, after the field before it; where that is nothing but blanks,
        dots, colons, dashes and arrows, also what stands on the row above, if no field does. It is compared as it stands,
        and then without those. Where no field has it, those are taken whose label ends with it, and else those in whose
        label it stands. Case doesn't count. `FieldNotFound` where there is none, or more than one: it names them.
        """
        return find_field(self.fields, which)

    @cached_property
    def _shown(self) -> str:
        """What all cells show, in screen order: the first four bytes of each are its character."""
        characters = bytearray(4 * CELLS)
        for byte in range(4):
            characters[byte::4] = self._cells[byte::8]
        return characters.decode(_UTF_32)

    @cached_property
    def _rows_with_fields(self) -> frozenset[int]:
        rows: set[int] = set()
        for row, column, length, _ in self._fields:
            rows.update(range(row, row + (column - 1 + length - 1) // COLUMNS + 1))
        return frozenset(rows)

    def _seen(self) -> tuple[Any, ...]:
        state = self.state
        lights = state.is_locked, state.is_message_lit, state.is_blinking, state.error_row
        return self._cells, tuple(self._fields), state.cursor, lights

    def _told(self) -> Iterator[tuple[Any, ...]]:
        """Of each cell its character, field, byte and attribute, as `ribbon_cell` has them."""
        return struct.iter_unpack("=IHBB", self._cells)

    def _make_field(self, number: int, row: int, column: int, length: int, format: int) -> Field:
        place = (row - 1) * COLUMNS + column - 1
        text = self._shown[place : place + length].rstrip(" ")
        content = self._cells[6 + 8 * place : 8 * (place + length) : 8]
        before = self._before(number, row, column).strip(" ")
        captions = before, "" if without_leaders(before) else self._above(row).strip(" ")
        is_hidden = is_hiding(self._cells[8 * place + 7])
        return Field(number, row, column, length, format, content, text, label_of(captions), captions, is_hidden)

    def _before(self, number: int, row: int, column: int) -> str:
        """What the field's row shows before it, after the field before it."""
        start = 0
        if number > 1:
            other_row, other_column, length, _ = self._fields[number - 2]
            after = (other_row - 1) * COLUMNS + other_column - 1 + length - (row - 1) * COLUMNS
            start = max(after, 0)
        return self.rows[row - 1][start : column - 1]

    def _above(self, row: int) -> str:
        """What the row above shows, where no field stands in it."""
        return self.rows[row - 2] if row > 1 and row - 1 not in self._rows_with_fields else ""


def _within(number: int, most: int, what: str) -> None:
    if not 1 <= number <= most:
        raise ValueError(f"{what} {number} isn't 1 to {most}")
