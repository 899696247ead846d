"""Input fields of a screen, and how one is named.

Rows count from 1 to 24 and columns from 1 to 80, as on the display; fields count from 1, in the order of their starts.
"""
from __future__ import annotations

import operator
from collections.abc import Callable, Sequence
from dataclasses import dataclass
from enum import IntEnum
from typing import Any, TypeAlias

from .errors import FieldNotFound
from .library import COLUMNS

Which: TypeAlias = int | str | tuple[int, int]
"""How a field is named: by its number, by the label before it, or by the row and column of one of its cells."""


class Shift(IntEnum):
    """What a field takes (SC30-3533, Start of Field order)."""

    ALPHABETIC = 0
    ALPHABETIC_ONLY = 1
    NUMERIC = 2
    NUMERIC_ONLY = 3
    DIGITS_ONLY = 5
    SIGNED_NUMERIC = 7


@dataclass(frozen=True, repr=False)
class Field:
    """An input field: its first cell, its format word, what it held in the code page, and what is shown of that without
    the blanks at its end.

    `captions` is what its row shows before it and, where that is dots, colons, dashes and arrows alone, what the row above
    shows, without the blanks around; `label` is the first that is more than such leaders, without these.
    """

    number: int
    row: int
    column: int
    length: int
    format: int
    content: bytes
    text: str
    label: str
    captions: tuple[str, str] = ("", "")
    is_hidden: bool = False

    @property
    def last(self) -> tuple[int, int]:
        """Row and column of its last cell."""
        row, column = divmod((self.row - 1) * COLUMNS + self.column - 1 + self.length - 1, COLUMNS)
        return row + 1, column + 1

    @property
    def is_bypass(self) -> bool:
        """Keys don't enter it."""
        return bool(self.format & 0x2000)

    @property
    def is_modified(self) -> bool:
        """It was changed, and is sent (its modified data tag, MDT)."""
        return bool(self.format & 0x0800)

    @property
    def is_mandatory(self) -> bool:
        """It has to be changed before an attention key answers."""
        return bool(self.format & 0x0008)

    @property
    def shift(self) -> Shift:
        """What it takes."""
        return Shift(self.format >> 8 & 0x07)

    @property
    def is_right_adjusted(self) -> bool:
        """Field Exit moves its characters to its end."""
        return self.format & 0x07 in (0x05, 0x06)

    def covers(self, row: int, column: int) -> bool:
        """Whether a cell is one of its own."""
        place = (row - self.row) * COLUMNS + column - self.column
        return 0 <= place < self.length

    def to_dict(self) -> dict[str, Any]:
        """What is seen of it, for JSON; of a hidden one no content."""
        seen: dict[str, Any] = {"number": self.number, "row": self.row, "column": self.column, "length": self.length}
        seen |= {"label": self.label, "text": self.text, "hidden": self.is_hidden}
        return seen | {"protected": self.is_bypass, "modified": self.is_modified}

    def __repr__(self) -> str:
        """Its place, its label and what it shows; of a hidden one no content."""
        marks = {"hidden": self.is_hidden, "protected": self.is_bypass, "modified": self.is_modified}
        words = [f"Field {self.number} {self.label!r} at row {self.row}, column {self.column}", f"length {self.length}"]
        words += [f"format {self.format:04X}", *(mark for mark, is_so in marks.items() if is_so)]
        return f"<{', '.join(words)}: {self.text!r}>"


def without_leaders(text: str) -> str:
    """A caption without what only leads the eye from it to its field."""
    return text.strip(" .:=<>-")


def label_of(captions: tuple[str, str]) -> str:
    """The label that captions come to: as it stands, where none has anything but leaders."""
    return without_leaders(captions[0]) or without_leaders(captions[1]) or captions[0]


def find_field(fields: Sequence[Field], which: Which) -> Field:
    """A field by its number, by the label before it, or by the row and column of one of its cells.

    A label is looked for as it stands before a field, `===>`, in any case, and then without dots, colons, dashes and
    arrows, where something is left of it: as a whole label, as the end of one, as a part of one. `FieldNotFound` where
    there is none, or more than one: it names those that there are.
    """
    if isinstance(which, str):
        found = _by_label(fields, which)
    elif isinstance(which, tuple):
        found = [field for field in fields if field.covers(*which)]
    else:
        found = list(fields[which - 1 : which]) if which > 0 else []
    if len(found) != 1:
        many = "no field is" if not found else f"{len(found)} fields are"
        known = ", ".join(f"{field.number} {field.label!r} at {field.row} {field.column}" for field in found or fields)
        raise FieldNotFound(f"{many} {which!r}; there are: {known or 'none'}")
    return found[0]


def _by_label(fields: Sequence[Field], label: str) -> list[Field]:
    as_it_stands, bare = label.strip().casefold(), without_leaders(label).casefold()
    tries: tuple[Callable[[str, str], bool], ...] = (operator.eq, str.endswith, operator.contains)
    for wanted, given, fits in [
        (as_it_stands, _captions, operator.eq),
        *((bare, _labels, fits) for fits in tries),
        *(("" if bare else as_it_stands, _captions, fits) for fits in tries[1:]),
    ]:
        found = [field for field in fields if any(fits(text, wanted) for text in given(field))] if wanted else []
        if found:
            return found
    return []


def _captions(field: Field) -> tuple[str, ...]:
    return tuple(caption.casefold() for caption in field.captions)


def _labels(field: Field) -> tuple[str, ...]:
    return (field.label.casefold(),)
