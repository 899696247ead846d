"""A cell of a screen, its colour and its style."""
from __future__ import annotations

from dataclasses import dataclass
from enum import Enum


class Color(Enum):
    """The colours of a colour display (IBM 3179-2)."""

    GREEN = "green"
    WHITE = "white"
    RED = "red"
    TURQUOISE = "turquoise"
    YELLOW = "yellow"
    PINK = "pink"
    BLUE = "blue"


# By the bits 18 of an attribute: the colour without the bit 02, and with it.
_COLORS = (
    (Color.GREEN, Color.WHITE),
    (Color.RED, Color.RED),
    (Color.TURQUOISE, Color.YELLOW),
    (Color.PINK, Color.BLUE),
)


def is_hiding(attribute: int) -> bool:
    """Whether nothing displays where an attribute, 20 to 3F, is in force."""
    return attribute & 0x07 == 0x07


@dataclass(frozen=True)
class Style:
    """What a colour display makes of an attribute."""

    color: Color
    is_reversed: bool = False
    is_underscored: bool = False
    is_blinking: bool = False
    has_column_separators: bool = False
    is_hidden: bool = False

    @staticmethod
    def of(attribute: int) -> Style:
        """The style of an attribute, 20 to 3F. What is hidden is a blank in green."""
        if is_hiding(attribute):
            return Style(Color.GREEN, is_hidden=True)
        group, has_bit_two = attribute >> 3 & 0x03, bool(attribute & 0x02)
        return Style(
            _COLORS[group][has_bit_two],
            is_reversed=bool(attribute & 0x01),
            is_underscored=bool(attribute & 0x04),
            is_blinking=group == 1 and has_bit_two,
            has_column_separators=group == 2 and not attribute & 0x04,
        )


@dataclass(frozen=True)
class Cell:
    """A cell: what it shows and holds, the attribute in force there, and the number of its field."""

    character: str
    byte: int
    attribute: int
    field: int | None

    def __repr__(self) -> str:
        """What it shows, and where it isn't hidden its byte."""
        byte = "" if self.style.is_hidden else f"byte={self.byte}, "
        return f"Cell(character={self.character!r}, {byte}attribute={self.attribute}, field={self.field})"

    @property
    def style(self) -> Style:
        """What a colour display makes of it."""
        return Style.of(self.attribute)

    @property
    def color(self) -> Color:
        """Its colour on a colour display."""
        return self.style.color

    @property
    def is_attribute(self) -> bool:
        """Whether it holds an attribute, and so shows a blank."""
        return 0x20 <= self.byte <= 0x3F
