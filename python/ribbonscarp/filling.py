"""The keys that fill a field, and what a field takes."""
from __future__ import annotations

from collections.abc import Iterator

from .codes import Key, KeyRefusal
from .errors import TextTooLong
from .fields import Field, Shift
from .library import has_byte

_DIGITS = "0123456789"
_TAKEN = {
    Shift.ALPHABETIC_ONLY: frozenset("ABCDEFGHIJKLMNOPQRSTUVWXYZabcdefghijklmnopqrstuvwxyz,.- "),
    Shift.NUMERIC_ONLY: frozenset(_DIGITS + ",.+- "),
    Shift.DIGITS_ONLY: frozenset(_DIGITS),
    Shift.SIGNED_NUMERIC: frozenset(_DIGITS),
}
"""The characters of the fields that don't take all (SC30-3533, Start of Field order)."""


def takes(shift: Shift, character: str, page: int = 37) -> bool:
    """Whether a field takes a character: one of the code page that its shift allows."""
    return has_byte(page, character) and (shift not in _TAKEN or character in _TAKEN[shift])


def is_negative(field: Field, text: str) -> bool:
    """Whether a text has a minus, before or after its digits, that Field Minus enters."""
    return field.shift is Shift.SIGNED_NUMERIC and "-" in (text[:1], text[-1:])


def typed_of(field: Field, text: str) -> str:
    """What of a text is typed into a field: all but the minus of a signed one. `TextTooLong` where it has no room."""
    typed = text
    if is_negative(field, text):
        typed = text.removeprefix("-") if text[:1] == "-" else text.removesuffix("-")
    if len(typed) > room_of(field):
        given = f"{len(typed)}" if field.is_hidden else f"the {len(typed)} of {text!r}"
        raise TextTooLong(f"field {field.number} takes {room_of(field)} characters, and not {given}")
    return typed


def room_of(field: Field) -> int:
    """How many characters can be typed into a field; the last cell of a signed one holds the sign."""
    return field.length - 1 if field.shift is Shift.SIGNED_NUMERIC else field.length


def refusal_of(field: Field, typed: str, page: int = 37) -> tuple[KeyRefusal, int] | None:
    """Why a field doesn't take characters of a code page, and at which of them; `None` where it takes all."""
    if field.is_bypass:
        return KeyRefusal.PROTECTED, 0
    wrong = (at for at, character in enumerate(typed) if not takes(field.shift, character, page))
    return next(((KeyRefusal.WRONG_CHARACTER, at) for at in wrong), None)


def moves(start: tuple[int, int], end: tuple[int, int]) -> Iterator[Key]:
    """The cursor keys from one cell to another."""
    down, right = end[0] - start[0], end[1] - start[1]
    yield from [Key.DOWN if down > 0 else Key.UP] * abs(down)
    yield from [Key.RIGHT if right > 0 else Key.LEFT] * abs(right)


def keys_to_fill(field: Field, cursor: tuple[int, int], text: str) -> list[Key | str]:
    """The keys that put a text into a field in place of what it held: cursor keys to its first cell, Delete until it is
    empty, and the characters.

    Where the field moves its characters to its end, or is signed, Field Exit follows; Field Minus in a signed field
    where a minus stands before or after the digits. `TextTooLong` where the field has no room.
    """
    typed = typed_of(field, text)
    first = (field.row, field.column)
    keys: list[Key | str] = [*moves(cursor, first)]
    is_signed = field.shift is Shift.SIGNED_NUMERIC
    if is_signed and field.content[-1:] not in (b"", b"\0"):
        # Delete moves the digits alone; the sign goes by a Delete in its own cell.
        last = field.last
        keys += [*moves(first, last), Key.DELETE, *moves(last, first)]
    keys += [Key.DELETE] * len(field.content[: room_of(field)].rstrip(b"\0"))
    keys += typed
    if typed and is_signed:
        keys.append(Key.FIELD_MINUS if is_negative(field, text) else Key.FIELD_EXIT)
    elif typed and field.is_right_adjusted and len(typed) < field.length:
        keys.append(Key.FIELD_EXIT)
    return keys
