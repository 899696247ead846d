"""A station of a live session, and what is waited for at it."""
from __future__ import annotations

import re
import time
from collections.abc import Callable
from typing import TypeAlias

from .end import End, Goal
from .errors import ConnectionEnded, RecordRefused
from .library import COLUMNS, ROWS, reason_text
from .screen import Screen
from .station import Station

Sought: TypeAlias = str | re.Pattern[str] | Callable[[Screen], bool]
"""What a screen may be waited for to show: a text in a row, a match of a regular expression in a row, or what a function
of the screen says."""


class StationEnd(End):
    """A station, and what its host has sent."""

    name, other = "station", "host"

    def __init__(self, station: Station, raises_refusals: bool = False) -> None:
        super().__init__()
        self.station = station
        self._raises_refusals = raises_refusals
        self._seen_refusals = len(station.refused_records)

    def push(self, data: bytes) -> bytes:
        return self.station.push(data)

    def check(self) -> None:
        """`RecordRefused` at a refused record that wasn't told yet, where that is asked for."""
        refusals = self.station.refused_records[self._seen_refusals :] if self._raises_refusals else []
        if refusals:
            self._seen_refusals += 1
            reason, place = refusals[0]
            raise RecordRefused(reason, place, reason_text(reason), self.screen)

    def check_line(self) -> None:
        """`ConnectionEnded` where the host has closed. The system would still take a key's bytes, and nobody have them."""
        if self.has_closed:
            raise ConnectionEnded("the host takes no key any more", self.screen)

    @property
    def screen(self) -> Screen:
        return self.station.screen

    def unlocked(self) -> Goal[Screen]:
        """An unlocked keyboard, or an error of the host's."""

        def find() -> Screen | None:
            state = self.station.state
            return None if state.is_locked and state.error_row is None else self.screen

        return Goal("an unlocked keyboard", find)

    def record(self) -> Goal[Screen]:
        """One record more."""
        before = self.station.state.records
        return Goal("a record", lambda: self.screen if self.station.state.records > before else None)

    def text(self, text: str | re.Pattern[str], at: tuple[int, int] | None) -> Goal[Screen]:
        """A text or a match in a row, or at a row and a column. `TypeError` where it is neither, `ValueError` where the
        screen has no such cell."""
        if not isinstance(text, (str, re.Pattern)):
            raise TypeError(f"text={text!r} is no text and no compiled regular expression")
        if at is not None and not (1 <= at[0] <= ROWS and 1 <= at[1] <= COLUMNS):
            raise ValueError(f"at={at} is no row and column of the screen")

        def is_shown(screen: Screen) -> bool:
            if at is None:
                return text in screen
            if isinstance(text, str):
                return screen.text_at(*at, len(text)) == text
            return text.match(screen.rows[at[0] - 1], at[1] - 1) is not None

        where = "" if at is None else f" at row {at[0]}, column {at[1]}"
        return self.screen_that(is_shown, f"{_name(text)}{where}")

    def screen_that(self, fits: Callable[[Screen], bool], what: str) -> Goal[Screen]:
        """A screen of which a function is true."""

        def find() -> Screen | None:
            screen = self.screen
            return screen if fits(screen) else None

        return Goal(what, find)

    def any_of(self, sought: tuple[Sought, ...]) -> Goal[Sought]:
        """The first of several. `ValueError` where there are none, `TypeError` where one can't be waited for."""
        if not sought:
            raise ValueError("there is nothing to wait for")

        def find() -> Sought | None:
            screen = self.screen
            return next((one for one in sought if _is_shown(one, screen)), None)

        return Goal(" or ".join(map(_name, sought)), find)

    def quiet(self, seconds: float) -> Goal[Screen]:
        """That nothing has come for so many seconds, from now on."""
        begun = time.monotonic()

        def due() -> float:
            return max(begun, self.heard_at) + seconds

        def find() -> Screen | None:
            return self.screen if not self.waiting and time.monotonic() >= due() else None

        return Goal(f"quiet of {seconds:g} seconds", find, due)


def _name(sought: Sought) -> str:
    if isinstance(sought, str):
        return f"the text {sought!r}"
    if isinstance(sought, re.Pattern):
        return f"a match of {sought.pattern!r}"
    if not callable(sought):
        raise TypeError(f"sought={sought!r} is no text, no compiled regular expression and no function of the screen")
    return "the screen"


def _is_shown(sought: Sought, screen: Screen) -> bool:
    return sought(screen) if callable(sought) else sought in screen
