"""A plugin of pytest: an assertion that a screen shows a text tells what it shows instead, row by row."""
from __future__ import annotations

from .screen import Screen


def pytest_assertrepr_compare(op: str, left: object, right: object) -> list[str] | None:
    """The lines of `assert TEXT in SCREEN` and `assert SCREEN == SCREEN`; `None` of any other assertion."""
    if op in ("in", "not in") and isinstance(right, Screen):
        return [f"{left!r} {op} the screen", *repr(right).splitlines()]
    if op == "==" and isinstance(left, Screen) and isinstance(right, Screen):
        return ["a screen == another screen", *repr(left).splitlines(), *repr(right).splitlines()]
    return None
