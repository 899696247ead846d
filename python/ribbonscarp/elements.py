"""What an element of a body is, by the bytes that spell it: its name, as `t5250 show` prints it, and its operands
(SC30-3533, commands and orders)."""
from __future__ import annotations

from typing import TypeAlias

Operands: TypeAlias = dict[str, "int | bytes | tuple[int, ...] | None"]
"""Operands by their names. Rows and columns count from 1."""

_ESCAPE = 0x04

_COMMANDS = {
    0x02: "SAVE-SCREEN",
    0x11: "WRITE",
    0x12: "RESTORE-SCREEN",
    0x21: "WRITE-ERROR",
    0x23: "ROLL",
    0x40: "CLEAR-UNIT",
    0x42: "READ-INPUT",
    0x50: "CLEAR-FORMAT",
    0x52: "READ-MDT",
    0x62: "READ-SCREEN",
    0x72: "READ-IMMEDIATE",
    0x82: "READ-MDT-ALTERNATE",
    0x83: "READ-IMMEDIATE-ALTERNATE",
    0xF3: "QUERY",
}

_ORDERS = {0x01: "SOH", 0x02: "RA", 0x03: "EA", 0x11: "SBA", 0x13: "IC", 0x14: "MC", 0x1D: "SF"}

_CONTROLLED = ("WRITE", "READ-INPUT", "READ-MDT", "READ-MDT-ALTERNATE")


def name_of(spelling: bytes) -> str:
    """The name of the element that the bytes spell."""
    return _COMMANDS[spelling[1]] if spelling[0] == _ESCAPE else _ORDERS[spelling[0]]


def operands_of(spelling: bytes) -> Operands:
    """The operands of the element that the bytes spell; none of a command that is two bytes long or a query."""
    name = name_of(spelling)
    if name in _CONTROLLED:
        return {"cc1": spelling[2], "cc2": spelling[3]}
    if name == "ROLL":
        return {"control": spelling[2], "top": spelling[3], "bottom": spelling[4]}
    if spelling[0] == _ESCAPE:
        return {}
    if name == "SOH":
        return {"header": spelling[2:]}
    if name == "SF":
        return _field(spelling)
    cell: Operands = {"row": spelling[1], "column": spelling[2]}
    if name == "RA":
        cell["byte"] = spelling[3]
    if name == "EA":
        cell["kinds"] = spelling[4:]
    return cell


def _field(spelling: bytes) -> Operands:
    """Words stand before the attribute, which is 20 to 3F: the format word and control words; after it the length."""
    words = [int.from_bytes(spelling[at : at + 2], "big") for at in range(1, len(spelling) - 3, 2)]
    return {
        "ffw": words[0] if words else None,
        "fcws": tuple(words[1:]),
        "attribute": spelling[-3],
        "length": int.from_bytes(spelling[-2:], "big"),
    }
