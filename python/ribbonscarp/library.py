"""The shared library: where it is found, its structures, and its calls with their types.

Everything here is by `ribbonscarp.h`, which says what each call does. The structures are compared with the library's
own sizes when it is loaded, so that one of another version isn't used by mistake.
"""
from __future__ import annotations

import ctypes
import functools
import os
import pathlib
from ctypes import POINTER, Structure, c_bool, c_char_p, c_size_t, c_uint8, c_uint16, c_uint32, c_uint64, c_void_p
from typing import Any

from .errors import LibraryNotFound
from .version import __version__

VARIABLE = "RIBBONSCARP_LIBRARY"
"""The environment variable that names the library's file."""

MAJOR = int(__version__.split(".")[0])
"""The library's version must begin with this number."""

ROWS, COLUMNS = 24, 80
CELLS = ROWS * COLUMNS

# How many bytes a buffer needs (`RIBBON_.._ROOM`).
REPLY_ROOM, ANSWER_ROOM, UNIT_ROOM, CANCEL_ROOM = 17, 5404, 133, 12

PUSH_ROOM = 1024
"""How many bytes of what a station writes are taken at a time; any number from `REPLY_ROOM` on does."""

NO_FIELD = 0xFFFF


class Handle(Structure):
    """`ribbon_handle`; a `ribbon_host` and a `ribbon_decoder` are nothing else."""

    _fields_ = [("at", c_void_p), ("is_open", c_bool)]


class StationHandle(Structure):
    """`ribbon_station`."""

    _fields_ = [("handle", Handle), ("seen", c_uint8 * (CELLS * 2))]


class Told(Structure):
    """`ribbon_told`."""

    _fields_ = [("length", c_size_t), ("place", c_uint64), ("reason", c_uint8)]


class Pushed(Structure):
    """`ribbon_pushed`."""

    _fields_ = [("taken", c_size_t), ("replied", c_size_t), ("place", c_uint64), ("reason", c_uint8)]


class StepTold(Structure):
    """`ribbon_step`."""

    _fields_ = [
        ("taken", c_size_t),
        ("length", c_size_t),
        ("cells", c_size_t),
        ("place", c_uint64),
        ("kind", c_uint32),
        ("flags", c_uint16),
        ("record_length", c_uint16),
        ("opcode", c_uint8),
        ("reason", c_uint8),
    ]


class EventTold(Structure):
    """`ribbon_event`."""

    _fields_ = [("kind", c_uint32), ("terminal", c_uint32)]


class AnswerTold(Structure):
    """`ribbon_answer`."""

    _fields_ = [("field_count", c_size_t), ("cursor_row", c_uint8), ("cursor_column", c_uint8), ("aid", c_uint8)]


class ReadFieldTold(Structure):
    """`ribbon_read_field`."""

    _fields_ = [("length", c_size_t), ("row", c_uint8), ("column", c_uint8)]


class StateTold(Structure):
    """`ribbon_state`."""

    _fields_ = [
        ("records", c_uint64),
        ("refused_place", c_uint64),
        ("alarms", c_uint64),
        ("refused_records", c_uint64),
        ("record_place", c_uint64),
        ("names_refused", c_uint64),
        ("field_count", c_uint16),
        ("cursor_field", c_uint16),
        ("cursor_row", c_uint8),
        ("cursor_column", c_uint8),
        ("pending_read", c_uint8),
        ("refused_reason", c_uint8),
        ("is_ready", c_bool),
        ("is_locked", c_bool),
        ("is_message_lit", c_bool),
        ("is_blinking", c_bool),
        ("error_row", c_uint8),
        ("record_reason", c_uint8),
        ("is_full", c_bool),
    ]


class Identity(Structure):
    """`ribbon_identity`."""

    _fields_ = [("device", c_char_p), ("keyboard", c_char_p), ("code_page", c_uint16)]


class CellTold(Structure):
    """`ribbon_cell`."""

    _fields_ = [("character", c_uint32), ("field", c_uint16), ("byte", c_uint8), ("attribute", c_uint8)]


class FieldTold(Structure):
    """`ribbon_field`."""

    _fields_ = [("row", c_uint8), ("column", c_uint8), ("length", c_uint16), ("format", c_uint16)]


class BodyTold(Structure):
    """`ribbon_body`."""

    _fields_ = [("bytes", c_void_p), ("room", c_size_t), ("size", c_size_t), ("status", c_uint32)]


STRUCTURES: dict[str, type[Structure]] = {
    "station": StationHandle,
    "host": Handle,
    "decoder": Handle,
    "told": Told,
    "pushed": Pushed,
    "step": StepTold,
    "event": EventTold,
    "answer": AnswerTold,
    "read_field": ReadFieldTold,
    "state": StateTold,
    "identity": Identity,
    "cell": CellTold,
    "field": FieldTold,
    "body": BodyTold,
}
"""Each structure by its name in C, without `ribbon_`."""

_STATION = POINTER(StationHandle)
_HANDLE = POINTER(Handle)
_BODY = POINTER(BodyTold)

# What each call that answers a status takes. Buffers are passed as they are, by their address.
_ARGUMENTS: dict[str, list[Any]] = {
    "station_new": [_STATION, c_char_p],
    "station_new_extended": [_STATION, c_char_p],
    "station_new_live": [_STATION, c_char_p, POINTER(Identity)],
    "station_push": [_STATION, c_void_p, c_size_t, c_void_p, c_size_t, POINTER(Pushed)],
    "station_key": [_STATION, c_uint32, c_uint32, c_void_p, c_size_t, POINTER(Told)],
    "station_missing": [_STATION, c_uint8, POINTER(c_uint16)],
    "station_state": [_STATION, POINTER(StateTold)],
    "station_cells": [_STATION, c_uint8, c_uint8, c_void_p, c_size_t],
    "station_changed": [_STATION, POINTER(c_uint32)],
    "station_move_cursor": [_STATION, c_uint8, c_uint8, POINTER(Told)],
    "station_new_line": [_STATION, POINTER(Told)],
    "station_erase_eof": [_STATION, POINTER(Told)],
    "station_field": [_STATION, c_size_t, POINTER(FieldTold)],
    "to_page": [c_uint16, c_uint32, POINTER(c_uint8)],
    "host_new": [_HANDLE, c_void_p, c_size_t, POINTER(Told)],
    "host_push": [_HANDLE, c_void_p, c_size_t, c_void_p, c_size_t, POINTER(Pushed), POINTER(EventTold)],
    "host_send": [_HANDLE, c_uint8, c_char_p, c_size_t, POINTER(Told)],
    "host_sent": [_HANDLE, c_void_p, c_size_t, POINTER(Told)],
    "host_cancel": [_HANDLE, c_void_p, c_size_t, POINTER(Told)],
    "host_answer": [_HANDLE, POINTER(AnswerTold)],
    "host_answer_field": [_HANDLE, c_size_t, c_void_p, c_size_t, POINTER(ReadFieldTold)],
    "decoder_new": [_HANDLE],
    "decoder_new_extended": [_HANDLE],
    "decoder_push": [_HANDLE, c_void_p, c_size_t, c_void_p, c_size_t, POINTER(StepTold)],
    "decoder_finish": [_HANDLE, POINTER(c_uint64)],
    "body_clear_unit": [_BODY],
    "body_clear_format": [_BODY],
    "body_write": [_BODY, c_uint8, c_uint8],
    "body_read": [_BODY, c_uint8, c_uint8, c_uint8],
    "body_header": [_BODY, c_char_p, c_size_t],
    "body_address": [_BODY, c_uint8, c_uint8],
    "body_insert_cursor": [_BODY, c_uint8, c_uint8],
    "body_move_cursor": [_BODY, c_uint8, c_uint8],
    "body_repeat": [_BODY, c_uint8, c_uint8, c_uint8],
    "body_erase": [_BODY, c_uint8, c_uint8],
    "body_field": [_BODY, c_uint16, c_uint8, c_uint16],
    "body_output_field": [_BODY, c_uint8, c_uint16],
    "body_attribute": [_BODY, c_uint8],
    "body_text": [_BODY, c_char_p, c_size_t],
    "body_bytes": [_BODY, c_char_p, c_size_t],
}


def _names() -> list[str]:
    """Where the library is looked for, in order: as it is named, beside this package, and installed."""
    named = os.environ.get(VARIABLE)
    if named:
        return [named]
    here = sorted(pathlib.Path(__file__).parent.glob("libribbonscarp.so*"))
    return [*map(str, here), f"libribbonscarp.so.{MAJOR}"]


def _declare(library: ctypes.CDLL) -> None:
    for name, arguments in _ARGUMENTS.items():
        call = getattr(library, f"ribbon_{name}")
        call.argtypes, call.restype = arguments, c_uint32
    for name in ("station", "host", "decoder"):
        call = getattr(library, f"ribbon_{name}_free")
        call.argtypes, call.restype = [_STATION if name == "station" else _HANDLE], None
    library.ribbon_body_begin.argtypes, library.ribbon_body_begin.restype = [_BODY, c_void_p, c_size_t], None
    library.ribbon_status_text.argtypes = [c_uint32]
    library.ribbon_reason_text.argtypes = library.ribbon_refusal_text.argtypes = [c_uint8]
    for name in ("status", "reason", "refusal"):
        getattr(library, f"ribbon_{name}_text").restype = c_char_p
    library.ribbon_reply_room.argtypes, library.ribbon_reply_room.restype = [c_size_t], c_size_t


def _fault(library: ctypes.CDLL) -> str | None:
    """What is wrong with a library that was loaded."""
    try:
        library.ribbon_version.restype = c_char_p
        version = str(library.ribbon_version().decode())
        if version.split(".")[0] != str(MAJOR):
            return f"is of version {version}, and not {MAJOR}"
        for name, structure in STRUCTURES.items():
            size = getattr(library, f"ribbon_{name}_size")
            size.restype = c_size_t
            if size() != ctypes.sizeof(structure):
                return f"has another ribbon_{name} (version {version})"
        _declare(library)
    except AttributeError as missing:
        return f"lacks a call: {missing}"
    return None


@functools.lru_cache(maxsize=None)
def library() -> Any:
    """The library, loaded when it is first asked for. `LibraryNotFound` tells where it was looked for, and why not."""
    faults = []
    for name in _names():
        try:
            loaded = ctypes.CDLL(name)
        except OSError as cause:
            faults.append(str(cause))
            continue
        fault = _fault(loaded)
        if fault is None:
            return loaded
        faults.append(f"{name} {fault}")
    raise LibraryNotFound(faults)


def has_byte(page: int, character: str) -> bool:
    """Whether a code page has a character."""
    return int(library().ribbon_to_page(page, ord(character), ctypes.byref(c_uint8()))) == 0


def status_text(status: int) -> str:
    """What a status means, in a sentence without its full stop."""
    return str(library().ribbon_status_text(status).decode())


def reason_text(reason: int) -> str:
    """What a reason means, in a sentence without its full stop that begins with the reason's number."""
    return str(library().ribbon_reason_text(reason).decode())


def refusal_text(refusal: int) -> str:
    """What a key's refusal means, in a sentence without its full stop."""
    return str(library().ribbon_refusal_text(refusal).decode())
