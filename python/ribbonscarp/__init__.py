"""A 5250 display station, a host's end and a decoder (RFC 1205, RFC 4777), over the shared library of Ribbonscarp.

`connect` gives a live session at a host, `listen` takes stations that connect. Beneath them `Station`, `Host` and
`Decoder` take bytes and give bytes, without any socket. docs/DRIVING.md has whole programs.
"""
from .any_host import AnyHost
from .body import Body
from .cells import Cell, Color, Style
from .codes import CODE_PAGES, TERMINALS, Key, KeyRefusal, Opcode, Read, Reason, Status
from .decoder import Cells, Command, Decoder, Element, Header, RecordEnd, Step
from .errors import (
    ConnectionEnded,
    FieldNotFound,
    KeyRefused,
    LibraryNotFound,
    RecordRefused,
    Refused,
    RibbonscarpError,
    SendRefused,
    StatusError,
    TextTooLong,
    Truncated,
    WaitedTooLong,
)
from .fields import Field, Shift, Which
from .filling import keys_to_fill
from .host import Answer, AnswerField, Event, EventKind, Heard, Host
from .host_session import HostSession, Listener, listen
from .records import Record
from .recording import Piece, Recording
from .screen import Screen, State
from .session import Session, connect
from .station import RefusedRecord, Station
from .station_end import Sought
from .version import __version__

__all__ = [
    "CODE_PAGES",
    "TERMINALS",
    "Answer",
    "AnswerField",
    "AnyHost",
    "Body",
    "Cell",
    "Cells",
    "Color",
    "Command",
    "ConnectionEnded",
    "Decoder",
    "Element",
    "Event",
    "EventKind",
    "Field",
    "FieldNotFound",
    "Header",
    "Heard",
    "Host",
    "HostSession",
    "Key",
    "KeyRefusal",
    "KeyRefused",
    "LibraryNotFound",
    "Listener",
    "Opcode",
    "Piece",
    "Read",
    "Reason",
    "Record",
    "RecordEnd",
    "RecordRefused",
    "Recording",
    "Refused",
    "RefusedRecord",
    "RibbonscarpError",
    "Screen",
    "SendRefused",
    "Session",
    "Shift",
    "Sought",
    "State",
    "Station",
    "Status",
    "StatusError",
    "Step",
    "Style",
    "TextTooLong",
    "Truncated",
    "WaitedTooLong",
    "Which",
    "__version__",
    "connect",
    "keys_to_fill",
    "listen",
]
