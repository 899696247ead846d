"""The streams of a host and of a station as lines, as `t5250 show --extended` prints them, of a station with `--answers`
(docs/PROFILE.md, "Printed lines"). Lines that begin with two blanks belong to the record before them."""
from __future__ import annotations

import itertools
from collections.abc import Iterable, Iterator

from .codes import AID, Key, Opcode, Reason
from .decoder import Cells, Command, Decoder, Element, Header, RecordEnd, Step
from .errors import Refused, Truncated
from .library import reason_text
from .records import HEADER, Record, Tokens, spell_record

_COMMANDS = {
    0xF1: "NOP",
    0xF2: "DM",
    0xF3: "BRK",
    0xF4: "IP",
    0xF5: "AO",
    0xF6: "AYT",
    0xF7: "EC",
    0xF8: "EL",
    0xF9: "GA",
    0xFA: "SB",
    0xFB: "WILL",
    0xFC: "WONT",
    0xFD: "DO",
    0xFE: "DONT",
}

_AIDS = {0, *(key.value[1] for key in Key if key.value[0] == AID)}
_ADDRESS = b"\x11"
_QUERY_REPLY = bytes.fromhex("0000 88")
_RESTORE, _CLEAR = b"\x04\x12", b"\x04\x40"
_CELLS = 1920

_LONGEST, _LONGEST_COMMAND = 0x20000, 0x2000
"""How many bytes of a record, and of a command, are kept before its end: more than the longest record has, each FF
twice."""

_WITHOUT_END = "unread from here: a record or a command without an end"

_FIRST_OF_RECORDS = 10
"""The first of the reasons that are about a record; those before it are about what is no Telnet."""


def command_line(spelling: bytes) -> str:
    """The line of a Telnet command, by its bytes, without its place."""
    name = _COMMANDS.get(spelling[1], f"{spelling[1]:02X}")
    if len(spelling) == 2:
        return f"telnet {name}"
    data = spelling[3:-2].replace(b"\xff\xff", b"\xff").hex().upper()
    return f"telnet {name} {spelling[2]:02d} {data}".rstrip() if spelling[1] == 0xFA else f"telnet {name} {spelling[2]}"


def element_line(element: Element) -> str:
    """The line of an element, without the blanks before it."""
    words = [element.name]
    for name, operand in element.operands.items():
        if isinstance(operand, bytes):
            words.append(operand.hex().upper())
        elif isinstance(operand, tuple):
            words += [f"{word:04X}" for word in operand]
        elif operand is not None:
            words.append(f"{operand:{_FORMS.get(name, 'd')}}")
    return " ".join(word for word in words if word)


_FORMS = {"cc1": "02X", "cc2": "02X", "byte": "02X", "ffw": "04X", "attribute": "02X"}


def body_lines(steps: Iterable[Step]) -> Iterator[str]:
    """The lines of what a body holds, each after two blanks: runs of cells that follow one another are one."""
    for is_run, run in itertools.groupby(steps, lambda step: isinstance(step, Cells)):
        if is_run:
            yield "  PUT " + b"".join(step.data for step in run if isinstance(step, Cells)).hex().upper()
        else:
            yield from ("  " + element_line(step) for step in run if isinstance(step, Element))


def refusal_line(place: int, reason: Reason) -> str:
    """The line of a refusal, with the sentence of its reason."""
    name = reason.name.title().replace("_", "")
    return f"refused at {place}: reason {reason:d} {name}: {reason_text(reason).partition(': ')[2]}"


class HostLines:
    """The lines of a host's stream, each record's and each command's once it is complete. It takes what live hosts
    send.

    A byte that is refused has a line with its reason, after those of the record in which it stands. The rest of that
    record is passed over, but for commands, and the next one is told. After what is no Telnet nothing is told.
    """

    def __init__(self) -> None:
        self._decoder, self._begin = Decoder(), 0
        self._tokens, self._taken = Tokens(), 0
        self._header: Header | None = None
        self._body: list[Step] = []
        self._refused: int | None = None
        self._is_over = False

    def push(self, data: bytes) -> list[str]:
        """Takes bytes in any pieces."""
        lines: list[str] = []
        if self._is_over:
            return lines
        tokens = [(self._tokens.taken, token) for token in self._tokens.push(data)]
        at = self._taken
        self._taken += len(data)
        while at < self._taken and not self._is_over:
            if self._refused is None:
                at = self._read(data[at - self._taken :], lines)
            if self._refused is not None:
                at = self._pass_over(tokens, lines)
        if _is_without_end(self._tokens):
            self._is_over = True
            lines.append(_WITHOUT_END)
        return lines

    def finish(self) -> list[str]:
        """Says that the stream has ended."""
        try:
            if self._is_over:
                return []
            if self._refused is not None:
                return [f"truncated at {self._taken}"]
            self._decoder.finish()
        except Truncated as error:
            return [*self._record("unfinished"), f"truncated at {self._begin + error.length}"]
        finally:
            self._is_over = True
            self._decoder.close()
        return []

    def _read(self, data: bytes, lines: list[str]) -> int:
        """Tells what bytes complete, up to one that is refused; gives the place after it, or after them."""
        refused: Refused | None = None
        try:
            steps = tuple(self._decoder.push(data))
        except Refused as error:
            steps, refused = error.steps, error
        for step in steps:
            lines += self._told(step)
        if refused is None:
            return self._taken
        self._refused = self._begin + refused.place
        lines += [*self._record("unfinished"), refusal_line(self._refused, refused.reason)]
        self._is_over = refused.reason < _FIRST_OF_RECORDS
        return self._refused + 1

    def _pass_over(self, tokens: list[tuple[int, Record | bytes]], lines: list[str]) -> int:
        """Tells the commands after the refused byte, up to the end of its record; gives the place after that, or after
        all that has come. Each token stands with the place after it."""
        refused = self._taken if self._refused is None else self._refused
        for end, token in tokens:
            if isinstance(token, Record) and end > refused:
                self._decoder.close()
                self._decoder, self._begin, self._refused = Decoder(), end, None
                return end
            if isinstance(token, bytes) and end - 1 > refused:
                lines.append(f"at {end - 1} {command_line(token)}")
        return self._taken

    def _told(self, step: Step) -> Iterator[str]:
        if isinstance(step, Command):
            yield f"at {self._begin + step.place} {command_line(step.spelling)}"
        elif isinstance(step, Header):
            self._header = step
        elif isinstance(step, RecordEnd):
            yield from self._record(f"at {self._begin + step.place}")
        else:
            self._body.append(step)

    def _record(self, what: str) -> Iterator[str]:
        header, self._header = self._header, None
        if header is not None:
            yield f"{what} record flags {header.flags:04X} opcode {header.opcode:d}"
            yield from body_lines(self._body)
            self._body.clear()


class StationLines:
    """The lines of a station's stream, each record's and each command's once it is complete. Nothing of it is judged:
    what hasn't the form of an answer is told by its bytes."""

    def __init__(self) -> None:
        self._tokens = Tokens()
        self._is_over = False

    def push(self, data: bytes) -> list[str]:
        """Takes bytes in any pieces."""
        lines: list[str] = []
        if self._is_over:
            return lines
        for token in self._tokens.push(data):
            place = self._tokens.taken - 1
            lines += _record_lines(place, token) if isinstance(token, Record) else [f"at {place} {command_line(token)}"]
        if _is_without_end(self._tokens):
            self._is_over = True
            self._tokens = Tokens()
            lines.append(_WITHOUT_END)
        return lines

    def finish(self) -> list[str]:
        """Says that the stream has ended."""
        if self._is_over:
            return []
        self._is_over = True
        return [f"truncated at {self._tokens.taken + self._tokens.waiting}"] if self._tokens.held else []


def _is_without_end(tokens: Tokens) -> bool:
    """Whether more is kept than a record or a command can have."""
    return tokens.held > _LONGEST or tokens.waiting > _LONGEST_COMMAND


def _record_lines(place: int, record: Record) -> list[str]:
    raw = record.raw
    if len(raw) < HEADER or raw[2:4] != b"\x12\xa0" or int.from_bytes(raw[:2], "big") != len(raw):
        return [f"at {place} no record {raw.hex().upper()}".rstrip()]
    return [f"at {place} record flags {record.flags:04X} opcode {record.opcode}", *_answer_lines(record.body)]


def _answer_lines(body: bytes) -> list[str]:
    """What a station's record holds: an answer, what it sends at once, or else its bytes."""
    if not body:
        return []
    if body.startswith(_QUERY_REPLY):
        return [f"  QUERY-REPLY {body.hex().upper()}"]
    if body.startswith(_RESTORE + _CLEAR):
        return _saved_lines(body)
    if len(body) < 3 or not (1 <= body[0] <= 24 and 1 <= body[1] <= 80) or body[2] not in _AIDS:
        return [f"  BYTES {body.hex().upper()}"]
    name = "HEAD" if body[2] else "SCREEN" if len(body) == 3 + _CELLS else "IMMEDIATE"
    aid = f" {body[2]:02X}" if body[2] else ""
    return [f"  {name} {body[0]} {body[1]}{aid}", *_part_lines(body[3:], name == "SCREEN")]


def _part_lines(rest: bytes, has_cells: bool) -> Iterator[str]:
    """The fields of an answer: their addresses, and runs of bytes. A screen's cells are one run."""
    head, *fields = [rest] if has_cells else rest.split(_ADDRESS)
    if head:
        yield f"  BYTES {head.hex().upper()}"
    for field in fields:
        if len(field) >= 2:
            yield f"  AT {field[0]} {field[1]}"
            field = field[2:]
        if field:
            yield f"  BYTES {field.hex().upper()}"


def _saved_lines(body: bytes) -> list[str]:
    """A saved screen: the commands by which it comes back."""
    try:
        with Decoder() as decoder:
            steps = decoder.push(spell_record(body, Opcode.PUT_GET))
    except Refused:
        return [f"  BYTES {body.hex().upper()}"]
    elements = [step for step in steps if isinstance(step, (Element, Cells))]
    return ["  SAVED", *body_lines(elements[2:])]
