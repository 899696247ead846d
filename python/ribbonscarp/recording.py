"""Recordings of what crossed a connection, in the form of the program's `--record`: a line `MILLISECONDS host|station
HEX` for each piece."""
from __future__ import annotations

import itertools
import os
import time
from collections.abc import Iterable
from dataclasses import dataclass

from .decoder import Decoder, Step

StrPath = str | os.PathLike[str]


class Recorder:
    """Writes a recording to a new file, its owner's alone to read. `file` is its name: with a number after the one that
    was asked for, where that is there already. It holds what was typed into hidden fields. Times count from `begun`, of
    `time.monotonic`, or else from now."""

    def __init__(self, file: StrPath, begun: float | None = None) -> None:
        name = os.fspath(file)
        self._begun = time.monotonic() if begun is None else begun
        for self.file in itertools.chain([name], (f"{name}-{number}" for number in range(1, 10000))):
            try:
                self._out = open(self.file, "x", encoding="ascii", buffering=1, opener=_for_its_owner)
                return
            except FileExistsError:
                continue
        raise FileExistsError(f"{name} is there, and so are all names with a number after it")

    def write(self, sender: str, data: bytes) -> None:
        """Writes a piece of the `host` or the `station`."""
        if data and not self._out.closed:
            self._out.write(f"{int((time.monotonic() - self._begun) * 1000)} {sender} {data.hex().upper()}\n")

    def close(self) -> None:
        """Ends it. A second call does nothing."""
        self._out.close()


def _for_its_owner(name: str, flags: int) -> int:
    return os.open(name, flags | os.O_CLOEXEC, 0o600)


@dataclass(frozen=True)
class Piece:
    """What crossed at a time: of the `host` or the `station`."""

    milliseconds: int
    sender: str
    data: bytes


class Recording:
    """What a recording's file holds, also one of the program or the terminal. `ValueError` at a line that is none."""

    def __init__(self, lines: Iterable[str]) -> None:
        self.pieces: list[Piece] = [_piece(number, line) for number, line in enumerate(lines, 1)]

    @staticmethod
    def read(file: StrPath) -> Recording:
        """The recording that a file holds."""
        with open(file, encoding="ascii", errors="replace") as lines:
            return Recording(lines)

    def sent_by(self, sender: str) -> bytes:
        """The stream of the `host`, or of the `station`."""
        return b"".join(piece.data for piece in self.pieces if piece.sender == sender)

    def steps(self, *, strict: bool = False) -> list[Step]:
        """What a `Decoder` finds in the host's stream; `Refused` and `Truncated` as it raises them."""
        with Decoder(strict=strict) as decoder:
            steps = decoder.push(self.sent_by("host"))
            decoder.finish()
        return steps


def _piece(number: int, line: str) -> Piece:
    try:
        milliseconds, sender, spelled = line.split()
        if sender not in ("host", "station"):
            raise ValueError
        return Piece(int(milliseconds), sender, bytes.fromhex(spelled))
    except ValueError:
        raise ValueError(f"line {number} of a recording isn't `MILLISECONDS host|station HEX`") from None
