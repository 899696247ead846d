"""Streams as lines: what the program's `show --extended` prints, in any pieces."""
from __future__ import annotations

import random
import re
import subprocess
import unittest
from typing import TypeAlias

from ribbonscarp import Body, Opcode, Read, Station
from ribbonscarp.lines import HostLines, StationLines
from support import ASKED, EXAMPLES, PROGRAM, SIGN_ON, record

Lines: TypeAlias = "HostLines | StationLines"

# Each order and each command, also with operands that may be absent; an FF among cells; a field with two control words.
BODIES = [
    Body().clear().write(0xA0, 8).header(b"\x80\x18").header(b"").address(2, 3).cursor(4, 5).move_cursor(6, 7).read(),
    Body().write().repeat(8, 9, "-").erase(10, 11).field(12, 13, 20, ffw=0x4720, attribute=0x27).output(14, 15, 5),
    Body().write().data(bytes.fromhex("1D 4000 8181 82FF 24 0003 C1FFC2 FF FF 20C3 110101 C4")),
    Body().clear_format().read(Read.MDT_FIELDS, 1, 2).read(Read.INPUT_FIELDS).write_error("No").read(),
    Body().query(),
    Body().save_screen(),
]
COMMANDS = bytes.fromhex("FFF1 FFF2 FFF9 FFFD18 FFFC05 FFFE00 FFFA1801FFF0 FFFA27FFF0 FFFA20FFFF41FFFFFFF0")


def shown(data: bytes, *words: str) -> list[str]:
    """What the program prints of a stream, without its screen."""
    command = [PROGRAM, "show", "--extended", "--raw", *words]
    told = subprocess.run(command, input=data, stdout=subprocess.PIPE, check=False).stdout.decode()
    return told.partition("screen\n")[0].splitlines()


def traced(data: bytes) -> list[str]:
    """The first line of each item and each refusal that `trace` prints of a host's stream, without the sentences."""
    command = [PROGRAM, "trace", "--raw", "--host", "/dev/stdin"]
    told = subprocess.run(command, input=data, stdout=subprocess.PIPE, check=False).stdout.decode()
    return [line.removeprefix("host ") for line in told.splitlines() if line.startswith("host ")]


def told(lines: Lines, data: bytes, pieces: int) -> list[str]:
    """What is told of a stream in pieces of up to so many bytes."""
    found, at = list[str](), 0
    while at < len(data):
        size = random.randint(1, pieces)
        found += lines.push(data[at : at + size])
        at += size
    return found + lines.finish()


class LinesTest(unittest.TestCase):
    def compare(self, data: bytes, *words: str) -> list[str]:
        wanted = shown(data, *words)
        for pieces in (1, 5, 70000):
            lines: Lines = StationLines() if words else HostLines()
            self.assertEqual(told(lines, data, pieces), wanted)
        return wanted

    def test_host(self) -> None:
        bodies = b"".join(record(bytes(body)) for body in BODIES)
        inside = record(SIGN_ON)
        self.compare(COMMANDS + ASKED + bodies + record(b"", Opcode.INVITE) + inside[:40] + COMMANDS + inside[40:])
        self.compare(record(bytes.fromhex("0412") + bytes(BODIES[0]), Opcode.RESTORE_SCREEN))

    def test_station(self) -> None:
        """What a station sends of itself, when it is asked, and at keys."""
        with Station() as station:
            stream = station.push(ASKED)
            asked = [bytes(Body().query()), SIGN_ON, bytes(Body().save_screen()), b"\x04\x62", b"\x04\x72"]
            for body in asked:
                stream += station.push(record(body))
            station.fill("User", "QUSER")
            stream += station.press("Enter")
        stream += COMMANDS + record(b"", Opcode.CANCEL_INVITE) + record(b"", 0, 0x4000)
        printed = "\n".join(self.compare(stream, "--answers"))
        for line in ("QUERY-REPLY", "SAVED", "SCREEN", "IMMEDIATE", "HEAD 6 58 F1", "AT 6 53", "BYTES D8E4E2C5D9"):
            self.assertIn(f"\n  {line}", printed)

    def test_examples(self) -> None:
        for file in sorted(EXAMPLES.glob("*.hex")):
            is_answers = "answers" in file.name or "station" in file.name
            self.compare(bytes.fromhex(file.read_text()), *["--answers"] * is_answers)

    def test_refused(self) -> None:
        """A refusal comes with the record that it stands in and its sentence; the next record is told, in any pieces."""
        start, query = record(SIGN_ON), record(bytes.fromhex("04110008 C1C2 0420"))
        whole, place = shown(start), len(start) + 17
        refused = [
            "unfinished record flags 0000 opcode 3",
            "  WRITE 00 08",
            "  PUT C1C2",
            f"refused at {place}: reason 31 AlternateSize: the screen of 27 by 132 isn't part of the profile",
        ]
        last = f"at {2 * len(start) + len(query) - 1} record flags 0000 opcode 3"
        for size in 1, 7, 70000:
            found = told(HostLines(), start + query + start, size)
            self.assertEqual(found, [*whole, *refused, last, *whole[1:]])
        self.assertIn(f"refused at {place}: reason 31 AlternateSize", shown(start + query))

    def test_passed_over(self) -> None:
        """Of a refused record its commands are told, as `trace` tells them; FF FF EF is no end of it."""
        bodies = "0420 FFEF 11", "04F3 FFFF EF", "0411 0008 11 00 00"
        sharp = b"".join(record(bytes.fromhex(body)).replace(b"\xff\xef", b"\xff\xf1\xff\xef", 1) for body in bodies)
        early = bytes.fromhex("000E 12A0 0000 04 0000 03 FFEF")
        stream = ASKED + sharp + early + early + record(SIGN_ON) + record(bytes.fromhex("0420"))[:-2]
        for size in 1, 5, 70000:
            found = told(HostLines(), stream, size)
            self.assertEqual(found.pop(), f"truncated at {len(stream)}")
            heads = [re.sub(r"(reason .*): .*", r"\1", line) for line in found if line.startswith(("at ", "refused "))]
            self.assertEqual(heads, traced(stream))

    def test_no_telnet(self) -> None:
        """After it nothing is told."""
        lines = HostLines()
        found = told(lines, b"\xff\xf1\xff\x00" + record(SIGN_ON), 70000)
        wanted = "refused at 3: reason 1 BadCommand: no Telnet command has the byte that stands after FF"
        self.assertEqual(found, ["at 1 telnet NOP", wanted])
        self.assertEqual((lines.push(record(SIGN_ON)), lines.finish()), ([], []))

    def test_truncated(self) -> None:
        data = record(SIGN_ON) + record(SIGN_ON)[:30]
        lines = HostLines()
        self.assertEqual(told(lines, data, 70000)[-1], shown(data)[-1])
        self.assertEqual((lines.finish(), lines.push(data)), ([], []))
        answer = record(bytes.fromhex("0638F1 110635 C1"))
        for end in (answer[:-1], answer[:12], b"\xff", b"\xff\xfa\x18"):
            self.assertEqual(told(StationLines(), answer + end, 3)[-1], f"truncated at {len(answer + end)}")

    def test_no_record(self) -> None:
        """What a station may not send is told by its bytes."""
        bare = told(StationLines(), b"\x01\x02\xff\xef\xff\xef", 1)
        self.assertEqual(bare, ["at 3 no record 0102", "at 5 no record"])
        self.assertEqual(
            told(StationLines(), record(b"\x00\x01\x02") + b"\xff\x00", 9),
            ["at 14 record flags 0000 opcode 3", "  BYTES 000102", "at 16 telnet 00"],
        )

    def test_no_end(self) -> None:
        """Nothing is kept without limit."""
        for data in (b"\x01" * 300_000, b"\xff\xfa" + b"\x01" * 300_000):
            lines, found = StationLines(), list[str]()
            for at in range(0, len(data), 4096):
                found += lines.push(data[at : at + 4096])
            self.assertEqual(found, ["unread from here: a record or a command without an end"])
            self.assertEqual((lines.push(b"\xff\xef"), lines.finish()), ([], []))
