"""Recordings: in the program's form, and read by it and by a decoder."""
from __future__ import annotations

import asyncio
import os
import pathlib
import socket
import stat
import subprocess
import tempfile
import unittest

from ribbonscarp import Header, Key, Opcode, Recording, Session, Truncated, aio, connect, listen
from support import ASKED, EXAMPLES, FORM, PROGRAM, Beside, Serve, record
from test_waits import text

INQUIRY = (EXAMPLES / "inquiry.serve").read_text(encoding="utf-8")


class RecordingTest(unittest.TestCase):
    def setUp(self) -> None:
        folder = tempfile.TemporaryDirectory()
        self.addCleanup(folder.cleanup)
        self.file = pathlib.Path(folder.name) / "session.recording"

    def show(self, *words: str) -> str:
        """What the program prints of the file."""
        done = subprocess.run([PROGRAM, *words, str(self.file)], stdout=subprocess.PIPE, text=True, check=False)
        return done.stdout

    def inquire(self, port: int) -> None:
        with connect("127.0.0.1", port, wait=60) as session:
            self.assertEqual(session.record_to(self.file), str(self.file))
            session.wait_text("Sign On")
            session.fill("User", "QUSER")
            session.fill("Password", "SECRET")
            session.press(Key.ENTER)
            session.wait_text("Item inquiry")
            session.wait_unlocked()
            session.press(Key.F3)

    def test_station(self) -> None:
        with Serve(INQUIRY) as serve:
            self.inquire(serve.port)
        self.assertEqual(stat.S_IMODE(os.stat(self.file).st_mode), 0o600)
        self.assertRegex(self.file.read_text(encoding="ascii"), r"\A(\d+ (host|station) ([0-9A-F]{2})+\n)+\Z")
        self.assertIn("Item inquiry", self.show("show", "--of", "host"))
        self.assertIn("BYTES D8E4E2C5D9", self.show("show", "--answers", "--of", "station"))
        recording = Recording.read(self.file)
        times = [piece.milliseconds for piece in recording.pieces]
        self.assertEqual(times, sorted(times))
        headers = [step for step in recording.steps() if isinstance(step, Header)]
        self.assertEqual([header.opcode for header in headers], [Opcode.PUT_GET] * 2)
        self.assertIn("SECRET".encode("cp037"), recording.sent_by("station"))

    def test_program(self) -> None:
        """A recording of the program is read too."""
        recording = Recording.read(EXAMPLES / "inquiry.recording")
        self.assertEqual(sum(isinstance(step, Header) for step in recording.steps(strict=True)), 3)

    def test_host(self) -> None:
        with listen(wait=60) as listener:
            beside = Beside(lambda: self.answer(listener.port))
            with listener.accept() as host:
                host.wait_ready()
                host.record_to(self.file)
                host.send(FORM)
                host.wait_answer()
            beside.finish()
        self.assertEqual(self.show("check", "--of", "host"), "accepted: 1 records, 0 commands, 31 bytes\n")
        self.assertIn("HEAD 6 56 F1", self.show("show", "--answers", "--of", "station"))

    def answer(self, port: int) -> None:
        with connect("127.0.0.1", port, wait=60) as session:
            session.wait_unlocked()
            session.fill(1, "BOB")
            session.press(Key.ENTER)

    def test_aio(self) -> None:
        async def inquire(port: int) -> None:
            async with await aio.connect("127.0.0.1", port, wait=60) as session:
                session.record_to(self.file)
                await session.wait_text("Sign On")

        with Serve(INQUIRY) as serve:
            asyncio.run(inquire(serve.port))
        self.assertIn("Sign On", self.show("show", "--of", "host"))
        self.assertIn(b"IBM-3179-2", Recording.read(self.file).sent_by("station"))

    def test_begins_at_a_record(self) -> None:
        """One that begins while a record is on its way leaves that out."""
        line, host = socket.socketpair()
        with Session(sock=line, wait=60) as session, host:
            host.sendall(ASKED + record(FORM)[:-3])
            session.wait_for(lambda screen: screen.state.is_ready)
            session.record_to(self.file)
            host.sendall(record(FORM)[-3:] + record(FORM))
            session.wait_record()
            session.wait_record()
            host.close()
        self.assertEqual(Recording.read(self.file).sent_by("host"), record(FORM))

    def test_names(self) -> None:
        """No file is replaced."""
        names = []
        with listen(wait=60) as listener:
            for _ in range(3):
                with connect("127.0.0.1", listener.port, wait=60) as session:
                    names.append(session.record_to(self.file))
        self.assertEqual(names, [str(self.file), f"{self.file}-1", f"{self.file}-2"])
        with listen(wait=60) as listener, connect("127.0.0.1", listener.port, wait=60) as session:
            with self.assertRaises(NotADirectoryError):
                session.record_to(self.file / "none")

    def begin_full(self) -> tuple[Session, socket.socket]:
        """A session that records on a full disk, and its host's end."""
        line, host = socket.socketpair()
        session = Session(sock=line, wait=60)
        self.addCleanup(host.close)
        self.addCleanup(session.close)
        host.sendall(ASKED + record(FORM))
        session.wait_unlocked()
        session.record_to(self.file)
        self.fill_up(session)
        return session, host

    def fill_up(self, session: Session | aio.Session) -> None:
        """Has a session's recording stand on a full disk."""
        assert session._end._recorder is not None
        with open("/dev/full", "wb") as full:
            os.dup2(full.fileno(), session._end._recorder._out.fileno())

    def test_full(self) -> None:
        """It is told once, by the next wait, and takes nothing of either side with it."""
        session, host = self.begin_full()
        session.press(Key.ENTER)
        with self.assertRaisesRegex(OSError, "No space left"):
            session.wait_text("ONE")
        self.assertTrue(host.recv(4096).endswith(record("0635F1")))
        host.sendall(text("ONE"))
        session.wait_text("ONE")

    def test_full_at_the_end(self) -> None:
        """What the last record meets is told by the close, which frees all."""
        session, host = self.begin_full()
        host.sendall(text("ONE"))
        session.wait_text("ONE")
        host.close()
        with self.assertRaisesRegex(OSError, "No space left"):
            session.close()
        self.assertFalse(session.station._is_held)
        session.close()

    def test_full_aio(self) -> None:
        """The same with asyncio."""

        async def close_full() -> None:
            line, host = socket.socketpair()
            with host:
                host.sendall(ASKED + record(FORM))
                session = aio.Session(*await asyncio.open_connection(sock=line), wait=60)
                await session.wait_unlocked()
                session.record_to(self.file)
                self.fill_up(session)
                await session.press(Key.ENTER)
                host.shutdown(socket.SHUT_WR)
                with self.assertRaisesRegex(OSError, "No space left"):
                    await session.close()
                self.assertFalse(session.station._is_held)
                self.assertTrue(host.recv(4096).endswith(record("0635F1")))

        asyncio.run(close_full())

    def test_bad(self) -> None:
        for line in ("host FF", "1 terminal FF", "1 host F", "x host FF", "1 host FF FF", ""):
            with self.assertRaisesRegex(ValueError, "line 2 of a recording isn't"):
                Recording(["0 host FFF1\n", line + "\n"])
        with self.assertRaises(Truncated):
            Recording(["0 host FF\n"]).steps()
