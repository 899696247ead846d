"""The tap: an emulator and a host in Python at its two sides."""
from __future__ import annotations

import asyncio
import io
import os
import pathlib
import random
import re
import signal
import socket
import stat
import struct
import subprocess
import sys
import tempfile
import threading
import time
import unittest
from collections.abc import Callable
from unittest import mock

from peers import Host, Side, negotiate_as_host, negotiate_as_station, refusing, swallowed
from ribbonscarp import Recording, connect
from ribbonscarp.tap import Tap
from support import ASKED, EXAMPLES, PROGRAM, SIGN_ON, TOP, Serve, record

INQUIRY = (EXAMPLES / "inquiry.serve").read_text(encoding="utf-8")
PACKAGE = str(TOP / "python")


def setUpModule() -> None:
    """A shell has what it begins by `&` ignore an interrupt, and a tap would inherit that."""
    signal.signal(signal.SIGINT, signal.default_int_handler)


class Tapped:
    """`python3 -m ribbonscarp tap` before a host, as a `with`: its port, and what it has printed. At its end it is
    interrupted, and has to end well."""

    def __init__(self, host_port: int, file: pathlib.Path, *words: str) -> None:
        command = [sys.executable, "-m", "ribbonscarp", "tap", "127.0.0.1:0", f"127.0.0.1:{host_port}"]
        self.process = subprocess.Popen(
            [*command, "--record", str(file), *words],
            env=os.environ | {"PYTHONPATH": PACKAGE},
            stdout=subprocess.PIPE,
            stderr=subprocess.PIPE,
            text=True,
        )
        assert self.process.stdout is not None and self.process.stderr is not None
        first = self.process.stdout.readline()
        self.port = int(first.rpartition(":")[2]) if first else 0
        self.lines, self.warnings = list[str](), list[str]()
        self._readers = [
            threading.Thread(target=kept.extend, args=(map(str.rstrip, stream),), daemon=True)
            for kept, stream in ((self.lines, self.process.stdout), (self.warnings, self.process.stderr))
        ]
        for reader in self._readers:
            reader.start()

    def __enter__(self) -> Tapped:
        return self

    def __exit__(self, *error: object) -> None:
        self.process.send_signal(signal.SIGINT)
        try:
            self.status = self.process.wait(timeout=60)
        finally:
            self.process.kill()
            self.process.wait()
            for reader in self._readers:
                reader.join()
            for stream in (self.process.stdout, self.process.stderr):
                assert stream is not None
                stream.close()

    def wait(self, end: str, count: int = 1) -> None:
        """Until so many lines have this end."""
        until = time.monotonic() + 60
        while time.monotonic() < until:
            if sum(line.endswith(end) for line in [*self.lines, *self.warnings]) >= count:
                return
            time.sleep(0.01)
        raise AssertionError(f"no line with {end!r}: {self.lines} {self.warnings}")

    def told(self) -> list[str]:
        """What was printed, without times and connections."""
        return [re.sub(r"^\+\d+\.\d{3} ", "", line) for line in self.lines if not line.startswith("connection from ")]


def reset(side: Side) -> None:
    """Closes a connection at once."""
    side.stream.setsockopt(socket.SOL_SOCKET, socket.SO_LINGER, struct.pack("ii", 1, 0))
    side.close()


class TapTest(unittest.TestCase):
    def setUp(self) -> None:
        folder = tempfile.TemporaryDirectory()
        self.addCleanup(folder.cleanup)
        self.folder = pathlib.Path(folder.name)
        self.file = self.folder / "a session"

    def opened(self, tap: Tapped, size: int = 0) -> Side:
        """A connection of an emulator; with a size of the room for what it hasn't read."""
        line = socket.socket()
        self.addCleanup(line.close)
        if size:
            line.setsockopt(socket.SOL_SOCKET, socket.SO_RCVBUF, size)
        line.connect(("127.0.0.1", tap.port))
        return Side(line)

    def tapped(self, play: Callable[[Side], object], *words: str, narrow: bool = False) -> tuple[Host, Tapped]:
        """A host that plays, and a tap before it."""
        peer = Host(play, narrow=narrow)
        self.addCleanup(peer.listener.close)
        return peer, Tapped(peer.port, self.file, *words)

    def show(self, *words: str) -> list[str]:
        """What the program prints of the recording, without its screen."""
        command = [PROGRAM, "show", "--extended", *words, str(self.file)]
        done = subprocess.run(command, stdout=subprocess.PIPE, text=True, check=False)
        return done.stdout.partition("screen\n")[0].splitlines()

    def test_session(self) -> None:
        """A station of the package, a host of the program: what is printed is what `show` prints of the recording."""
        with Serve(INQUIRY) as serve, Tapped(serve.port, self.file) as tap:
            self.assertEqual(list(self.folder.iterdir()), [])
            with connect("127.0.0.1", tap.port, wait=60) as session:
                session.wait_text("Sign On")
                session.fill("User", "QUSER")
                session.press("Enter")
                session.wait_text("Item inquiry")
                session.wait_unlocked()
                session.press("F3")
            tap.wait("station closed")
            tap.wait("host closed")
        self.assertEqual((tap.status, tap.warnings), (0, [f"recording {self.file}"]))
        self.assertEqual(stat.S_IMODE(os.stat(self.file).st_mode), 0o600)
        self.assertRegex(tap.lines[0], r"^connection from 127\.0\.0\.1:\d+$")
        self.assertIn("Sign On".encode("cp037"), Recording.read(self.file).sent_by("host"))
        for sender, words in (("host", ["--of", "host"]), ("station", ["--of", "station", "--answers"])):
            of_sender, is_of_sender = list[str](), False
            for line in tap.told():
                is_of_sender = line.startswith(f"{sender} ") or line.startswith("  ") and is_of_sender
                if is_of_sender:
                    of_sender.append(line.removeprefix(f"{sender} "))
            self.assertEqual(of_sender, [*self.show(*words), "closed"])
        times = [float(found[1]) for found in map(re.compile(r"\+(\d+\.\d{3}) ").match, tap.lines) if found]
        self.assertEqual(times, sorted(times))

    def test_bytes(self) -> None:
        """Garbage passes as it is, in both directions at once; a refusal is told once."""
        down, up = random.randbytes(300_000), random.randbytes(300_000)
        down = b"\xff\x00" + down

        def play(side: Side) -> None:
            sender = threading.Thread(target=side.send, args=(down, 70_000))
            sender.start()
            side.take(up)
            sender.join()

        peer, tap = self.tapped(play)
        with tap:
            side = self.opened(tap)
            sender = threading.Thread(target=side.send, args=(up, 30_000))
            sender.start()
            self.assertEqual(side.get(len(down)), down)
            sender.join()
            side.close()
            peer.end()
            tap.wait("host closed")
        refused = "host refused at 1: reason 1 BadCommand: no Telnet command has the byte that stands after FF"
        self.assertEqual([line for line in tap.told() if "host refused" in line], [refused])
        recording = Recording.read(self.file)
        self.assertEqual((recording.sent_by("host"), recording.sent_by("station")), (down, up))

    def test_refused(self) -> None:
        """Bytes pass also after one that is refused, in the middle of a session, and the next record is told."""
        roll = record(bytes.fromhex("0423 61 0105"))

        def play(side: Side) -> None:
            negotiate_as_host(side)
            side.send(roll + record(SIGN_ON))
            side.take(b"answer")

        peer, tap = self.tapped(play)
        with tap:
            side = self.opened(tap)
            negotiate_as_station(side)
            side.take(roll + record(SIGN_ON))
            side.send(b"answer")
            peer.end()
            side.take_end()
            side.close()
            tap.wait("station closed")
        told = tap.told()
        at = told.index("host unfinished record flags 0000 opcode 3")
        place = len(ASKED) + 12
        after = told.index("host closed")
        self.assertEqual(
            [*told[at + 1 : at + 4], told[after - 1], *told[after:]],
            [
                f"host refused at {place}: reason 33 Roll: rolling of the screen isn't part of the profile",
                f"host at {len(ASKED + roll + record(SIGN_ON)) - 1} record flags 0000 opcode 3",
                "  CLEAR-UNIT",
                "  READ-MDT 00 00",
                "host closed",
                f"station truncated at {len(Recording.read(self.file).sent_by('station'))}",
                "station closed",
            ],
        )

    def test_half_closed(self) -> None:
        """An end that closes its half still gets what the other sends."""

        def play(side: Side) -> None:
            side.take(b"\xff\xf1")
            side.take_end()
            side.send(record(SIGN_ON))

        peer, tap = self.tapped(play)
        with tap:
            side = self.opened(tap)
            side.send(b"\xff\xf1")
            side.stream.shutdown(socket.SHUT_WR)
            side.take(record(SIGN_ON))
            side.take_end()
            peer.end()
            tap.wait("host closed")
        self.assertEqual(tap.told()[:2], ["station at 1 telnet NOP", "station closed"])

    def test_reset(self) -> None:
        """A reset of either end is one of the other; the next connection is served."""

        def play_reset(side: Side) -> None:
            side.take(b"\xff\xf1")
            reset(side)

        peer, tap = self.tapped(play_reset)
        with tap:
            side = self.opened(tap)
            side.send(b"\xff\xf1")
            with self.assertRaises(ConnectionResetError):
                side.read()
            peer.end()
            tap.wait("host reset")

            def play(side: Side) -> None:
                side.send(ASKED[:3])
                with self.assertRaises(ConnectionResetError):
                    side.read()

            peer = Host(play, port=peer.port)
            side = self.opened(tap)
            side.take(ASKED[:3])
            reset(side)
            peer.end()
            tap.wait("station reset")
        self.assertEqual(tap.warnings, [f"recording {self.file}", f"recording {self.file}-1"])

    def test_no_host(self) -> None:
        """A host that can't be reached is told, the emulator's connection closed, and the next one tried anew."""
        with refusing() as port, Tapped(port, self.file) as tap:
            for _ in range(2):
                side = self.opened(tap)
                side.take_end()
                side.close()
            peer = Host(lambda side: side.send(b"\xff\xf1"), port=port)
            side = self.opened(tap)
            side.take(b"\xff\xf1")
            peer.end()
            side.close()
            tap.wait("station closed")
        wanted = f"no connection to 127.0.0.1:{port}: Connection refused"
        self.assertEqual(tap.warnings, [wanted, wanted, f"recording {self.file}"])

    def test_late_host(self) -> None:
        """A host that doesn't answer."""
        with swallowed("127.0.0.1") as port, Tapped(port, self.file, "--wait", "0.3") as tap:
            self.opened(tap).take_end()
        self.assertEqual(tap.warnings, [f"no connection to 127.0.0.1:{port}: no answer within 0.3 seconds"])

    def test_interrupted(self) -> None:
        """An interrupt that comes at the moment at which the host takes the connection isn't lost."""

        async def interrupt(port: int) -> None:
            loop = asyncio.get_running_loop()
            connect = loop.sock_connect

            async def connected(sock: socket.socket, address: tuple[str, int]) -> None:
                await connect(sock, address)
                serving.cancel()

            with mock.patch.object(loop, "sock_connect", connected), socket.create_server(("127.0.0.1", 0)) as listener:
                serving = asyncio.ensure_future(Tap("127.0.0.1", port, self.file).serve(listener))
                with socket.create_connection(listener.getsockname()):
                    await asyncio.wait({serving}, timeout=60)
                self.assertTrue(serving.cancelled())

        with socket.create_server(("127.0.0.1", 0)) as host:
            asyncio.run(interrupt(host.getsockname()[1]))

    def test_silent(self) -> None:
        """Nothing is printed and no file made of ends that say nothing; an interrupt ends it, and resets no end."""
        told = threading.Event()

        def play(side: Side) -> None:
            told.set()
            side.take_end()

        peer, tap = self.tapped(play)
        with tap:
            side = self.opened(tap)
            self.assertTrue(told.wait(60))
        side.take_end()
        peer.end()
        self.assertEqual((tap.status, tap.told(), tap.warnings, list(self.folder.iterdir())), (0, [], [], []))

    def test_slow(self) -> None:
        """While an emulator reads nothing the host has to wait; what it sent comes whole."""
        data, sent = b"\x01" * 65536, list[int]()
        whole = 500 * len(data)

        def play(side: Side) -> None:
            side.stream.settimeout(60)
            for _ in range(500):
                side.stream.sendall(data)
                sent.append(len(data))

        peer, tap = self.tapped(play, narrow=True)
        with tap:
            side = self.opened(tap, 4096)
            before = -1
            while before < len(sent) or not sent:
                before = len(sent)
                time.sleep(1)
            self.assertLess(sum(sent), whole // 2)
            size = pathlib.Path(f"/proc/{tap.process.pid}/status").read_text()
            at_rest = int(re.findall(r"VmRSS:\s+(\d+)", size)[0])
            got = 0
            while got < whole and (piece := side.stream.recv(1 << 20)):
                got += len(piece)
            self.assertEqual(got, whole)
            peer.end()
            size = pathlib.Path(f"/proc/{tap.process.pid}/status").read_text()
            self.assertLess(int(re.findall(r"VmHWM:\s+(\d+)", size)[0]), at_rest + 4096)
            side.close()

    def test_one_after_another(self) -> None:
        """The next emulator is served once the one before has gone."""

        def play(side: Side) -> None:
            side.take_end()
            side.close()
            with peer.listener.accept()[0] as line:
                Side(line).take(b"\xff\xf1")

        peer, tap = self.tapped(play)
        with tap:
            first, second = self.opened(tap), self.opened(tap)
            second.send(b"\xff\xf1")
            first.close()
            peer.end()
            second.take_end()
            second.close()
            tap.wait("station closed", 2)
        wanted = ["station closed", "host closed", "station at 1 telnet NOP", "host closed", "station closed"]
        self.assertEqual(tap.told(), wanted)

    def test_not_recorded(self) -> None:
        """A recording that can't be written is told once, and bytes pass."""
        self.file = self.folder / "none" / "file"

        def play(side: Side) -> None:
            side.take(b"\xff\xf1")
            side.send(b"\xff\xf1\xff\xf2")

        peer, tap = self.tapped(play)
        with tap:
            side = self.opened(tap)
            side.send(b"\xff\xf1")
            side.take(b"\xff\xf1\xff\xf2")
            side.take_end()
            peer.end()
            side.close()
            tap.wait("station closed")
        self.assertEqual(tap.warnings, [f"not recorded any more: cannot write {self.file}: No such file or directory"])

    def test_no_reader(self) -> None:
        """Where nobody reads what is printed it ends without a word."""
        peer = Host(lambda side: side.read() and side.read())
        self.addCleanup(peer.listener.close)
        command = [sys.executable, "-m", "ribbonscarp", "tap", "127.0.0.1:0", f"127.0.0.1:{peer.port}"]
        environment = os.environ | {"PYTHONPATH": PACKAGE}
        command += ["--record", str(self.file)]
        pipe = subprocess.PIPE
        with subprocess.Popen(command, env=environment, stdout=pipe, stderr=pipe, text=True) as process:
            assert process.stdout is not None
            port = int(process.stdout.readline().rpartition(":")[2])
            process.stdout.close()
            with socket.create_connection(("127.0.0.1", port)) as line:
                line.sendall(b"\xff\xf1")
                _, said = process.communicate(timeout=120)
        self.assertEqual((process.returncode, said), (0, ""))

    def test_silence(self) -> None:
        """Where one end has closed and the other neither closes nor speaks, the connection is over after a time."""
        out, err = io.StringIO(), io.StringIO()
        over = threading.Event()

        async def serve(listener: socket.socket) -> None:
            tap = Tap("127.0.0.1", peer.port, self.file, silence=0.3, out=out, err=err)
            task = asyncio.ensure_future(tap.serve(listener))
            await asyncio.to_thread(over.wait, 60)
            task.cancel()

        def play(side: Side) -> None:
            side.take(b"\xff\xf1")
            side.take_end()
            over.wait(60)

        peer = Host(play)
        with socket.create_server(("127.0.0.1", 0)) as listener:
            serving = threading.Thread(target=asyncio.run, args=(serve(listener),))
            serving.start()
            with socket.create_connection(listener.getsockname()) as line:
                line.sendall(b"\xff\xf1")
                line.shutdown(socket.SHUT_WR)
                self.assertEqual(line.recv(1), b"")
            over.set()
            serving.join()
            peer.end()
        self.assertIn("one end has closed, and the other is silent for 0.3 seconds\n", err.getvalue())
