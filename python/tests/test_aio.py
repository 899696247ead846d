"""Live sessions with asyncio: a station and a host of this package, each other's programs, and sockets that go wrong."""
from __future__ import annotations

import asyncio
import contextlib
import socket
import time
import unittest
from unittest import mock

from ribbonscarp import Body, ConnectionEnded, EventKind, Key, KeyRefused, Opcode, Reason, Refused, StatusError
from ribbonscarp import Station, WaitedTooLong, aio
from support import ASKED, EXAMPLES, FORM, PAST_END, Serve, record, refusing, run_connect
from test_waits import text

INQUIRY = (EXAMPLES / "inquiry.serve").read_text(encoding="utf-8")


class AioTest(unittest.IsolatedAsyncioTestCase):
    async def asyncSetUp(self) -> None:
        asyncio.get_running_loop().slow_callback_duration = 5

    async def begin(self, *pieces: bytes, strict: bool = False) -> tuple[aio.Session, socket.socket]:
        """A session over one end of a pair of sockets, and the other end, which has sent some pieces."""
        line, host = socket.socketpair()
        host.sendall(b"".join(pieces))
        station = Station(strict=strict)
        session = aio.Session(*await asyncio.open_connection(sock=line), station=station, wait=60)
        self.addCleanup(host.close)
        self.addAsyncCleanup(session.close)
        return session, host

    async def test_inquiry(self) -> None:
        """Against the program."""
        with Serve(INQUIRY) as serve:
            async with await aio.connect("127.0.0.1", serve.port, wait=60) as session:
                await session.wait_text("Sign On")
                session.fill("User", "QUSER")
                session.fill("Password", "SECRET")
                await session.press(Key.ENTER)
                await session.wait_text("Item inquiry", at=(1, 35))
                session.type("4711")
                await session.press("F5")
                self.assertEqual((await session.wait_unlocked()).row(5), " Price  . . . .   12.50")
                self.assertEqual(session.field("Item number").text, "4711")
                await session.press(Key.F3)
        self.assertEqual(serve.printed, (EXAMPLES / "inquiry.served").read_text(encoding="utf-8"))

    async def test_host(self) -> None:
        """Against the program, as a station."""
        async with await aio.listen(wait=60) as listener:
            station = run_connect(listener.port, "await\ntype BOB\nkey F5\nawait record\nawait record\n")
            async with await listener.accept() as host:
                self.assertEqual(await host.wait_ready(), "IBM-3179-2")
                await host.send(FORM)
                answer = await host.wait_answer()
                self.assertEqual((answer.key, [field.text for field in answer.fields]), (Key.F5, ["BOB"]))
                await host.send(FORM)
                await host.cancel()
                self.assertIs((await host.wait_event()).kind, EventKind.CANCELLED)
            await asyncio.get_running_loop().run_in_executor(None, station.communicate, None, 120)
        self.assertEqual(station.returncode, 0)

    async def test_records(self) -> None:
        """Waits look after each record, and those with no time take all that has come."""
        session, _ = await self.begin(ASKED, text("ONE"), text("TWO"))
        self.assertEqual((await session.wait_text("ONE")).row(1), "ONE")
        self.assertEqual((await session.wait_text("TWO", wait=0)).row(1), "TWO")
        with self.assertRaises(WaitedTooLong):
            await session.wait_record(wait=0)
        session, _ = await self.begin(ASKED, *[text("A" * 1900)] * 30, text("LAST"))
        self.assertEqual((await session.wait_text("LAST", wait=0)).state.records, 31)

    async def test_goals(self) -> None:
        session, host = await self.begin(ASKED, text("ONE"))
        self.assertEqual(await session.wait_any("TWO", "ONE"), "ONE")
        begun = time.monotonic()
        await session.wait_quiet(0.2)
        self.assertGreaterEqual(time.monotonic() - begun, 0.2)
        host.sendall(record(FORM))
        await session.wait_for(lambda screen: len(screen.fields) == 1)
        session.move_cursor(6, 54)
        session.insert("B")
        session.move_cursor(6, 53)
        session.erase_eof()
        session.new_line()
        self.assertEqual((session.fields[0].text, session.screen.cursor), ("", (6, 53)))
        with self.assertRaises(KeyRefused):
            await session.press("Dup")

    async def test_ended(self) -> None:
        session, host = await self.begin(ASKED, record(FORM), record(PAST_END), strict=True)
        for _ in range(2):
            with self.assertRaises(Refused) as caught:
                await session.wait_text("never")
            self.assertEqual((caught.exception.reason, caught.exception.after), (Reason.PAST_END, b"\xef"))
        self.assertTrue(session.has_ended)
        session, host = await self.begin(ASKED, record(FORM))
        await session.wait_unlocked()
        host.close()
        with self.assertRaises(ConnectionEnded):
            await session.wait_text("never")
        self.assertTrue(session.has_ended)
        for key in (Key.ENTER, Key.ENTER, Key.ATTENTION):
            with self.assertRaisesRegex(ConnectionEnded, "the host takes no key any more; the screen"):
                await session.press(key)
        self.assertFalse(session.screen.is_locked)

    async def test_closed(self) -> None:
        """Also while another task waits."""
        session, _ = await self.begin(ASKED)
        waiting = asyncio.ensure_future(session.wait_text("never", wait=60))
        await asyncio.sleep(0.1)
        with self.assertRaisesRegex(RuntimeError, "another task waits at this Session"):
            await session.wait_text("never")
        await session.close()
        with self.assertRaisesRegex(StatusError, "this Session is closed"):
            await waiting
        with self.assertRaisesRegex(StatusError, "this Session is closed"):
            session.screen
        await session.close()

    async def test_cancelled_task(self) -> None:
        """A wait that is cancelled loses nothing."""
        session, host = await self.begin(ASKED)
        with self.assertRaises(asyncio.TimeoutError):
            await asyncio.wait_for(session.wait_text("ONE"), 0.1)
        host.sendall(text("ONE"))
        self.assertEqual((await session.wait_text("ONE")).row(1), "ONE")

    async def test_cancelled_close(self) -> None:
        """Nothing is left open, though the host doesn't close."""
        session, _ = await self.begin(ASKED)
        with self.assertRaises(asyncio.TimeoutError):
            await asyncio.wait_for(session.close(), 0.1)
        self.assertEqual((session._writer.is_closing(), session.station._is_held), (True, False))

    async def test_cancelled_as_a_station_comes(self) -> None:
        """Neither the cancel is lost nor the station."""
        async with await aio.listen(wait=60) as listener:
            get = listener._come.get

            async def got() -> aio.HostSession | None:
                come = await get()
                accepting.cancel()
                return come

            with mock.patch.object(listener._come, "get", got):
                accepting = asyncio.ensure_future(listener.accept())
                session = await aio.connect("127.0.0.1", listener.port, wait=60)
                await asyncio.wait({accepting}, timeout=60)
            self.assertTrue(accepting.cancelled())
            async with session, await listener.accept() as host:
                await asyncio.gather(host.wait_ready(), session.wait_for(lambda screen: screen.state.is_ready))

    async def test_cancelled_as_the_host_answers(self) -> None:
        """The cancel isn't lost, and the connection is closed."""
        open_connection = asyncio.open_connection

        async def opened(
            host: str, port: int, *, ssl: None, limit: int
        ) -> tuple[asyncio.StreamReader, asyncio.StreamWriter]:
            streams = await open_connection(host, port, ssl=ssl, limit=limit)
            connecting.cancel()
            return streams

        with socket.create_server(("127.0.0.1", 0)) as server, mock.patch("asyncio.open_connection", opened):
            connecting = asyncio.ensure_future(aio.connect("127.0.0.1", server.getsockname()[1], wait=60))
            await asyncio.wait({connecting}, timeout=60)
            self.assertTrue(connecting.cancelled())
            await asyncio.sleep(0)
            with server.accept()[0] as line:
                line.settimeout(60)
                self.assertEqual(await asyncio.to_thread(line.recv, 1), b"")

    async def test_times(self) -> None:
        session, host = await self.begin()
        begun = time.monotonic()
        with self.assertRaisesRegex(WaitedTooLong, "nothing at all has come from the host"):
            await session.wait_unlocked(wait=0.1)
        with self.assertRaisesRegex(ValueError, "wait=inf"):
            await session.wait_unlocked(wait=float("inf"))
        self.assertLess(time.monotonic() - begun, 30)
        with self.assertRaisesRegex(ValueError, "port 99999"):
            await aio.connect("127.0.0.1", 99999)
        with refusing() as port, self.assertRaises(ConnectionRefusedError):
            await aio.connect("127.0.0.1", port, wait=60)

    async def test_flood(self) -> None:
        """Bytes that don't end neither lengthen a wait nor fill the memory."""
        session, host = await self.begin(ASKED)
        host.setblocking(False)
        loop, sent = asyncio.get_running_loop(), 0

        async def flood() -> None:
            nonlocal sent
            while True:
                await loop.sock_sendall(host, b"\xff\xf1" * 50000)
                sent += 100000

        task = asyncio.ensure_future(flood())
        with self.assertRaises(WaitedTooLong):
            await session.wait_text("Hi", wait=0.3)
        kept = -1
        while kept != sent:
            kept = sent
            self.assertLess(sent, 1 << 26)
            await asyncio.sleep(0.5)
        task.cancel()
        with contextlib.suppress(asyncio.CancelledError):
            await task

    async def test_any(self) -> None:
        """A host for tests, and a Query."""
        async with await aio.listen(any=True, wait=60) as listener:
            session = await aio.connect("127.0.0.1", listener.port, wait=60)
            async with session, await listener.accept() as host:
                reply = asyncio.ensure_future(self.answer_query(host))
                await session.wait_text("Hi")
                self.assertEqual((await reply)[:3], bytes.fromhex("000088"))

    async def answer_query(self, host: aio.HostSession) -> bytes:
        await host.wait_ready()
        await host.send(Body().query())
        came = await host.wait_record()
        await host.send_bytes(record(bytes(Body().write().text(1, 1, "Hi")), Opcode.OUTPUT_ONLY))
        return came.body

    async def test_listener_closes_first(self) -> None:
        """A session that was accepted goes on; one that nobody has accepted is closed."""
        listener = await aio.listen(wait=60)
        session = await aio.connect("127.0.0.1", listener.port, wait=60)
        left = await aio.connect("127.0.0.1", listener.port, wait=60)
        async with session, left, await listener.accept() as host:
            await asyncio.sleep(0.1)
            await asyncio.wait_for(listener.close(), 60)
            with self.assertRaises(ConnectionEnded):
                await left.wait_text("never")
            waiting = asyncio.ensure_future(session.wait_unlocked())
            await host.wait_ready()
            await host.send(FORM)
            await waiting

    async def test_listener(self) -> None:
        listener = await aio.listen(wait=60)
        with self.assertRaisesRegex(WaitedTooLong, "a station hasn't come within 0.1 seconds"):
            await listener.accept(wait=0.1)
        waiting = asyncio.ensure_future(listener.accept())
        await asyncio.sleep(0.05)
        await listener.close()
        with self.assertRaisesRegex(StatusError, "this Listener is closed"):
            await waiting
        with self.assertRaisesRegex(StatusError, "this Listener is closed"):
            await listener.accept()

    async def test_many(self) -> None:
        """A hundred stations at one host, at once."""

        async def station(port: int, name: str) -> str:
            async with await aio.connect("127.0.0.1", port, wait=60) as session:
                await session.wait_unlocked()
                session.fill(1, name)
                await session.press(Key.ENTER)
                return (await session.wait_text("Bye")).row(24).split()[1]

        async def host(listener: aio.Listener) -> None:
            async with await listener.accept() as session:
                await session.wait_ready()
                await session.send(FORM)
                name = (await session.wait_answer()).fields[0].text
                await session.send(Body().write(0, 0).text(24, 2, f"Bye {name}"))
                with contextlib.suppress(ConnectionEnded):
                    await session.wait_event()

        names = [f"N{number}" for number in range(100)]
        async with await aio.listen(wait=60) as listener:
            hosts = asyncio.gather(*(host(listener) for _ in names))
            told = await asyncio.gather(*(station(listener.port, name) for name in names))
            await hosts
        self.assertEqual(told, names)
