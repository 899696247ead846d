"""Telnet over TLS, with certificates that are made for the test: right, of another name, expired, of an unknown issuer."""
from __future__ import annotations

import asyncio
import pathlib
import shutil
import socket
import ssl
import subprocess
import tempfile
import threading
import time
import unittest
import unittest.mock
from collections.abc import Callable

from ribbonscarp import Body, ConnectionEnded, HostSession, Key, Listener, Session, StatusError, WaitedTooLong
from ribbonscarp import aio, connect, listen
from support import ASKED, FORM, Beside


class Authority:
    """Issues certificates, by `openssl`, into a folder."""

    def __init__(self, folder: pathlib.Path, name: str) -> None:
        self.folder, self.name = folder, name
        self.run("req", "-x509", "-nodes", "-newkey", "rsa:2048", "-keyout", f"{name}.key", "-out", f"{name}.pem",
                 "-subj", f"/CN={name}", "-addext", "keyUsage=critical,keyCertSign,cRLSign")

    def run(self, *words: str) -> None:
        subprocess.run(["openssl", *words], cwd=self.folder, check=True, capture_output=True)

    def context(self, of: str, *, days: int = 2) -> ssl.SSLContext:
        """What a host speaks by that has a certificate of a name or an address, for so many days from now."""
        name = f"{self.name}-{of.replace(':', '-')}{days}"
        self.run("req", "-new", "-nodes", "-newkey", "rsa:2048", "-keyout", f"{name}.key", "-out", f"{name}.csr",
                 "-subj", "/CN=host")
        extensions = f"subjectAltName={of}\nsubjectKeyIdentifier=hash\nauthorityKeyIdentifier=keyid\n"
        (self.folder / f"{name}.ext").write_text(extensions, encoding="ascii")
        self.run("x509", "-req", "-in", f"{name}.csr", "-CA", f"{self.name}.pem", "-CAkey", f"{self.name}.key",
                 "-CAcreateserial", "-days", str(days), "-extfile", f"{name}.ext", "-out", f"{name}.pem")
        context = ssl.SSLContext(ssl.PROTOCOL_TLS_SERVER)
        context.load_cert_chain(self.folder / f"{name}.pem", self.folder / f"{name}.key")
        return context

    def trusting(self) -> ssl.SSLContext:
        """What a station speaks by that trusts this one."""
        return ssl.create_default_context(cafile=str(self.folder / f"{self.name}.pem"))


@unittest.skipUnless(shutil.which("openssl"), "openssl isn't here")
class TlsTest(unittest.TestCase):
    @classmethod
    def setUpClass(cls) -> None:
        folder = tempfile.TemporaryDirectory()
        cls.addClassCleanup(folder.cleanup)
        cls.issuer = Authority(pathlib.Path(folder.name), "issuer")
        cls.right = cls.issuer.context("DNS:localhost,IP:127.0.0.1")

    issuer: Authority
    right: ssl.SSLContext

    def serve(self, context: ssl.SSLContext, play: Callable[[HostSession], None] = lambda host: None) -> Listener:
        """A host that plays so to one station, whose TLS may fail."""
        listener = listen(tls=context, wait=60)

        def accept() -> None:
            try:
                with listener.accept() as host:
                    host.wait_ready()
                    play(host)
            except (OSError, StatusError):
                pass  # The station doesn't trust it.

        beside = Beside(accept)
        self.addCleanup(beside.finish)
        self.addCleanup(listener.close)
        return listener

    def serve_silence(self) -> tuple[Listener, threading.Event]:
        """A host that says nothing more once the station is ready, and closes at an event."""
        over = threading.Event()

        def play(host: HostSession) -> None:
            over.wait(60)

        listener = self.serve(self.right, play)
        self.addCleanup(over.set)
        return listener, over

    def test_right(self) -> None:
        """By name and by address; everything that is written comes through, and the end is told."""
        answers: list[str] = []

        def play(host: HostSession) -> None:
            for _ in range(2):
                host.send(FORM)
                answers.extend(field.text for field in host.wait_answer().fields)
            host.send(Body().write(0, 0).text(24, 2, "Bye"))

        for name in ("localhost", "127.0.0.1"):
            listener = self.serve(self.right, play)
            with connect(name, listener.port, tls=self.issuer.trusting(), wait=60) as session:
                for word in ("ONE", "TWO"):
                    session.wait_unlocked()
                    session.fill(1, word)
                    session.press(Key.ENTER)
                self.assertEqual(session.wait_text("Bye").row(24), " Bye")
                with self.assertRaises(ConnectionEnded):
                    session.wait_text("More")
        self.assertEqual(answers, ["ONE", "TWO"] * 2)

    def test_not_trusted(self) -> None:
        """Another's certificate, an expired one, one of an issuer that isn't trusted, and one that the system doesn't
        know."""
        stranger = Authority(self.issuer.folder, "stranger")
        cases: list[tuple[ssl.SSLContext, bool | ssl.SSLContext, str]] = [
            (self.issuer.context("DNS:example.org"), self.issuer.trusting(), "Hostname mismatch|doesn't match"),
            (self.issuer.context("DNS:localhost", days=-1), self.issuer.trusting(), "certificate has expired"),
            (stranger.context("DNS:localhost"), self.issuer.trusting(), "unable to get local issuer certificate"),
            (self.right, True, "unable to get local issuer certificate|self.signed"),
        ]
        for context, tls, text in cases:
            listener = self.serve(context)
            with self.assertRaisesRegex(ssl.SSLCertVerificationError, text) as caught:
                connect("localhost", listener.port, tls=tls, wait=60)
            self.assertIsInstance(caught.exception, OSError)
            with self.assertRaisesRegex(ssl.SSLCertVerificationError, text):
                asyncio.run(self.connect_aio(self.serve(context).port, tls))

    async def connect_aio(self, port: int, tls: bool | ssl.SSLContext) -> None:
        await aio.connect("localhost", port, tls=tls, wait=60)

    def test_ports(self) -> None:
        """992 with TLS, and 23 without."""
        with unittest.mock.patch("socket.getaddrinfo", side_effect=OSError("asked")) as asked:
            for tls in (False, True):
                with self.assertRaisesRegex(OSError, "asked"):
                    connect("host", tls=tls)
        self.assertEqual([call.args[1] for call in asked.call_args_list], [23, 992])

    def test_wants(self) -> None:
        """Want of a whole TLS record is a wait: with no time, and where a record comes in pieces."""
        listener, over = self.serve_silence()
        with connect("localhost", listener.port, tls=self.issuer.trusting(), wait=60) as session:
            with self.assertRaises(WaitedTooLong):
                session.wait_text("Hi", wait=0)
            with self.assertRaises(WaitedTooLong):
                session.wait_text("Hi", wait=0.1)
            self.assertFalse(session.has_ended)
            session.wait_for(lambda screen: screen.state.is_ready)
            over.set()

    def test_much_at_once(self) -> None:
        """More than one TLS record and more than one read, with no time at all."""
        body = Body().clear().write().text(1, 1, "A" * 1900)
        has_sent, over = threading.Event(), threading.Event()

        def play(host: HostSession) -> None:
            for _ in range(40):
                host.send(body, 2)
            host.send(Body().clear().write().text(1, 1, "LAST"), 2)
            has_sent.set()
            over.wait(60)

        listener = self.serve(self.right, play)
        self.addCleanup(over.set)
        with connect("localhost", listener.port, tls=self.issuer.trusting(), wait=60) as session:
            session.wait_for(lambda screen: screen.state.is_ready)
            self.assertTrue(has_sent.wait(60))
            time.sleep(0.5)  # It is on its way.
            self.assertEqual(session.wait_text("LAST", wait=0).state.records, 41)
            over.set()

    def test_sockets(self) -> None:
        """A session of each kind over a socket that speaks TLS already."""
        ours, theirs = socket.socketpair()

        def play() -> None:
            with HostSession(sock=self.right.wrap_socket(theirs, server_side=True), wait=60) as host:
                host.wait_ready()
                host.send(FORM)
                self.assertEqual(host.wait_answer().fields[0].text, "BOB")

        beside = Beside(play)
        line = self.issuer.trusting().wrap_socket(ours, server_hostname="localhost")
        with Session(sock=line, wait=60) as session:
            session.wait_unlocked()
            session.fill(1, "BOB")
            session.press(Key.ENTER)
            beside.finish()

    def test_no_tls_there(self) -> None:
        """A port that is silent, and one that speaks Telnet."""
        with socket.create_server(("127.0.0.1", 0)) as server:
            port = server.getsockname()[1]
            with self.assertRaisesRegex(TimeoutError, f"localhost port {port} hasn't spoken TLS within 0.2 seconds"):
                connect("localhost", port, tls=True, wait=0.2)
            with self.assertRaisesRegex(TimeoutError, f"localhost port {port} hasn't spoken TLS within 0.2 seconds"):
                asyncio.run(aio.connect("localhost", port, tls=True, wait=0.2))
        with socket.create_server(("127.0.0.1", 0)) as server:

            def play() -> None:
                line, _ = server.accept()
                with line:
                    line.sendall(ASKED)
                    line.recv(4096)

            beside = Beside(play)
            with self.assertRaisesRegex(ssl.SSLError, "(?i)wrong version number|record layer"):
                connect("localhost", server.getsockname()[1], tls=True, wait=60)
            beside.finish()

    def test_tls_is_wanted(self) -> None:
        """A station without TLS at a port for it says that nothing has come."""
        listener = self.serve(self.right)
        with connect("localhost", listener.port, wait=60) as session:
            with self.assertRaisesRegex(WaitedTooLong, "nothing at all has come from the host, .* or is TLS's"):
                session.wait_unlocked(wait=0.2)

    def test_closed_while_it_waits(self) -> None:
        listener, over = self.serve_silence()
        session = connect("localhost", listener.port, tls=self.issuer.trusting(), wait=60)
        told: list[str] = []

        def wait() -> None:
            try:
                session.wait_text("never")
            except StatusError as error:
                told.append(str(error))

        beside = Beside(wait)
        time.sleep(0.2)
        session.close()
        over.set()
        beside.finish()
        self.assertIn("this Session is closed", told[0])

    def test_not_by_tls(self) -> None:
        """Who is silent or says something else takes the call's time alone, and the next is taken within it."""
        with listen(tls=self.right, wait=60) as listener:
            silent = socket.create_connection(("127.0.0.1", listener.port), timeout=60)
            with silent, self.assertRaisesRegex(WaitedTooLong, "a station hasn't come within 0.2 seconds; .* timed out"):
                listener.accept(wait=0.2)
            with socket.create_connection(("127.0.0.1", listener.port)) as wrong:
                wrong.sendall(ASKED)
                beside = Beside(lambda: self.connect_to(listener.port))
                with listener.accept() as host:
                    host.wait_ready()
                beside.finish()

    def connect_to(self, port: int) -> None:
        with connect("localhost", port, tls=self.issuer.trusting(), wait=60) as session:
            session.wait_for(lambda screen: screen.state.is_ready)

    def test_closed_at_a_handshake(self) -> None:
        """A listener that is closed waits for no station's TLS."""
        listener = listen(tls=self.right, wait=60)

        def accept() -> None:
            with self.assertRaisesRegex(StatusError, "this Listener is closed"):
                listener.accept()

        with socket.create_connection(("127.0.0.1", listener.port)):
            begun, beside = time.monotonic(), Beside(accept)
            while not listener._shaking:
                time.sleep(0.01)
            listener.close()
            beside.finish()
            self.assertLess(time.monotonic() - begun, 9)

    def test_aio(self) -> None:
        async def station(port: int) -> str:
            async with await aio.connect("localhost", port, tls=self.issuer.trusting(), wait=60) as session:
                await session.wait_unlocked()
                session.fill(1, "BOB")
                await session.press("Enter")
                return (await session.wait_text("Bye")).row(24)

        async def both() -> tuple[str, str]:
            async with await aio.listen(tls=self.right, wait=60) as listener:
                task = asyncio.ensure_future(station(listener.port))
                async with await listener.accept() as host:
                    await host.wait_ready()
                    await host.send(FORM)
                    answer = await host.wait_answer()
                    await host.send(Body().write(0, 0).text(24, 2, "Bye"))
                    return answer.fields[0].text, await task

        self.assertEqual(asyncio.run(both()), ("BOB", " Bye"))
