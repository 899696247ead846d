"""TLS: certificates that are right, for another name, expired, of nobody known, and a host that asks for one."""
import os
import socket
import ssl
import struct
import subprocess
import tempfile
import termios

from certificates import NEW_KEY, Authority, Front, context_of, has_tls
from connecting import NEXT, QUIET, box, in_box
from hosts import Host, READ, field, inputs, plain, says, text, write
from records import record
from window import Terminal, check
from work import FORM

NOWHERE = {"SSL_CERT_FILE": "/nowhere", "SSL_CERT_DIR": "/nowhere"}


def behind(pem, **more):
    """A host, and TLS in front of it."""
    host = Host()
    return host, Front(context_of(pem, **more), host.port)


def store(own):
    """An environment whose store of certificates has one who signs, and no other."""
    return {"SSL_CERT_FILE": own.file("ca.pem"), "SSL_CERT_DIR": "/nowhere"}


def works(t, host, sign):
    """A session by TLS, both ways."""
    host.window = t
    t.until(host.is_ready.is_set, "the session begins")
    host.send(FORM)
    t.at("03/020")
    t.tells(sign)
    t.type("5\r")
    check(inputs(host.answer()) == (0xF1, {(3, 20): "5"}), "both ways")


def right():
    """A certificate for the name or the address that was asked for, of one who is known: by `--ca` or to the system."""
    if not has_tls():
        return
    with tempfile.TemporaryDirectory() as folder:
        own = Authority(folder)
        pem = own.sign("right", "DNS:localhost,IP:127.0.0.1")
        for words, name, environment in ((["--ca", own.file("ca.pem")], "localhost", NOWHERE),
                                         (["--ca", own.file("ca.pem")], "127.0.0.1", NOWHERE),
                                         (["--ca", pem], "localhost", NOWHERE), ([], "localhost", store(own))):
            host, front = behind(pem)
            asked = []
            front.context.sni_callback = lambda line, asked_for, context, asked=asked: asked.append(asked_for)
            t = Terminal("--tls", *words, f"{name}:{front.port}", **environment)
            works(t, host, " TLS ")
            check(asked == ["localhost" if name == "localhost" else None], "the name that the host is asked for", asked)
            t.leave(0, "Left.")
            check(host.answer() is None, "the host is told of the end")
            front.close()
            host.close()
        carries_much(own, pem)
        at_its_port(own, pem)


def carries_much(own, pem):
    """More at once than a record of TLS or a look at the line takes, both ways; then the host closes."""
    host, front = behind(pem)
    host.window = t = Terminal("--tls", "--ca", own.file("ca.pem"), f"localhost:{front.port}")
    t.until(host.is_ready.is_set, "the session begins")
    body = write() + b"\x11\x05\x01" + b"\xc1" * 1500 + b"\x04\x11\x00\x00"
    host.send_raw(record(body, 2) * 300 + record(b"\x04\x02", 4) * 100)
    answers = [host.answer() for _ in range(100)]
    check(all(answer == answers[0] and answer[0] == 4 for answer in answers), "each of 100 saves is answered")
    host.send(write() + text(2, 2, "behind all") + field(3, 20, 6) + READ)
    t.shows(1, "behind all")
    t.idles("behind it")
    host.close()
    in_box(t, "The host has closed the line.")
    t.leave(0, "The host has closed the line.")
    front.close()


def at_its_port(own, pem):
    """The port is 992 where none is named."""
    host = Host()
    try:
        front = Front(context_of(pem), host.port, 992)
    except OSError as error:
        print("left out: TLS at port 992, since a test can't listen there:", error)
        host.close()
        return
    t = Terminal("--tls", "--ca", own.file("ca.pem"), "localhost")
    works(t, host, " TLS ")
    t.leave()
    front.close()
    host.close()


def wrong_ones(own, folder):
    """Certificates that are refused, each with its sentence."""
    stranger = Authority(os.path.join(folder, "stranger"), "A stranger")
    stranger.run("req", "-x509", *NEW_KEY, "-keyout", "alone.pem", "-out", "a.crt", "-subj", "/CN=localhost",
                 "-addext", "subjectAltName=DNS:localhost")
    with open(stranger.file("alone.pem"), "a") as both:
        both.write((stranger.folder / "a.crt").read_text())
    return (
        (own.sign("name", "DNS:other.example,DNS:as400.test"),
         "The host's certificate is for another name: for DNS:other.example, DNS:as400.test, and not for localhost."),
        (own.sign("expired", "DNS:localhost", end="20210304050607Z"),
         "The host's certificate has expired: it was valid up to Mar 4 05:06:07 2021 GMT."),
        (own.sign("early", "DNS:localhost", begin="20480304050607Z"),
         "The host's certificate isn't valid yet: it will be from Mar 4 05:06:07 2048 GMT on."),
        (stranger.sign("unknown", "DNS:localhost"),
         "The issuer of the host's certificate, CN=A stranger, isn't known here: --ca names a file of those that are."),
        (stranger.file("alone.pem"),
         "The host's certificate is signed by itself, and isn't known here: --ca names a file of those that are."),
    )


def refused_certificates():
    """A check that fails is told, with what is wrong; no byte of the session goes out."""
    if not has_tls():
        return
    with tempfile.TemporaryDirectory() as folder:
        own = Authority(folder)
        for pem, sentence in wrong_ones(own, folder):
            host, front = behind(pem)
            t = Terminal("--tls", "--reconnect", f"localhost:{front.port}", **store(own))
            said = t.ended(2)
            check(f"term5250: {sentence}" in " ".join(said.split()), "its sentence", sentence, said[-300:])
            check(not host.is_ready.is_set() and not host.raw, "nothing goes to such a host")
            t = Terminal("--tls", "--insecure", f"localhost:{front.port}", **NOWHERE)
            works(t, host, " INSECURE ")
            t.leave()
            front.close()
            host.close()


def refused_later():
    """A certificate that is refused when connecting again is told in the box, and not tried again by itself."""
    if not has_tls():
        return
    with tempfile.TemporaryDirectory() as folder:
        own = Authority(folder)
        pem = own.sign("right", "DNS:localhost")
        host, front = behind(pem)
        t = Terminal("--tls", "--reconnect", f"localhost:{front.port}", **store(own))
        works(t, host, " TLS ")
        host.again()
        for at, (wrong, sentence) in enumerate(wrong_ones(own, folder)):
            front.context = context_of(wrong)
            if at == 0:
                host.hang_up()
            else:
                t.type("c")
            in_box(t, f"{sentence} c connect again")
            t.settle(QUIET)
        check("It begins again" not in box(t), "not by itself", box(t))
        front.context = context_of(pem)
        t.type("c")
        t.until(host.is_ready.is_set, "by a key it is tried again")
        host.send(NEXT)
        t.shows(1, "Another day")
        t.leave()
        front.close()
        host.close()


def asks(t):
    """The key's password is asked for, and what is typed then isn't shown."""
    t.until(lambda: b"Enter PEM pass phrase:" in t.said, "the password is asked for")
    t.until(lambda: not termios.tcgetattr(t.slave)[3] & termios.ECHO, "without an echo")


def own_certificate():
    """A host that asks for a certificate gets this end's, whose key may have a password."""
    if not has_tls():
        return
    with tempfile.TemporaryDirectory() as folder:
        own = Authority(folder)
        pem, mine = own.sign("right", "DNS:localhost"), own.sign("mine", "DNS:clerk")
        own.run("ec", "-in", "mine.key", "-aes256", "-out", "locked.key", "-passout", "pass:some words")
        known = ["--tls", "--ca", own.file("ca.pem")]
        for words in (["--cert", mine], ["--cert", own.file("mine.crt"), "--key", own.file("mine.key")]):
            host, front = behind(pem, clients=own.file("ca.pem"))
            t = Terminal(*known, *words, f"localhost:{front.port}")
            works(t, host, " TLS ")
            t.leave()
        t = Terminal(*known, "--cert", own.file("mine.crt"), "--key", own.file("locked.key"), f"localhost:{front.port}")
        asks(t)
        host.again()
        t.type("some words\r")
        works(t, host, " TLS ")
        t.leave()
        check("some words" not in t.said.decode("utf-8", "replace"), "and not shown")
        t = Terminal(*known, "--cert", own.file("mine.crt"), "--key", own.file("locked.key"), f"localhost:{front.port}")
        asks(t)
        t.type("other words\r")
        t.ended(2, f"term5250: {own.file('locked.key')}: bad decrypt")
        t = Terminal(*known, f"localhost:{front.port}")
        in_box(t, "The line is lost: tlsv13 alert certificate required.")
        t.leave(1)
        front.context = context_of(pem, clients=own.file("ca.pem"), version=ssl.TLSVersion.TLSv1_2)
        Terminal(*known, f"localhost:{front.port}").ended(2, "The host refuses TLS: ", "alert handshake failure.")
        front.close()
        host.close()


def broken():
    """Bytes that aren't TLS in a session by TLS, a line that is reset, and garbage that came by TLS."""
    if not has_tls():
        return
    with tempfile.TemporaryDirectory() as folder:
        own = Authority(folder)
        pem = own.sign("right", "DNS:localhost")

        def write_by(front):
            os.write(front.secured.fileno(), bytes(range(64)))

        def reset(front):
            front.secured.setsockopt(socket.SOL_SOCKET, socket.SO_LINGER, struct.pack("ii", 1, 0))
            front.close_line()

        for act, sentence in ((write_by, "The line is lost: wrong version number."),
                              (reset, "The line is lost: Connection reset by peer.")):
            host, front = behind(pem)
            t = Terminal("--tls", "--ca", own.file("ca.pem"), f"localhost:{front.port}")
            works(t, host, " TLS ")
            act(front)
            in_box(t, f"{sentence} c connect again")
            t.leave(1, sentence)
            front.close()
            host.close()
        front = Front(context_of(pem), plain(says(b"login: ")))
        t = Terminal("--tls", "--ca", own.file("ca.pem"), f"localhost:{front.port}")
        in_box(t, "This is no 5250 host: it sent `login: `.")
        t.leave(1)
        front.close()


def no_tls_there():
    """Ports that don't speak TLS, and hosts that close."""
    if not has_tls():
        return
    host = Host()
    host.window = t = Terminal("--tls", f"127.0.0.1:{host.port}")
    t.ended(2, "term5250: What this port speaks isn't TLS.\r\n")
    host.close()
    for said in b"HTTP/1.1 400 Bad Request\r\n\r\n", b"SSH-2.0-OpenSSH_9.2\r\n":
        port = plain(lambda line, said=said: (line.recv(1000), says(said)(line)))
        Terminal("--tls", f"127.0.0.1:{port}").ended(2, "What this port speaks isn't TLS.")
    port = plain(lambda line: line.recv(1000))
    Terminal("--tls", f"127.0.0.1:{port}").ended(2, "The host has closed the line while TLS began.")


def tls_words():
    """What can't be loaded is told by its file, and options that need another."""
    rows = [
        (["--ca", "/nowhere/ca.pem", "a"], "--ca, --cert and --insecure are for --tls, which isn't there"),
        (["--insecure", "a"], "--ca, --cert and --insecure are for --tls, which isn't there"),
        (["--cert", "x", "a"], "--ca, --cert and --insecure are for --tls, which isn't there"),
        (["--tls", "--key", "x", "a"], "--key is for --cert, which isn't there"),
    ]
    with tempfile.TemporaryDirectory() as folder:
        if has_tls():
            own = Authority(folder)
            own.sign("mine", "DNS:clerk")
            own.sign("other", "DNS:clerk")
            mine, key = own.file("mine.crt"), own.file("other.key")
            rows += [
                (["--tls", "--ca", "/nowhere/ca", "a"], "term5250: /nowhere/ca: No such file or directory\r\n"),
                (["--tls", "--cert", "/nowhere/me", "a"], "term5250: /nowhere/me: No such file or directory\r\n"),
                (["--tls", "--ca", "/dev/null", "a"], "term5250: /dev/null: no certificate or crl found\r\n"),
                (["--tls", "--cert", mine, "a"], f"term5250: {mine}: it holds no key that can be read\r\n"),
                (["--tls", "--cert", mine, "--key", key, "a"], f"term5250: {key}: key values mismatch\r\n"),
            ]
        for words, sentence in rows:
            said = Terminal(*words).ended(2, sentence)
            check("\x1b" not in said, "it is told before the window is touched", words)


def without_tls(program):
    """A program that was built without TLS says so."""
    told = subprocess.run([program, "--version"], capture_output=True, text=True)
    check("without TLS" in told.stdout, "it tells by --version", told.stdout)
    Terminal("--tls", "localhost", program=program).ended(
        2, "term5250: --tls: this program was built without TLS, since libssl-dev wasn't there\r\n")
