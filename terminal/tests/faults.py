"""Bad input, bad peers, lines that end, and what is saved then."""
import os
import signal
import socket
import struct
import subprocess
import tempfile
import termios
import threading
import time

import work
from hosts import Host, READ, field, inputs, plain, says, text, write
from peers import refusing, swallowed
from records import SEND_NAME, record
from window import Terminal, check
from work import FORM, at_form, cut, shown_of


def recordings():
    with tempfile.TemporaryDirectory() as folder:
        old = os.path.join(folder, "mine")
        with open(old, "w") as file:
            file.write("old")
        host, t = at_form("--record", "mine", folder=folder)
        t.tells("REC")
        t.type("12\r")
        host.answer()
        t.type("\x1dr")
        t.tells("Recorded in mine-1.")
        t.until(lambda: "REC" not in t.status(), "and no longer")
        t.type("\x1dr")
        t.tells("Recording in mine-2.")
        host.send(FORM)
        t.at("03/020")
        host.send_raw(record(FORM)[:40])  # A recording that begins inside a record.
        t.settle()
        t.type("\x1dr\x1dr")
        t.tells("Recording in mine-3.")
        host.send_raw(record(FORM)[40:])
        t.type("9\r")
        answer = host.answer()
        check(answer is not None, "the session goes on")
        t.leave(0, "Left.")
        with open(old) as file:
            check(file.read() == "old", "an old file is left alone")
        for name, count in (("mine-1", 1), ("mine-2", 2), ("mine-3", 3)):
            name = os.path.join(folder, name)
            shown = shown_of(name)
            check(shown.count("CLEAR-UNIT") == count, f"{name} can be shown", count, shown[-200:])
            with open(name) as file:
                lines = file.read().splitlines()
            heads = [line.split()[:2] for line in lines]
            check(all(time.isdigit() and side in ("host", "station") for time, side in heads), "its lines")
            times = [int(time) for time, _ in heads]
            check(times == sorted(times), "the times of its lines", times)
            check(os.stat(name).st_mode & 0o777 == 0o600, "others can't read it")
        host.close()
        pipe = os.path.join(folder, "pipe")
        os.mkfifo(pipe)
        reader = os.open(pipe, os.O_RDONLY | os.O_NONBLOCK)
        host, t = at_form("--record", pipe)
        os.close(reader)
        t.rings("a pipe whose reader has ended", lambda: t.type("7\r"))
        t.tells(f"Nothing more is recorded in {pipe[:20]}")
        check(inputs(host.answer()) == (0xF1, {(3, 20): "7"}), "and the session goes on")
        t.leave(1, "Left.", f"The recording {pipe} isn't whole.")
        host.close()
        host = Host()
        t = Terminal("--record", "/dev/full", f"127.0.0.1:{host.port}")
        t.tells("Nothing more is recorded in /dev/full: No space left on device.")
        check(host.ready(), "a full disk ends no session")
        host.send(FORM)
        t.shows(0, "Order")
        t.leave(1, "Left.", "term5250: The recording /dev/full isn't whole.")
        host.close()


def cutting():
    for words in ([], ["a", "both"], ["a"] * 3):
        told = subprocess.run([work.CUT, *words], capture_output=True, text=True)
        check(told.returncode == 2 and told.stderr.startswith("usage"), "the script's usage", told)
    check(subprocess.run([work.CUT, "/nowhere/at/all"], capture_output=True).returncode != 0, "a file that isn't there")


def cut_behind_iac():
    """A line that is cut behind FF, while it is recorded."""
    with tempfile.TemporaryDirectory() as folder:
        host, t = at_form("--record", "cut", folder=folder)
        host.send_raw(record(FORM)[:60] + b"\xff")
        host.close()
        t.tells("The line is lost: the host closed it in mid-record.")
        check("Order" in t.window.text(0), "the screen stays")
        t.type("\x1ds")
        t.leave(1, "The line is lost: the host closed it in mid-record.")
        for name in "cut", "term5250.rec":
            shown = shown_of(os.path.join(folder, name))
            check("truncated at" in shown.splitlines()[-1], "t5250 show tells where it ends", shown[-200:])


def kept_is_the_last():
    """Of a long session the last 256 KiB are kept, from a record's begin on."""
    with tempfile.TemporaryDirectory() as folder:
        host, t = at_form(folder=folder)
        body = write() + b"\x11\x05\x01" + b"\xc1" * 1500 + b"\x04\x11\x00\x00"
        for _ in range(400):
            host.send(body, 2)
        host.send(write() + text(2, 2, "behind all") + field(3, 20, 6) + READ)
        t.shows(1, "behind all")
        t.type("\x1ds")
        t.tells("Saved in")
        t.leave()
        name = os.path.join(folder, "term5250.rec")
        bytes_kept = len(cut(name).replace("\n", "")) // 2
        check(255 * 1024 <= bytes_kept <= 262 * 1024, "the last 256 KiB are kept", bytes_kept)
        shown = shown_of(name)
        check("behind all" in shown and shown.startswith("at 1524 record"), "from a record's begin on", shown[:100])
        host.close()


def bad_peers():
    garbage = b"HTTP/1.1 400 Bad Request\r\n\r\n"
    t = Terminal(f"127.0.0.1:{plain(says(garbage))}")
    t.tells("This is no 5250 host: it sent `HTTP/1.1 400 Bad Request")
    t.leave(1, "This is no 5250 host: it sent `HTTP/1.1 400 Bad Request")
    log_in = b"\xff\xfd\x18\xff\xfd\x20\xff\xfb\x03\r\nlogin: "
    t = Terminal(f"127.0.0.1:{plain(says(log_in))}")
    t.tells("This is no 5250 host: it sent `\\x0D\\x0Alogin: `.")
    t.leave(1)
    t = Terminal(f"127.0.0.1:{plain(lambda line: None)}")
    t.tells("The host has closed the line before a session began.")
    t.leave(1)

    def resets(line):
        line.setsockopt(socket.SOL_SOCKET, socket.SO_LINGER, struct.pack("ii", 1, 0))

    t = Terminal(f"127.0.0.1:{plain(resets)}")
    t.until(lambda: "Connection reset" in t.said.decode("utf-8", "replace"), "a reset")
    if "No connection" in t.said.decode("utf-8", "replace"):
        t.ended(2, "No connection")  # It came before the line was there.
    else:
        t.leave(1, "The line is lost: Connection reset")
    t = Terminal(f"127.0.0.1:{plain(says(b''))}")
    t.tells("the session hasn't begun")
    t.type("a")
    t.tells(" T ")
    t.rings("Attention before the session has begun", lambda: t.type("\x1ba"))
    t.tells("Nothing can be sent")
    t.tells(" T ")
    t.leave(0, "Left.")


def synch():
    """A Telnet Synch: the data mark as urgent data (RFC 854)."""
    host, t = at_form()
    host.line.send(b"\xff\xf2", socket.MSG_OOB)
    host.send(FORM.replace(b"\x04\x52", text(20, 2, "behind") + b"\x04\x52"))
    t.shows(19, "behind", "the session goes on behind a Synch")
    t.type("1\r")
    check(inputs(host.answer()) == (0xF1, {(3, 20): "1"}), "both ways")
    t.leave()
    host.close()


def ipv6():
    try:
        host = Host(socket.AF_INET6, "::1")
    except OSError:
        print("left out: a host at [::1], since there is no such address")
        return
    t = Terminal(f"[::1]:{host.port}")
    host.ready()
    host.send(FORM)
    t.shows(0, "Order", "a host at [::1]")
    t.tells(f"[::1]:{host.port}")
    t.leave()
    host.close()


def floods():
    """SENDs without end, in one piece, from a host that doesn't read: the keyboard stays."""
    host = Host(reads=False)
    t = Terminal(f"127.0.0.1:{host.port}")
    host.ready()
    host.send(FORM)
    t.at("03/020")
    flood = SEND_NAME * 400_000

    def send():
        try:
            host.line.sendall(flood)
        except OSError:
            pass

    threading.Thread(target=send, daemon=True).start()
    time.sleep(0.5)
    t.type("12")
    t.until(lambda: "12" in t.window.text(2), "keys are taken while a host floods and doesn't read")
    t.type("\x1d")
    t.shows(1, "q  leave", "and so is ^]")
    t.type("x")
    end, before = time.monotonic() + 120, t.window.bells
    while t.window.bells == before and time.monotonic() < end:  # Till the line's buffers are full it answers.
        t.type("\x1ba" * 3000)
        t.settle()
    check(t.window.bells > before, "Attention without end rings")
    t.tells("The host doesn't take what is sent: the key wasn't pressed.")
    t.idles("where a host doesn't read", within=30)
    t.type("34")
    t.tells(" T ")
    t.leave(0, "Left.")
    host.close()
    host, t = at_form()
    before = len(host.raw)
    host.send_raw(SEND_NAME * 3000)
    host.send(FORM.replace(b"\x04\x52", text(20, 2, "behind") + b"\x04\x52"))
    t.shows(19, "behind", "3,000 SENDs in one piece")
    t.type("1\r")
    answer = host.answer()
    check(answer is not None and answer[2].endswith("1".encode("cp037")), "are answered before the key", answer, before)
    t.leave()
    host.close()


def stalled():
    """A signal ends it also while nobody reads what it writes to the window."""
    for number in (signal.SIGTERM, signal.SIGHUP):
        host, t = at_form()
        for k in range(70):
            rows = "".join(chr(0x41 + (k * 7 + cell * 11) % 53 % 26) for cell in range(24 * 80 - 2))
            host.send(write() + text(1, 1, rows) + READ)
            time.sleep(0.045)  # Each is drawn, until the window takes no more.
        os.kill(t.child.pid, number)
        try:
            status = t.child.wait(60)
            check(status == 128 + number, "a signal ends it while its window isn't read", status)
        except subprocess.TimeoutExpired:
            t.child.kill()
            check(False, "a signal ends it while its window isn't read")
        check(termios.tcgetattr(t.slave)[:4] == t.before[:4], "the terminal is as it was found")
        t.close()
        host.close()


def while_connecting():
    with swallowed("127.0.0.1") as port:
        t = Terminal(f"127.0.0.1:{port}")
        t.tells("connecting")
        t.resize(30, 100)
        t.tells("connecting")
        t.rings("^C", lambda: t.type("\x03"))
        t.tells("^C is no key here")
        t.type("ab")
        t.tells(" T ")
        t.type("\x1d")
        t.shows(1, "q  leave", "the menu opens while it connects")
        t.idles("while it connects")
        t.type("q")
        t.ended(0, "Left.")
        t = Terminal(f"127.0.0.1:{port}")
        t.tells("connecting")
        t.child.terminate()
        t.ended(143, "Ended by signal 15.")


def in_the_menu():
    """The menu doesn't stop the line, and a window that goes away ends the program."""
    host, t = at_form()
    t.type("1\r\x1d")
    host.answer()
    t.shows(1, "q  leave")
    for _ in range(50):
        host.send(FORM)
        host.send_raw(SEND_NAME)
    t.resize(30, 100)
    t.shows(1, "q  leave", "the menu in another size")
    t.tells("03/020")
    t.rings("text that is pasted there", lambda: t.paste("q"))
    t.type("x")
    t.shows(0, "Order", "and behind it the screen that has come")
    t.type("\x1d")
    t.shows(1, "q  leave")
    t.idles("in the menu")
    t.close()
    try:
        status = t.child.wait(60)
        check(status in (1, 129), "a window that goes away in the menu ends the program", status)
    except subprocess.TimeoutExpired:
        t.child.kill()
        check(False, "a window that goes away in the menu ends the program")
    host.close()


def command_lines():
    with refusing() as port:
        Terminal(f"127.0.0.1:{port}").ended(2, "No connection", "refused")
    for words, texts, more in (
        (["host.invalid:23"], ("No connection to host.invalid:23: ",), {}),
        ([], ("term5250 --help has all options.", "it needs a host"), {}),
        (["--wrong"], ("term5250 --help has all options.", "term5250: unrecognized option '--wrong'"), {}),
        (["-x"], ("term5250 --help has all options.", "term5250: invalid option -- 'x'"), {}),
        (["--mono=yes", "a"], ("term5250 --help has all options.", "option '--mono' doesn't allow an argument"), {}),
        (["a", "b"], ("term5250 --help has all options.", "b is one host too many"), {}),
        (["--terminal"], ("term5250 --help has all options.", "option '--terminal' requires an argument"), {}),
        (["--"], ("term5250 --help has all options.", "it needs a host"), {}),
        (["--", "--mono"], ("No connection to --mono: ",), {}),
        (["--separators=bars", "a"], ("term5250 --help has all options.", "underline or off, and not bars"), {}),
        (["--background", "red", "a"], ("term5250 --help has all options.", "black or own, and not red"), {}),
        (["localhost:107333"], ("port 107333 is out of range: it is 1 to 65535",), {}),
        (["localhost:0"], ("port 0 is out of range",), {}),
        (["--terminal=VT100", "localhost"], ("no such terminal type",), {}),
        (["--record", "/nowhere/at/all", "localhost"], ("/nowhere/at/all: No such file",), {}),
        (["localhost:1"], ("TERM is nosuch, which isn't a terminal that is known here",), {"term": "nosuch"}),
        (["localhost:1"], ("TERM isn't set",), {"term": ""}),
        (["localhost:1"], ("TERM is dumb, which can't move its cursor",), {"term": "dumb"}),
    ):
        said = Terminal(*words, **more).ended(2, *texts)
        check("\x1b" not in said or "No connection" in said, "it is told before the window is touched", words)


def run(*words):
    """The program without a terminal."""
    return subprocess.run([Terminal.program, *words], stdin=subprocess.DEVNULL, capture_output=True, text=True)


def without_a_terminal():
    plain_run = run("localhost:1")
    check(plain_run.returncode == 2 and "needs a terminal" in plain_run.stderr, "without a terminal", plain_run.stderr)
    for words in (["--help"], ["-h"], ["a", "--help"]):
        helped = run(*words)
        is_right = helped.returncode == 0 and helped.stdout.startswith("usage: ") and not helped.stderr
        check(is_right, "help", words, helped)
        check(all(len(line) <= 80 for line in helped.stdout.splitlines()), "in 80 columns", helped.stdout)
    version = run("--version")
    check(version.returncode == 0 and version.stdout.startswith("term5250 ") and not version.stderr, "version", version)
    with open("/dev/full", "w") as full:
        helped = subprocess.run([Terminal.program, "--help"], stdout=full, stderr=subprocess.PIPE, text=True)
    check(helped.returncode == 2 and "No space" in helped.stderr, "help to a full disk", helped)


def without_standard_error():
    """What is said at the end never goes to the host."""
    host = Host()
    t = Terminal("-c", 'exec "$0" "$@" 2>&-', Terminal.program, f"127.0.0.1:{host.port}", program="/bin/sh")
    check(host.ready(), "the session begins")
    host.send(FORM)
    t.at("03/020")
    t.leave()
    check(host.answer() is None and host.raw == b"", "the line has nothing of it", host.raw)
    host.close()
    words = ["/bin/sh", "-c", 'exec "$0" h <&- >&-', Terminal.program]
    closed = subprocess.run(words, stderr=subprocess.PIPE, text=True)
    check(closed.returncode == 2 and "needs a terminal" in closed.stderr, "without the others", closed)


def unwritable_files():
    """What can't be written is told, and the session goes on."""
    host, t = at_form(folder="/proc")
    for key, name in (("s", "term5250.rec"), ("p", "term5250.txt"), ("r", "term5250.rec")):
        t.type("\x1d" + key)
        t.tells(f"{name} can't be written: ")
        t.type("\x1bOC")
        t.until(lambda: "can't" not in t.status(), "its sentence goes with the next key")
    t.type("\x1bOH5\r")
    check(inputs(host.answer()) == (0xF1, {(3, 20): "5"}), "the session goes on")
    t.leave()
    host.close()
