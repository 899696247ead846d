#!/usr/bin/env python3
"""What a round trip through pipes takes: a line to `t5250 connect` or `serve`, over its connection, and what it prints.

Build the program first (`cd crates/t5250 && rt run -- check < stdin`), then call this script from anywhere, with
another program's path if it is to be that one. It needs `cc`. A round of `connect` is `key Enter` and `await`: an
answer goes to a host, which sends the next screen. One of `serve` is `send 3 HEX` and `await`: a screen goes to a
station, which sends an answer. With them runs a bare echo, a program in C that carries as many bytes through the
same pipes, and over a connection to the same other side, and looks at none. Rounds of both take turns, and the ratio
is told, the median and the middle half; how long a round takes hangs on the machine and isn't told.
"""
import multiprocessing
import os
import pathlib
import socket
import statistics
import subprocess
import sys
import tempfile
import time

TOP = pathlib.Path(__file__).resolve().parent.parent
sys.path.insert(0, str(TOP / "tests"))

from records import ANSWERED, ASKED, record  # noqa: E402

BUILT = TOP / "crates/t5250/out/t5250"
TURNS, ROUNDS = 40, 100

# A form clears the screen, puts a field on it and asks for it; the rows are a whole screen of text.
SCREENS = {
    "a form": bytes.fromhex("0440 04110008 110634 1D400020000A 04520000"),
    "rows of text": bytes.fromhex("0440 04110008 110101") + b"\xc1\xc2\x40\xd5" * 437 + bytes.fromhex("04520000"),
}
# The cursor of the form is in its field; without a field it is at 1, 1.
CURSORS = {"a form": b"\x06\x35", "rows of text": b"\x01\x01"}

ECHO = r"""
#include <arpa/inet.h>
#include <netinet/tcp.h>
#include <stdlib.h>
#include <string.h>
#include <unistd.h>

static char bytes[1 << 16];

static int take(int from, size_t length) {
    for (size_t have = 0; have < length;) {
        ssize_t got = read(from, bytes, length - have);
        if (got <= 0) return 0;
        have += (size_t)got;
    }
    return 1;
}

/* echo PORT TOLD SENT TAKEN PRINTED: so many bytes from the pipe, over the connection, back, and into the pipe */
int main(int count, char **words) {
    struct sockaddr_in to = {.sin_family = AF_INET, .sin_port = htons((unsigned short)atoi(words[1]))};
    int line = socket(AF_INET, SOCK_STREAM, 0), on = 1;
    to.sin_addr.s_addr = htonl(INADDR_LOOPBACK);
    if (count != 6 || connect(line, (struct sockaddr *)&to, sizeof to) != 0) return 1;
    setsockopt(line, IPPROTO_TCP, TCP_NODELAY, &on, sizeof on);
    while (take(0, (size_t)atoi(words[2]))) {
        if (write(line, bytes, (size_t)atoi(words[3])) < 0 || !take(line, (size_t)atoi(words[4]))) return 1;
        if (write(1, bytes, (size_t)atoi(words[5])) < 0) return 1;
    }
    return 0;
}
"""


def exactly(line, length):
    """Reads so many bytes. False where the other side has closed."""
    while length:
        piece = line.recv(min(length, 65_536))
        if not piece:
            return False
        length -= len(piece)
    return True


def answer(line, says, skipped, asked, reply):
    """The other side of a connection: it says something, and gives each so many bytes the same reply."""
    line.setsockopt(socket.IPPROTO_TCP, socket.TCP_NODELAY, 1)
    line.sendall(says)
    exactly(line, skipped)
    while exactly(line, asked):
        line.sendall(reply)


def accept(listening, *rest):
    answer(listening.accept()[0], *rest)


def dial(port, *rest):
    answer(socket.create_connection(("127.0.0.1", port)), *rest)


class Piped:
    """A program with pipes, and the other side of its connection in a process of its own."""

    def __init__(self, words, other_side, *rest):
        self.program = subprocess.Popen(words, stdin=subprocess.PIPE, stdout=subprocess.PIPE, bufsize=0)
        if other_side is dial:
            port = int(self.until(b"\n").rpartition(b":")[2])
            rest = (port, *rest)
        self.other = multiprocessing.get_context("fork").Process(target=other_side, args=rest, daemon=True)
        self.other.start()

    def until(self, end):
        text = b""
        while not text.endswith(end):
            piece = os.read(self.program.stdout.fileno(), 65_536)
            if not piece:
                sys.exit(f"it has ended after {text!r}")
            text += piece
        return text

    def round(self, told, length):
        os.write(self.program.stdin.fileno(), told)
        while length > 0:
            piece = os.read(self.program.stdout.fileno(), 65_536)
            if not piece:
                sys.exit("it has ended")
            length -= len(piece)

    def rounds(self, told, length):
        began = time.perf_counter()
        for _ in range(ROUNDS):
            self.round(told, length)
        return time.perf_counter() - began

    def end(self):
        self.program.stdin.close()
        self.other.terminate()
        self.program.wait()


def beside_echo(echo, ours, told, printed, asked, reply):
    """The ratios of rounds of ours to those of an echo of as many bytes."""
    with socket.create_server(("127.0.0.1", 0)) as listening:
        words = [echo, listening.getsockname()[1], len(told), asked, len(reply), len(printed)]
        bare = Piped([str(word) for word in words], accept, listening, b"", 0, asked, reply)
        ratios = [ours.rounds(told, len(printed)) / bare.rounds(told, len(printed)) for _ in range(TURNS)]
        bare.end()
    ours.end()
    return ratios[TURNS // 10:]


def connect_ratios(program, echo, name):
    screen, sent = record(SCREENS[name]), record(CURSORS[name] + b"\xf1")
    with socket.create_server(("127.0.0.1", 0)) as listening:
        words = [program, "connect", "--ready", f"127.0.0.1:{listening.getsockname()[1]}"]
        ours = Piped(words, accept, listening, ASKED + screen, len(ANSWERED), len(sent), screen)
        ours.round(b"await\n", len("ok\n"))
        return beside_echo(echo, ours, b"key Enter\nawait\n", b"ok\nok\n", len(sent), screen)


def serve_ratios(program, echo, name):
    screen, reply = record(SCREENS[name]), record(CURSORS[name] + b"\xf1")
    words = [program, "serve", "--ready", "127.0.0.1:0"]
    ours = Piped(words, dial, ANSWERED, len(ASKED), len(screen), reply)
    ours.round(b"await\n", len("host ready IBM-3179-2\nok\n"))
    told = f"send 3 {SCREENS[name].hex().upper()}\nawait\n".encode()
    row, column = CURSORS[name]
    return beside_echo(echo, ours, told, f"ok\nanswer {row} {column} F1\nok\n".encode(), len(screen), reply)


def main():
    program = sys.argv[1] if len(sys.argv) > 1 else str(BUILT)
    with tempfile.TemporaryDirectory() as folder:
        source, echo = pathlib.Path(folder) / "echo.c", f"{folder}/echo"
        source.write_text(ECHO)
        subprocess.run(["cc", "-std=gnu11", "-O2", "-Wall", "-Wextra", "-o", echo, source], check=True)
        for ratios_of in connect_ratios, serve_ratios:
            for name in SCREENS:
                low, middle, high = statistics.quantiles(ratios_of(program, echo, name), n=4)
                kind = ratios_of.__name__.partition("_")[0]
                print(f"{kind:<8}{name:<14}{middle:5.2f} of a bare echo ({low:.2f} to {high:.2f})", flush=True)


main()
