#!/usr/bin/env python3
"""What a byte of a live session costs: `t5250 connect` at a host that sends screens, in instructions.

Build the program first (`cd crates/t5250 && rt run -- check < stdin`), then call this script from anywhere, with another
program's path if it is to be that one. It needs `valgrind`. Each stream is sent in a short and in a long session, and
the difference is told, so what a start costs is taken off. Compare with `ribbon_station_push` of `make -C c bench`,
which takes the same bytes without a connection.
"""
import os
import re
import socket
import subprocess
import sys
import threading

TOP = os.path.join(os.path.dirname(os.path.abspath(__file__)), "..")
PROGRAM = os.path.join(TOP, "crates", "t5250", "out", "t5250")
sys.path.insert(0, os.path.join(TOP, "tests"))

from records import ASKED, record  # noqa: E402

# A form clears the screen, puts a field on it and asks for it; the rows are a whole screen of text.
STREAMS = {
    "small forms": (record("0440 04110000 110634 1D400020000A 04520000", 2), 500, 5_500),
    "rows of text": (record("04110000 110101" + "C1C240D5" * 437, 2), 10, 110),
}


def serve(listening, stream):
    """Sends a session, reads what comes back, and closes."""
    line, _ = listening.accept()
    with line:
        line.sendall(ASKED)
        reader = threading.Thread(target=lambda: [None for _ in iter(lambda: line.recv(65_536), b"")], daemon=True)
        reader.start()
        line.sendall(stream)
        line.shutdown(socket.SHUT_WR)
        reader.join()


def instructions(program, words, stream):
    """How many `connect` with these words takes that waits until the host has closed."""
    with socket.create_server(("127.0.0.1", 0)) as listening:
        threading.Thread(target=serve, args=(listening, stream), daemon=True).start()
        counter = ["valgrind", "--tool=callgrind", "--callgrind-out-file=/dev/null", program]
        host = f"127.0.0.1:{listening.getsockname()[1]}"
        command = [*counter, "connect", *words, "--wait", "120", host]
        run = subprocess.run(command, input="await\n", capture_output=True, text=True)
    counted = re.search(r"Collected : (\d+)", run.stderr)
    return int(counted[1]) if counted else sys.exit(f"not counted: {run.stderr[-300:]}")


def main():
    program = sys.argv[1] if len(sys.argv) > 1 else PROGRAM
    for words in [], ["--strict"]:
        for name, (unit, few, many) in STREAMS.items():
            spent = instructions(program, words, unit * many) - instructions(program, words, unit * few)
            told = " ".join([name, *words])
            print(f"{told:<22}{spent / (len(unit) * (many - few)):8.1f} instructions a byte")


main()
