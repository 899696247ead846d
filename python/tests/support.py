"""What several tests use: bodies of records, a station and a host in one process, and runs of the program."""
from __future__ import annotations

import os
import pathlib
import subprocess
import sys
import tempfile
import threading
from collections.abc import Callable
from concurrent.futures import Future

from ribbonscarp import Host, Station

TOP = pathlib.Path(__file__).resolve().parents[2]
sys.path.append(str(TOP / "tests"))

from peers import refusing as refusing  # noqa: E402
from records import ASKED as ASKED, record as record  # noqa: E402

PROGRAM = os.environ.get("T5250", str(TOP / "crates/t5250/out/t5250"))
EXAMPLES = TOP / "examples"

# Clear Unit, Write to Display that unlocks, a field of ten cells at 6 53, and Read MDT Fields.
FORM = bytes.fromhex("0440 04110008 110634 1D400020000A 04520000")

# The bodies of examples/: a sign-on, an inquiry, and its price.
SIGN_ON = bytes.fromhex(
    "0440 04110008 110125E289879540D695 110611E4A28599404B404B 110634 1D400020000A"
    "110711D781A2A2A6969984404B404B 110734 1D400027000A 04520000"
)
# Write to Display up to a byte past the last cell: the screen refuses it (51).
PAST_END = bytes.fromhex("04110008 111850 C1C1")


def ready_station(*bodies: bytes, strict: bool = False) -> Station:
    """A station to which records may be sent, and which has taken some."""
    station = Station(strict=strict)
    station.push(ASKED)
    for body in bodies:
        station.push(record(body))
    return station


class Pair:
    """A station and a host's end, and what the host's end was told."""

    def __init__(self) -> None:
        self.station, self.host = Station(), Host()
        self.events: list[object] = []
        self.carry(self.host.opening)

    def carry(self, down: bytes) -> None:
        """Brings bytes to the station, and what comes of them to and fro."""
        while down:
            heard = self.host.push(self.station.push(down))
            self.events += heard.events
            down = heard.reply

    def answer(self, up: bytes) -> None:
        """Brings bytes to the host's end."""
        heard = self.host.push(up)
        self.events += heard.events
        self.carry(heard.reply)

    def close(self) -> None:
        self.station.close()
        self.host.close()


class Serve:
    """`t5250 serve` of a script, as a `with`: its port, and after it what it has printed and its status."""

    def __init__(self, script: str, *words: str) -> None:
        self.script, self.words = script, words
        self.printed, self.status = "", -1

    def __enter__(self) -> Serve:
        with tempfile.NamedTemporaryFile("w", suffix=".serve", delete=False) as file:
            file.write(self.script)
        self.file = file.name
        command = [PROGRAM, "serve", "--wait", "60", *self.words, "127.0.0.1:0", self.file]
        self.process = subprocess.Popen(command, stdout=subprocess.PIPE, text=True)
        assert self.process.stdout is not None
        self.port = int(self.process.stdout.readline().rpartition(":")[2])
        return self

    def __exit__(self, *error: object) -> None:
        if error[0] is not None:
            self.process.kill()
        self.printed, _ = self.process.communicate(timeout=120)
        self.status = self.process.returncode
        os.unlink(self.file)


def run_connect(port: int, script: str, *words: str) -> subprocess.Popen[str]:
    """`t5250 connect` with a script, begun."""
    command = [PROGRAM, "connect", "--wait", "60", *words, f"127.0.0.1:{port}"]
    process = subprocess.Popen(command, stdin=subprocess.PIPE, stdout=subprocess.PIPE, text=True)
    assert process.stdin is not None
    process.stdin.write(script)
    process.stdin.close()
    process.stdin = None
    return process


class Beside(Future[None]):
    """Something that runs on a thread of its own; `finish` raises what it raised."""

    def __init__(self, work: Callable[[], None]) -> None:
        super().__init__()
        threading.Thread(target=self.run, args=(work,), daemon=True).start()

    def run(self, work: Callable[[], None]) -> None:
        try:
            work()
            self.set_result(None)
        except BaseException as error:
            self.set_exception(error)

    def finish(self) -> None:
        self.result(120)
