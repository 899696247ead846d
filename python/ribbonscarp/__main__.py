"""The package as a program: `python3 -m ribbonscarp tap LISTEN HOST`."""
from __future__ import annotations

import argparse
import asyncio
import os
import re
import socket
import sys

from .connection import check_port
from .errors import LibraryNotFound
from .library import library
from .tap import Tap, cause_of, spelled

_ADDRESS = re.compile(r"\[([^\[\]]+)\](?::(\d+))?|([^:\[\]]+)(?::(\d+))?|([^\[\]]*:[^\[\]]*:[^\[\]]*)")


def host(text: str) -> tuple[str, int]:
    """A host and its port, `HOST[:PORT]`: without a port it is 23. An address of IPv6 stands in brackets before one."""
    found = _ADDRESS.fullmatch(text)
    if found is None:
        raise argparse.ArgumentTypeError(f"{text} is no HOST[:PORT]")
    port = found[2] or found[4]
    return found[1] or found[3] or found[5], _port(port, 1) if port else check_port(None)


def listening(text: str) -> tuple[str, int]:
    """An address to listen at with its port, `ADDRESS:PORT`: 0 takes a free one."""
    found = _ADDRESS.fullmatch(text)
    if found is None or not (found[2] or found[4]):
        raise argparse.ArgumentTypeError(f"{text} is no ADDRESS:PORT")
    return found[1] or found[3], _port(found[2] or found[4], 0)


def _port(text: str, first: int) -> int:
    try:
        return check_port(int(text), first=first)
    except ValueError:
        raise argparse.ArgumentTypeError(f"{text} is no port") from None


def seconds(text: str) -> float:
    if not re.fullmatch(r"\d{1,5}(\.\d+)?", text) or not float(text):
        raise argparse.ArgumentTypeError(f"{text} is no number of seconds")
    return float(text)


def parser() -> argparse.ArgumentParser:
    whole = argparse.ArgumentParser(prog="python3 -m ribbonscarp", allow_abbrev=False)
    commands = whole.add_subparsers(dest="command", required=True)
    tap = commands.add_parser(
        "tap",
        allow_abbrev=False,
        help="between an emulator and its host: passes bytes on, records both ends, prints what passes",
        description="Listens for an emulator, connects to its host, and passes on what both send, one connection after "
        "another. It prints each record and each Telnet command as it passes, and where the host's stream goes wrong. It "
        "records both ends, passwords too. ^C ends it.",
    )
    add = tap.add_argument
    add("listen", metavar="LISTEN", type=listening, help="ADDRESS:PORT for the emulator; 0 takes a free port")
    add("host", metavar="HOST", type=host, help="HOST[:PORT] of the host; PORT is 23 by default")
    add("--record", metavar="FILE", default="tap.recording", help="the recording's file, tap.recording by default")
    add("--wait", metavar="SECONDS", type=seconds, default=10.0, help="how long the host has to answer, 10 by default")
    return whole


def run_tap(words: argparse.Namespace) -> int:
    """Serves until it is interrupted; 2 where it can't listen."""
    (name, port), (address, listened) = words.host, words.listen
    tap = Tap(name, port, words.record, wait=words.wait)
    try:
        found = socket.getaddrinfo(address, listened, type=socket.SOCK_STREAM, flags=socket.AI_PASSIVE)
        family, _, _, _, address = found[0]
        listener = socket.create_server(address[:2] if family == socket.AF_INET else address, family=family)
    except OSError as fault:
        tap.warn(f"cannot listen at {spelled(words.listen)}: {cause_of(fault)}")
        return 2
    with listener:
        tap.print(f"listening {spelled(listener.getsockname())}")
        asyncio.run(tap.serve(listener))
    return 0


def main() -> int:
    words = parser().parse_args()
    try:
        library()
        return run_tap(words)
    except LibraryNotFound as fault:
        print(fault, file=sys.stderr)
        return 2
    except KeyboardInterrupt:
        return 0
    except BrokenPipeError:
        # Nobody reads what is printed any more. What is left of it can't be printed at the end either.
        os.dup2(os.open(os.devnull, os.O_WRONLY), sys.stdout.fileno())
        return 0
    except OSError as fault:
        print(f"cannot go on: {cause_of(fault)}", file=sys.stderr)
        return 2


if __name__ == "__main__":
    sys.exit(main())
