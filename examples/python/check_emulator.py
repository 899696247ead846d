#!/usr/bin/env python3
"""Tests an emulator: `check_emulator.py COMMAND..` plays a host, and starts COMMAND with the port in place of {port}.

The emulator is to type BOB into the field after Name, and to press Enter.
"""
import subprocess
import sys

from ribbonscarp import EventKind, HostSession, Key, RibbonscarpError, listen

# Clear Unit; Write to Display that unlocks the keyboard: a text at 6 44, a field of ten cells at 6 53; Read MDT Fields.
FORM = (
    bytes.fromhex("0440 04110008 11062C")
    + "Name  . .".encode("cp037")
    + bytes.fromhex("110634 1D400020000A 04520000")
)


def check(fact: bool, what: str) -> None:
    print("ok" if fact else "not so:", what)
    if not fact:
        raise SystemExit(1)


def run(station: HostSession) -> None:
    print("ready:", station.wait_ready())
    station.send(FORM)
    answer = station.wait_answer()
    name = answer.field(6, 53)
    check(answer.key is Key.ENTER, "Enter answers the read")
    check(name is not None and name.text == "BOB", "the field that was typed into is sent, without its empty cells")
    check(len(answer.fields) == 1, "no other field is sent")
    check(answer.cursor == (6, 56), "the cursor stands after what was typed")

    station.send(FORM)
    station.cancel()
    kind = station.wait_event().kind
    check(kind in (EventKind.CANCELLED, EventKind.ANSWER), "a read can be cancelled")


def main() -> int:
    if not sys.argv[1:]:
        print("usage: check_emulator.py COMMAND..", file=sys.stderr)
        return 2
    with listen(wait=10) as listener:
        command = [word.replace("{port}", str(listener.port)) for word in sys.argv[1:]]
        try:
            emulator = subprocess.Popen(command, stdout=subprocess.DEVNULL)
        except OSError as error:
            print("the emulator doesn't start:", error, file=sys.stderr)
            return 2
        try:
            with listener.accept() as station:
                run(station)
        except RibbonscarpError as error:
            print("not so:", error)
            return 1
        finally:
            emulator.terminate()
            emulator.wait()
    return 0


if __name__ == "__main__":
    sys.exit(main())
