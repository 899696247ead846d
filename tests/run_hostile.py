#!/usr/bin/env python3
"""Runs the built program on streams that were changed at random, and looks at what must hold of any stream.

Build the program first (`cd crates/t5250 && rt run -- check < stdin`), then call this script from anywhere:
`python3 tests/run_hostile.py [SEED [STREAMS]]`. The streams of a seed are always the same. It tells of each stream of
which something else holds. Its last line counts the streams, and its own status is 1 where there is such a one.

`check` prints one line and ends with its status, however the stream is cut. `show` ends with that line, unless a
screen refuses a record before (a reason from 50 to 55), and with the cursor's line where the stream is accepted.
"""
import os
import random
import re
import subprocess
import sys

CRATE = os.path.join(os.path.dirname(os.path.abspath(__file__)), "..", "crates", "t5250")
PROGRAM = os.path.abspath(os.path.join(CRATE, "out", "t5250"))
VECTORS = os.path.join(CRATE, "..", "rows_decoder", "src", "vectors.rt")

# What a host sends, and what a station does.
SIDES = [[], ["--answers"]]

ACCEPTED = re.compile(r"accepted: \d+ records, \d+ commands, (\d+) bytes\n")
REFUSED = re.compile(r"refused at (\d+): reason (\d+) [A-Za-z]+\n")
TRUNCATED = re.compile(r"truncated at (\d+)\n")


# The streams of the tests, as their table spells them.
def vectors():
    with open(VECTORS) as file:
        text = file.read()
    for spelled in re.findall(r'\bb"((?:[^"\\]|\\x..)*)"', text):
        yield re.sub(r"\\x(..)", lambda byte: chr(int(byte[1], 16)), spelled).encode("latin-1")


def changed(chance, stream):
    at = chance.randrange(len(stream) + 1)
    end = min(len(stream), at + chance.randrange(1, 5))
    match chance.randrange(6):
        case 0 | 1:
            new = bytes([chance.choice([0x00, 0x04, 0x11, 0x1D, 0xEF, 0xF0, 0xFA, 0xFF, chance.randrange(256)])])
            return stream[:at] + new + stream[at + 1 :]
        case 2:
            return stream[:at] + bytes(chance.randrange(256) for _ in range(chance.randrange(1, 4))) + stream[at:]
        case 3:
            return stream[:at] + stream[end:]
        case 4:
            return stream[:end] + stream[at:]
        case _:
            return stream[:at]


def run(words, stream):
    done = subprocess.run([PROGRAM, *words], input=stream.hex(), capture_output=True, text=True, timeout=300)
    return done.returncode, done.stdout, done.stderr


# Mostly streams that one side may send, one behind another, with few changes.
def streams(seed, count):
    chance = random.Random(seed)
    known = [vector for vector in vectors() if vector]
    sides = [[vector for vector in known if run(["check", *side], vector)[0] == 0] for side in SIDES]
    for _ in range(count):
        whole = chance.choice(sides)
        parts = (chance.choice(whole if chance.randrange(8) else known) for _ in range(chance.randrange(1, 4)))
        stream = b"".join(parts)
        for _ in range(chance.randrange(3)):
            stream = changed(chance, stream)
        yield stream


# Whether it is a verdict on so many bytes, with its status.
def is_verdict(status, line, length):
    if accepted := ACCEPTED.fullmatch(line):
        return status == 0 and int(accepted[1]) == length
    if refused := REFUSED.fullmatch(line):
        return status == 1 and int(refused[1]) < length and int(refused[2]) < 50
    if truncated := TRUNCATED.fullmatch(line):
        return status == 1 and int(truncated[1]) == length
    return False


# Whether what `show` gives goes with the verdict.
def is_shown(verdict, shown):
    (status, line, _), (shown_status, text, error) = verdict, shown
    if error != "":
        return False
    last = text.splitlines(keepends=True)[-1]
    refused, by_screen = REFUSED.fullmatch(line), REFUSED.fullmatch(last)
    if by_screen and 50 <= int(by_screen[2]) <= 55:
        return shown_status == 1 and (refused is None or int(by_screen[1]) < int(refused[1]))
    if status == 0:
        return shown_status == 0 and last.startswith("cursor ")
    return (shown_status, last) == (status, line)


# What doesn't hold of a stream.
def faults(stream):
    for side in SIDES:
        verdict = run(["check", *side], stream)
        if verdict[2] != "" or not is_verdict(*verdict[:2], len(stream)):
            yield f"check {side} gave {verdict}"
        for cut in "1", "7":
            again = run(["check", *side, "--cut", cut], stream)
            if again != verdict:
                yield f"check {side} in pieces of {cut} gave {again}, and not {verdict}"
        if not side:
            shown = run(["show"], stream)
            if not is_shown(verdict, shown):
                yield f"show gave {shown}, and check {verdict}"


def main():
    if not os.path.exists(PROGRAM):
        sys.exit(f"there is no {PROGRAM}: build it first")
    seed = int(sys.argv[1]) if len(sys.argv) > 1 else 5250
    count = int(sys.argv[2]) if len(sys.argv) > 2 else 250
    failed = 0
    for stream in streams(seed, count):
        found = list(faults(stream))
        for fault in found:
            print(f"{stream.hex()}: {fault}")
        failed += bool(found)
    print(f"{count} streams of seed {seed}, each whole and in pieces")
    print(f"{count - failed} passed, {failed} failed")
    sys.exit(1 if failed else 0)


main()
