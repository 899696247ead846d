#!/usr/bin/env python3
"""Writes host streams as hex text: `generate.py COUNT FOLDER`. The same count gives the same streams."""
import random
import sys

SEED = 5250
CODES = [0x40] * 4 + list(range(0xC1, 0xCA)) + list(range(0xD1, 0xDA)) + list(range(0xF0, 0xFA)) + [0x4B, 0x6B]


def address(rng):
    return [rng.randint(1, 24), rng.randint(1, 80)]


def order(rng):
    """An order, or some data."""
    kind = rng.randrange(8)
    if kind == 0:
        return [0x11] + address(rng)
    if kind == 1:
        return [0x13] + address(rng)
    if kind == 2:
        row = rng.randint(1, 23)
        return [0x11, row, rng.randint(1, 80), 0x02, rng.randint(row + 1, 24), rng.randint(1, 80), rng.choice(CODES)]
    if kind == 3:
        return [0x11, rng.randint(2, 23), rng.randint(2, 60), 0x1D, 0x40, 0x00, rng.choice([0x20, 0x24, 0x27]), 0x00, rng.randint(1, 20)]
    if kind == 4:
        return [0x20 + rng.randrange(8)]
    return [rng.choice(CODES) for _ in range(rng.randint(1, 30))]


def write(rng):
    body = [0x04, 0x11, rng.choice([0, 0x20, 0x40]), rng.choice([0, 0x08, 0x10, 0x01, 0x02])]
    for _ in range(rng.randrange(12)):
        body += order(rng)
    return body


def command(rng):
    kind = rng.randrange(6)
    if kind == 0:
        return [0x04, 0x40]
    if kind == 1:
        return [0x04, 0x50]
    return write(rng)


def record(rng, opcode, body):
    whole = [0x12, 0xA0, 0, 0, 4, 0, 0, opcode] + body
    length = len(whole) + 2
    return doubled([length >> 8, length & 0xFF] + whole) + [0xFF, 0xEF]


def doubled(data):
    return [copy for byte in data for copy in ([byte, byte] if byte == 0xFF else [byte])]


def body(rng):
    data = []
    for _ in range(rng.randrange(4)):
        data += command(rng)
    if rng.randrange(3) == 0:
        data += [0x04, rng.choice([0x42, 0x52, 0x82]), 0, rng.choice([0, 0x08])]
    return data


def item(rng):
    kind = rng.randrange(10)
    if kind == 0:
        return [0xFF, rng.choice([0xF1, 0xF6])]
    if kind == 1:
        return [0xFF, 0xFD, rng.choice([0x00, 0x18, 0x19, 0x27])]
    opcode = rng.choice([0, 1, 2, 3, 3, 3, 0x0A, 0x0B, 0x0C])
    return record(rng, opcode, body(rng) if opcode in (2, 3) else [])


def stream(rng):
    data = [byte for _ in range(rng.randint(1, 6)) for byte in item(rng)]
    if rng.randrange(8) == 0:
        data[rng.randrange(len(data))] = rng.randrange(256)
    if rng.randrange(20) == 0:
        del data[rng.randrange(len(data)) :]
    return data


def main():
    count, folder = int(sys.argv[1]), sys.argv[2]
    rng = random.Random(SEED)
    for at in range(count):
        with open(f"{folder}/{at:03}.hex", "w") as file:
            data = stream(rng)
            for start in range(0, len(data), 24):
                file.write(" ".join(f"{byte:02X}" for byte in data[start : start + 24]) + "\n")


main()
