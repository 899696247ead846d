#!/usr/bin/env python3
"""What `t5250 check` costs per byte, on streams of small records.

Build the program first (`cd crates/t5250 && rt run -- check < stdin`), then call this script from anywhere.
Each stream is checked whole, by `--cut 1` and as raw bytes; a cost is given in nanoseconds of processor time per byte
of the stream, reading of the hex text included, and relative to that of the smallest stream. Where `valgrind` is
installed, the instructions of the smallest one are counted too, and those of the raw bytes and of the text.
"""
import os
import re
import resource
import shutil
import subprocess
import sys
import tempfile

PROGRAM = os.path.join(os.path.dirname(__file__), "..", "crates", "t5250", "out", "t5250")
# Write to Display, Set Buffer Address 1 2, four bytes for cells: a record of 21 bytes and its IAC EOR.
RECORD = "00 15 12A0 0000 04 0000 03 0411 0008 11 0102 C1C2C3C4 FFEF".replace(" ", "") + "\n"


def seconds(path, options):
    best = None
    for _ in range(3):
        begun = resource.getrusage(resource.RUSAGE_CHILDREN)
        run = subprocess.run([PROGRAM, "check", *options, path], capture_output=True, text=True)
        ended = resource.getrusage(resource.RUSAGE_CHILDREN)
        spent = ended.ru_utime + ended.ru_stime - begun.ru_utime - begun.ru_stime
        if run.returncode != 0 or not run.stdout.startswith("accepted: "):
            sys.exit(f"not accepted: {run.stdout}{run.stderr}")
        best = spent if best is None else min(best, spent)
    return best


def instructions(path, options):
    words = ["valgrind", "--tool=callgrind", "--callgrind-out-file=/dev/null", PROGRAM, "check", *options, path]
    run = subprocess.run(words, stdout=subprocess.DEVNULL, stderr=subprocess.PIPE, text=True)
    return int(re.search(r"Collected *: *(\d+)", run.stderr)[1])


def main():
    sizes = [int(word) for word in sys.argv[1:]] or [1, 10, 100]
    with tempfile.TemporaryDirectory() as folder:
        smallest = {}
        for size in sizes:
            count = size * 1_000_000 // 23
            path, raw = os.path.join(folder, f"{size}.hex"), os.path.join(folder, f"{size}.raw")
            with open(path, "w") as text, open(raw, "wb") as data:
                text.write(RECORD * count)
                data.write(bytes.fromhex(RECORD) * count)
            ways = ("whole", [], path), ("--cut 1", ["--cut", "1"], path), ("--raw", ["--raw"], raw)
            for name, options, file in ways:
                cost = seconds(file, options) * 1e9 / (count * 23)
                first = smallest.setdefault(name, cost)
                print(f"{size:>4} MB {name:<8} {cost:8.1f} ns per byte, {cost / first:.2f} of the smallest")
            if size == sizes[0] and shutil.which("valgrind"):
                text, data = (instructions(file, options) / (count * 23) for _, options, file in (ways[0], ways[2]))
                told = f"{text:.1f} instructions per byte, {data:.1f} with --raw, {data / text:.2f} of these"
                print(f"{size:>4} MB {told}")
            os.remove(path)
            os.remove(raw)


main()
