#!/usr/bin/env python3
"""What `t5250 play` costs per answer, on scripts of many answers.

Build the program first (`cd crates/t5250 && rt run -- check < stdin`), then call this script from anywhere.
Each script opens a session and then sends a form, types three characters into its field and answers it, so many
times: once with every byte delivered at once, and once with each record cut at its seventh byte. A cost is given in
microseconds of processor time per answer, reading of the script and printing included, and relative to that of the
smallest script: it stays the same if the cost grows with the bytes and the moves, and not with their product.
"""
import os
import resource
import subprocess
import sys
import tempfile

PROGRAM = os.path.join(os.path.dirname(__file__), "..", "crates", "t5250", "out", "t5250")
FORM = "send 3 0440041100081106341D400020000A04520000\n"
KEYS = "type BOB\nkey Enter\n"
KINDS = {
    "whole": FORM + "down all\n" + KEYS + "up all\n",
    "cut": FORM + "down 7\ndown all\n" + KEYS + "up 7\nup all\n",
}
ANSWER = "answer 6 56 F1\n  field 6 53 C2D6C2\n"


def seconds(path, answers):
    best = None
    for _ in range(3):
        begun = resource.getrusage(resource.RUSAGE_CHILDREN)
        run = subprocess.run([PROGRAM, "play", path], capture_output=True, text=True)
        ended = resource.getrusage(resource.RUSAGE_CHILDREN)
        spent = ended.ru_utime + ended.ru_stime - begun.ru_utime - begun.ru_stime
        if run.returncode != 0 or run.stdout != "host ready IBM-3179-2\n" + ANSWER * answers:
            sys.exit(f"not played: {run.stdout[:200]}{run.stderr}")
        best = spent if best is None else min(best, spent)
    return best


def main():
    sizes = [int(word) for word in sys.argv[1:]] or [1_000, 100_000]
    with tempfile.TemporaryDirectory() as folder:
        smallest = {}
        for answers in sizes:
            for name, turn in KINDS.items():
                path = os.path.join(folder, "script")
                with open(path, "w") as text:
                    text.write("settle\n" + turn * answers)
                cost = seconds(path, answers) * 1e6 / answers
                first = smallest.setdefault(name, cost)
                print(f"{answers:>7} answers {name:<6} {cost:8.1f} us per answer, {cost / first:.2f} of the smallest")


main()
