#!/usr/bin/env python3
"""Writes into a built program of which commit it is, where `t5250 --version` tells that: `stamp.py PROGRAM COMMIT`.

The text has as many bytes before as after, so nothing else of the program changes.
"""
import pathlib
import re
import sys

from build_unproved import Fault

# What stands there in a program that was built in a clone: `COMMIT` of crates/t5250/src/main.rt.
UNRECORDED = b"commit not recorded, as it was built in a clone"


def stamped(program: bytes, commit: str) -> bytes:
    """The program with the commit in it. `Fault` where it isn't one, or the program has no one place for it."""
    if not re.fullmatch("[0-9a-f]{40}", commit):
        raise Fault(f"{commit} is no commit")
    if program.count(UNRECORDED) != 1:
        raise Fault("the program has no place for its commit")
    return program.replace(UNRECORDED, f"commit {commit}".encode())


if __name__ == "__main__":
    try:
        file = pathlib.Path(sys.argv[1])
        file.write_bytes(stamped(file.read_bytes(), sys.argv[2]))
    except Fault as fault:
        sys.exit(f"stamp.py: {fault}")
