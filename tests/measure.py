#!/usr/bin/env python3
"""Runs a command that checks crates, and tells what the checks took by kind: measure.py FILE COMMAND ..

FILE gets a line a kind: its name, processor seconds, and the seconds in which such a check ran. The status is the
command's.
"""

import os
import resource
import subprocess
import sys
import time
from pathlib import Path

PROOFS, TESTS, NAMED, ROUNDS = "proofs", "proofs of tests", "named wrong bodies", "rounds and twins"
REST = "programs and the rest"
# The folders in which `rt ci` and tests/wrong_bodies.py check what is edited.
EDITED = {"rt-edit": NAMED, "wrong-bodies-": ROUNDS}
TICK = os.sysconf("SC_CLK_TCK")
# How often is looked, in seconds: a check takes ten and more.
PAUSE = 0.5


def kind_of(process: Path) -> str | None:
    """What a process is for, where it is a check."""
    words = (process / "cmdline").read_bytes().split(b"\0")
    if not words[0].endswith(b"/rattle") or words[1] not in (b"check", b"build"):
        return None
    folder = os.readlink(process / "cwd")
    edited = [kind for part, kind in EDITED.items() if part in folder]
    return edited[0] if edited else TESTS if b"--test" in words else PROOFS


def look(used: dict[tuple[str, str], tuple[str, float]]) -> set[str]:
    """Notes the processor seconds of each check of this session that runs, and tells which kinds do."""
    running, session = set(), str(os.getsid(0))
    for process in Path("/proc").glob("[0-9]*"):
        try:
            kind = kind_of(process)
            stat = (process / "stat").read_text().rsplit(")", 1)[1].split()
            if kind and stat[3] == session:
                used[process.name, stat[19]] = kind, (int(stat[11]) + int(stat[12])) / TICK
                running.add(kind)
        except (OSError, IndexError):
            continue
    return running


def main(file: str, *command: str) -> int:
    used: dict[tuple[str, str], tuple[str, float]] = {}
    wall = dict.fromkeys((PROOFS, TESTS, NAMED, ROUNDS, REST), 0.0)
    begun = last = time.monotonic()
    ran = subprocess.Popen(command, stdin=subprocess.DEVNULL)
    while ran.poll() is None:
        time.sleep(PAUSE)
        now = time.monotonic()
        for kind in look(used) or {REST}:
            wall[kind] += now - last
        last = now
    spent = {kind: sum(seconds for it, seconds in used.values() if it == kind) for kind in wall}
    whole = resource.getrusage(resource.RUSAGE_CHILDREN)
    spent[REST] = max(whole.ru_utime + whole.ru_stime - sum(spent.values()), 0)
    with open(file, "w", encoding="utf-8") as to:
        for kind in (it for it in wall if spent[it] or wall[it]):
            seconds = spent[kind]
            to.write(f"{kind}\t{seconds:.0f}\t{wall[kind]:.0f}\n")
    return ran.returncode


if __name__ == "__main__":
    sys.exit(main(*sys.argv[1:]))
