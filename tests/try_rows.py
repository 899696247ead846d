#!/usr/bin/env python3
"""Runs the tests of the crates rows_* by `rt try --test`, without a proof, as many crates at a time as there are cores.

    try_rows.py [SECONDS [CRATE..]]     begins no crate later than that, and tells which it left out

The last line is 'N passed, N failed', over single tests, and the status is 1 where one failed.
"""
import os
import pathlib
import re
import subprocess
import sys
import time
from concurrent.futures import ThreadPoolExecutor

TOP = pathlib.Path(__file__).resolve().parent.parent
# What is left out for want of time is what stands last.
CRATES = [
    "rows_decoder",
    "rows_wire",
    "rows_display",
    "rows_session",
    "rows_program",
]
# Seconds for each test of a crate of which some take minutes as `rt try` compiles them. Those that haven't ended then
# are left out; in other crates, whose tests have a minute, such a test has failed.
SHORT = {"rows_decoder": "10"}
LATE = re.compile(r"^test (\S+) \.{3} FAILED\n +checked: no-answer: .* did not end within the time limit$", re.M)


def try_crate(name, end):
    """How many tests of a crate passed and failed, and those that are left out; None where there was no time."""
    if time.monotonic() >= end:
        return None
    command = ["rt", "try", "--test", *(["--seconds", SHORT[name]] if name in SHORT else [])]
    done = subprocess.run(command, cwd=TOP / "crates" / name, stdin=subprocess.DEVNULL, capture_output=True, text=True)
    said = done.stdout + done.stderr
    found = re.search(r"^test result: .* (\d+) passed; (\d+) failed;", said, re.M)
    left = LATE.findall(said) if found and name in SHORT else []
    passed, failed = (int(found[1]), int(found[2]) - len(left)) if found else (0, 1)
    if done.returncode != 0 and not left:
        failed = max(failed, 1)
    told = "" if failed == 0 else "".join(f"{line}\n" for line in said.splitlines() if not line.endswith(" ok"))
    print(f"{told}{name}: {passed} passed, {failed} failed", flush=True)
    return passed, failed, [f"{name}'s {test}" for test in left]


def main():
    crates = sys.argv[2:] or CRATES
    assert sorted(CRATES) == sorted(path.name for path in (TOP / "crates").glob("rows_*"))
    end = time.monotonic() + float(sys.argv[1] if len(sys.argv) > 1 else "inf")
    with ThreadPoolExecutor(max_workers=len(os.sched_getaffinity(0))) as pool:
        results = list(pool.map(lambda name: try_crate(name, end), crates))
    left = [name for name, result in zip(crates, results) if result is None]
    left += [test for result in results if result for test in result[2]]
    if left:
        print(f"left out: of the crates of tests {', '.join(left)}, which are left to the gate")
    passed = sum(result[0] for result in results if result)
    failed = sum(result[1] for result in results if result)
    print(f"{passed} passed, {failed} failed")
    return 1 if failed else 0


if __name__ == "__main__":
    sys.exit(main())
