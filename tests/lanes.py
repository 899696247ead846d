#!/usr/bin/env python3
"""Prints how many checks can run side by side: one a processor that this process may use, and as many as memory holds."""

import os
from pathlib import Path

# What a check of a large crate takes at most, in bytes.
MEMORY = 5_000_000_000
# Files of control groups: of version 2, and of version 1.
QUOTAS = "/sys/fs/cgroup/cpu.max", "/sys/fs/cgroup/cpu/cpu.cfs_quota_us"
LIMITS = "/sys/fs/cgroup/memory.max", "/sys/fs/cgroup/memory/memory.limit_in_bytes"


def numbers(file: str) -> list[int]:
    """The numbers at the front of a file: none where it isn't there, or begins with a word."""
    try:
        words = Path(file).read_text(encoding="utf-8").split()
    except OSError:
        return []
    return [int(it) for it in words] if all(it.isdigit() for it in words) else []


def processors() -> int:
    """Those that the process may run on, or fewer by the quota of its control group."""
    found = len(os.sched_getaffinity(0))
    for file in QUOTAS:
        quota = numbers(file)
        period = quota[1:] or numbers(str(Path(file).with_name("cpu.cfs_period_us")))
        if quota and period and period[0]:
            found = min(found, quota[0] // period[0])
    return found


def memory() -> int:
    """What is free, and no more than the control group may have."""
    lines = Path("/proc/meminfo").read_text(encoding="utf-8").splitlines()
    free = [1024 * int(it.split()[1]) for it in lines if it.startswith("MemAvailable:")]
    return min([*free, *(it[0] for it in map(numbers, LIMITS) if it)])


print(max(1, min(processors(), memory() // MEMORY)))
