#!/usr/bin/env python3
"""How many checks this machine does side by side, which is what this prints: one a processor, as far as memory goes. The quota and the limit of a
control group count."""
import os
import re
from pathlib import Path

# What a check should have, in bytes: one of a crate of tests takes a little more, all others less.
MEMORY_OF_A_CHECK = 4_000_000_000

GROUP = Path("/sys/fs/cgroup")


def number_in(file, pattern):
    """The first number that the pattern finds in a file, or None."""
    try:
        found = re.search(pattern, Path(file).read_text())
    except OSError:
        return None
    return int(found[1]) if found else None


def processors():
    """How many processors there are to use."""
    found = len(os.sched_getaffinity(0))
    quota, period = number_in(GROUP / "cpu.max", r"^(\d+)"), number_in(GROUP / "cpu.max", r"(\d+)$")
    if quota is None:
        quota = number_in(GROUP / "cpu/cpu.cfs_quota_us", r"^(\d+)")
        period = number_in(GROUP / "cpu/cpu.cfs_period_us", r"^(\d+)")
    return max(1, min(found, quota // period)) if quota and period else found


def free_memory():
    """How many bytes there are to use."""
    found = [1024 * (number_in("/proc/meminfo", r"MemAvailable:\s+(\d+)") or 0)]
    for limit, used in (("memory.max", "memory.current"), ("memory/memory.limit_in_bytes", "memory/memory.usage_in_bytes")):
        most, held = number_in(GROUP / limit, r"^(\d+)"), number_in(GROUP / used, r"^(\d+)")
        if most is not None and held is not None:
            found.append(most - held)
    return min(found)


def checks_side_by_side():
    return max(1, min(processors(), free_memory() // MEMORY_OF_A_CHECK))


if __name__ == "__main__":
    print(checks_side_by_side())
