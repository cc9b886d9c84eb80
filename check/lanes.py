#!/usr/bin/env python3
"""Prints how many checks `rt ci` runs side by side, for RT_JOBS: one per processor, if each has 3.5 GB of free memory.

Prints nothing if that is one, and `rt` then decides. `rt` plans the memory of a check by the lines of its crate, at two to
three times what the check takes, and so leaves processors idle. With RT_JOBS it runs that many, each with one job, whatever
they need; a check that is killed for lack of memory is tried again. A line on standard error says what was found.
"""

import os
import sys

EACH = 3_500_000_000


def free() -> int:
    """Returns the bytes of free memory, or the limit of the control group if that is less."""
    with open("/proc/meminfo", encoding="ascii") as lines:
        found = [1024 * int(line.split()[1]) for line in lines if line.startswith("MemAvailable:")]
    try:
        with open("/sys/fs/cgroup/memory.max", encoding="ascii") as limit:
            found.append(int(limit.read()))
    except (OSError, ValueError):
        pass
    return min(found)


def count() -> int:
    """Returns how many checks may run side by side."""
    processors, memory = len(os.sched_getaffinity(0)), free()
    lanes = max(1, min(processors, memory // EACH))
    print(f"lanes: {lanes} ({processors} processors, {memory / 1e9:.1f} GB free)", file=sys.stderr)
    return lanes


def main() -> None:
    lanes = count()
    print(lanes if lanes > 1 else "")


if __name__ == "__main__":
    main()
