#!/usr/bin/env python3
"""Prints how many provers a gate may run at once, or nothing, where `rt` is to decide: .ci/run gives it to `rt ci` as RT_JOBS.

`rt` counts twice the memory that a prover of this repository takes, and leaves a processor in four idle for want of it. With RT_JOBS it
counts none, and each prover has one processor. That is right where all is to be proved, so that there are always enough provers, and where
there are 5 GB a processor (the largest takes 3.5). Where the kit has kept a whole gate on this machine, few crates are left, and `rt`
gives several processors to each: nothing is printed.
"""
import os
import re
import shutil

EACH = 5_000_000_000


def text_of(path):
    try:
        with open(path, encoding="utf-8") as it:
            return it.read()
    except OSError:
        return ""


def processors():
    """Those that this process may use, by the quota of its control group too."""
    quota = re.match(r"(\d+) (\d+)", text_of("/sys/fs/cgroup/cpu.max"))
    found = len(os.sched_getaffinity(0))
    return min(found, max(1, int(quota[1]) // int(quota[2]))) if quota else found


def memory():
    """What is free of it, in bytes, by the limit of its control group too."""
    free = 1024 * int(re.search(r"MemAvailable:\s+(\d+)", text_of("/proc/meminfo"))[1])
    limit = text_of("/sys/fs/cgroup/memory.max").strip()
    return min(free, int(limit)) if limit.isdigit() else free


def has_kept():
    """Whether the kit has kept something of each crate on this machine: in the folder beside that of the kit."""
    rt = shutil.which("rt")
    kept = os.path.join(os.path.dirname(os.path.dirname(os.path.dirname(os.path.realpath(rt)))), "rattle-kept") if rt else ""
    names = " ".join(os.listdir(kept)) if os.path.isdir(kept) else ""
    crates = os.listdir(os.path.join(os.path.dirname(os.path.abspath(__file__)), "..", "crates"))
    return all(f"-{name}-" in names for name in crates)


if not has_kept() and memory() >= EACH * processors():
    print(processors())
