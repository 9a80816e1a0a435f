#!/usr/bin/env python3
"""What each crate takes of a gate: run it beside one, and end it with Ctrl-C, or let it end once the gate has.

    rt ci > gate.log 2>&1 & tools/gate_times.py [FOLDER]

It reads the list of processes every second and prints a row for each crate: processor seconds of its proof, of its
tests' proof and of its edits, and after each the seconds by the clock. Processor
seconds grow with the load of the machine: only rows of one run, or of runs side by side, can be compared. With a
FOLDER, proofs and tests count only where they run below it. Of a prover that starts and ends between two looks
nothing is seen. Nor is anything of a crate that the kit has kept from an earlier gate, since none is proved: the last
line says of how many crates nothing was seen. `rt ci --anew` proves all.
"""
import os
import re
import sys
import time

TICK = os.sysconf("SC_CLK_TCK")


KINDS = ("proof", "tests", "edits")


def provers(below):
    """Each prover that runs: its process, its crate, what it proves, and the processor seconds that it has used."""
    found = {}
    for pid in filter(str.isdigit, os.listdir("/proc")):
        try:
            with open(f"/proc/{pid}/cmdline", "rb") as it:
                words = it.read().decode(errors="replace").split("\0")
            if os.path.basename(words[0]) != "rattle" or "--crate-name" not in words:
                continue
            folder = os.readlink(f"/proc/{pid}/cwd")
            with open(f"/proc/{pid}/stat", encoding="utf-8") as it:
                fields = it.read().rsplit(")", 1)[1].split()
        except (OSError, IndexError):
            continue
        name = words[words.index("--crate-name") + 1]
        is_of_tests = name.startswith("tests_") or "--test" in words
        kind = "edits" if "/rt-edit-" in folder else "tests" if is_of_tests else "proof"
        if kind != "edits" and not folder.startswith(below):
            continue
        seconds = sum(map(int, fields[11:15])) / TICK  # its own, and those of the copies of it that have ended
        found[pid] = (fields[1], (pid, name, kind, seconds))
    return [it for parent, it in found.values() if parent not in found]


def listed():
    """The crates of crates.txt, by the names of their rows."""
    with open(os.path.join(os.path.dirname(os.path.abspath(__file__)), "..", "crates.txt"), encoding="utf-8") as it:
        lines = [line.split("#")[0] for line in it]
    return {line.split(":")[0].strip() for line in lines if ":" in line}


def is_at_work():
    """Whether a gate runs: a process of `rt ci`."""
    for pid in filter(str.isdigit, os.listdir("/proc")):
        try:
            with open(f"/proc/{pid}/cmdline", "rb") as it:
                words = it.read().decode(errors="replace").split("\0")
        except OSError:
            continue
        if "ci" in words and any(re.search(r"(^|/)rt$", it) for it in words):
            return True
    return False


def cell(clock, used, crate, kind):
    """Processor seconds of a crate's proof, tests or edits, and seconds by the clock; of all crates where none is named."""
    processor = sum(it for (_, *key), it in used.items() if key[1] == kind and crate in (key[0], None))
    by_the_clock = sum(it for key, it in clock.items() if key[1] == kind and crate in (key[0], None))
    return f"{processor:.0f} ({by_the_clock:.0f})" if by_the_clock else ""


def main():
    below = os.path.abspath(sys.argv[1]) if len(sys.argv) > 1 else ""
    clock, used, began = {}, {}, time.monotonic()
    last, idle = began, 0
    try:
        while idle < 30:
            time.sleep(1)
            now, found = time.monotonic(), provers(below)
            for crate, kind in {(it[1], it[2]) for it in found}:
                clock[crate, kind] = clock.get((crate, kind), 0) + now - last
            for pid, crate, kind, seconds in found:
                used[pid, crate, kind] = max(used.get((pid, crate, kind), 0), seconds)
            last, idle = now, 0 if is_at_work() else idle + 1
    except KeyboardInterrupt:
        pass
    print("| Crate | Proof | Tests | Edits |\n|---|---|---|---|")
    for crate in [*sorted({it[0] for it in clock}), None]:
        print(f"| {crate or 'all'} | {' | '.join(cell(clock, used, crate, kind) for kind in KINDS)} |")
    print(f"\n{round(last - began - idle)} seconds in all, {round(sum(used.values()))} processor seconds of the prover.")
    kept = listed() - {it[0] for it in clock}
    if kept:
        print(f"Of {len(kept)} of {len(listed())} crates nothing was seen: the kit had kept them, or no prover ran for a second.")


main()
