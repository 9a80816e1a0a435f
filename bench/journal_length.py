#!/usr/bin/env python3
"""journal_length.py JB [FOLDER]: how long a journal to choose, and whether to write homes at once.

Loads of 10,000 handles of two blocks of 4 KiB each, by four threads, into new images with journals of several lengths, in FOLDER (the
current one). Once over 64 homes, so that the same ones are written again and again, and once over 20,000. Once with `--checkpoint`, which
writes home what is committed as soon as it can (the level 0 of `Options` of jb_journal), and once without, which does so only where the
log has no room (the level of a whole log). A line for each: the seconds of the whole load by the clock, the least of three; then, of one
more run under strace, its transactions, its syncs and its writes. Needs strace. Figures of a real disk need a FOLDER on one."""
import os
import random
import re
import subprocess
import sys
import tempfile
import time

HANDLES, WORDS, RUNS = 10_000, 2, 3
LENGTHS = (64, 256, 1024, 4096)
HOMES = (64, 20_000)
CALL = re.compile(r"^(?:\d+ +)?(pwrite64|fdatasync|fsync)\(")


def text_of(homes):
    """A queue text of handles over so many homes."""
    chance = random.Random(1)
    lines = ["bs 4096", "limit 2047"]
    lines += ["h " + " ".join("w%d=%s" % (home, chance.randbytes(8).hex()) for home in chance.sample(range(homes), WORDS)) for _ in range(HANDLES)]
    return "\n".join(lines) + "\n"


def new_image(jb, journal, homes):
    if os.path.exists("image"):
        os.remove("image")
    subprocess.run([jb, "format", "image", "--bs", "4096", "--journal", str(journal), "--homes", str(homes)], check=True, stdout=subprocess.DEVNULL)
    os.sync()


def seconds_of(command):
    start = time.monotonic()
    subprocess.run(command, check=True, stdout=subprocess.DEVNULL)
    return time.monotonic() - start


def calls_of(command):
    """How many transactions a load has, and how many syncs and writes its calls are."""
    out = subprocess.run(["strace", "-f", "-o", "calls", "-e", "trace=pwrite64,fdatasync,fsync", *command], check=True, capture_output=True, text=True).stdout
    with open("calls") as calls:
        named = [found.group(1) for found in map(CALL.match, calls) if found]
    writes = named.count("pwrite64")
    return int(re.search(r"groups (\d+)", out).group(1)), len(named) - writes, writes


def main():
    jb = os.path.abspath(sys.argv[1])
    folder = sys.argv[2] if len(sys.argv) > 2 else "."
    with tempfile.TemporaryDirectory(dir=folder) as room:
        os.chdir(room)
        for homes in HOMES:
            with open("queue", "w") as queue:
                queue.write(text_of(homes))
            for journal in LENGTHS:
                for level in (["--checkpoint"], []):
                    command = [jb, "load", "image", "queue", "--threads", "4", *level]
                    took = []
                    for _ in range(RUNS):
                        new_image(jb, journal, homes)
                        took.append(seconds_of(command))
                    new_image(jb, journal, homes)
                    groups, syncs, writes = calls_of(command)
                    print("%6d homes  %5d blocks  %-12s  %7.2f s  %6d transactions  %6d syncs  %7d writes"
                          % (homes, journal, level[0] if level else "-", min(took), groups, syncs, writes), flush=True)
        os.chdir("/")
    return 0


sys.exit(main())
