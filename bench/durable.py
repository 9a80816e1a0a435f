#!/usr/bin/env python3
"""durable.py [--delay] EXAMPLE_DURABLE [SECONDS [FOLDER]]: how many handles a second are durable, beside SQLite and LMDB, and beside the
limit of the disk.

So many threads (1, 2, 4, .., 64) each change two home blocks by a handle and wait until it is durable, again and again; then as many
threads each change two rows of SQLite (a log, synchronous=FULL), once by a transaction and a connection each, and once by a leader, a thread
that commits for all that wait by one transaction; then two entries of LMDB by a leader (MDB_NOSYNC, and a sync for each transaction). Each
for so many seconds (2), one after the other, with nothing checkpointed until half of the log is in use, and once more with each transaction
written home at once (level 0). First with the syncs of the disk that FOLDER is on, then in memory (/dev/shm), where a C library in front of the
system's lets each sync take 1, 4 and 10 ms. The limit is what two syncs for as many handles as there are threads allow; a sync's own time
is measured before each row, by a program that writes a block and syncs it.

A line for each: handles a second, how many times the limit that is, syncs a handle, handles a transaction, and milliseconds until a handle
is durable, the median and 99 of 100. The syncs are those from the first handle to the program's end, at which all is written home. Needs a
C compiler and the libraries of SQLite and LMDB (libsqlite3-dev, liblmdb-dev).

With --delay only what a delay before each commit changes: 8 and 64 threads, with the disk's own sync and with syncs of 4 ms in memory; no
delay, and then at most 100, 500, 2,000 and 8,000 microseconds, until as many handles wait as there are threads, and until half as many do."""
import os
import re
import subprocess
import sys
import tempfile

HERE = os.path.join(os.path.dirname(os.path.realpath(__file__)), "durable")
LINE = re.compile(r"(\d+) handles in (\d+) us, (\d+) transactions, each in (\d+) us, 99 of 100 in (\d+) us")
THREADS = (1, 2, 4, 8, 16, 32, 64)
ROW = "%-16s %7s %9s %7s %7s %9s %8s %8s"


def run(shim, micros, words):
    """What a program prints, as numbers, and how many syncs it made."""
    around = {**os.environ, "LD_PRELOAD": shim, "SYNC_MICROS": str(micros), "SYNC_COUNT": "count"}
    fresh("count")
    ran = subprocess.run(words, env=around, capture_output=True, text=True, timeout=600)
    told = LINE.match(ran.stdout)
    if ran.returncode or not told:
        sys.exit("%s: status %d: %s" % (" ".join(words), ran.returncode, ran.stderr))
    with open("count", "rb") as file:
        return [int(number) for number in told.groups()], int.from_bytes(file.read(), sys.byteorder)


def fresh(*names):
    for name in names:
        if os.path.exists(name):
            os.remove(name)


def row(what, threads, ran, limit):
    (handles, whole, groups, median, most), syncs = ran
    a_second = handles * 1e6 / max(whole, 1)
    print(ROW % (what, threads, "%.0f" % a_second, "%.2f" % (a_second / limit), "%.2f" % (syncs / max(handles, 1)),
                 "%.1f" % (handles / max(groups, 1)), "%.1f" % (median / 1000), "%.1f" % (most / 1000)), flush=True)


def measure(program, sqlite, lmdb, shim, seconds, micros):
    """All rows with syncs that take so much longer."""
    for threads in THREADS:
        fresh("probe")
        (syncs, whole, *_), _ = run(shim, micros, [sqlite, "probe", "0", "1"])
        limit = threads * syncs * 1e6 / whole / 2
        for what, level in (("here", "512"), ("here, level 0", "0")):
            fresh("image")
            run(shim, 0, [program, "image", "1", "0"])
            row(what, threads, run(shim, micros, [program, "image", str(threads), str(seconds), level]), limit)
        for what, words in (("SQLite", [sqlite]), ("SQLite, leader", [sqlite, "leader"]), ("LMDB, leader", [lmdb])):
            fresh("rows", "rows-wal", "rows-shm", "rows-lock")
            row(what, threads, run(shim, micros, [words[0], "rows", str(threads), str(seconds), *words[1:]]), limit)
        print(ROW % ("the limit", threads, "%.0f" % limit, "", "", "", "", ""), flush=True)


def measure_delays(program, sqlite, _lmdb, shim, seconds, micros):
    """Rows without a delay and with several, with syncs that take so much longer."""
    for threads in (8, 64):
        fresh("probe")
        (syncs, whole, *_), _ = run(shim, micros, [sqlite, "probe", "0", "1"])
        limit = threads * syncs * 1e6 / whole / 2
        for delay, handles in [(0, 0)] + [(delay, part) for delay in (100, 500, 2000, 8000) for part in (threads, threads // 2)]:
            fresh("image")
            run(shim, 0, [program, "image", "1", "0"])
            words = [program, "image", str(threads), str(seconds), "512", str(delay), str(handles)]
            row("%d us, %d" % (delay, handles) if delay else "no delay", threads, run(shim, micros, words), limit)


def main():
    words = sys.argv[1:]
    is_delayed = words[:1] == ["--delay"]
    words = words[is_delayed:]
    program = os.path.realpath(words[0])
    seconds = int(words[1]) if len(words) > 1 else 2
    folder = os.path.realpath(words[2] if len(words) > 2 else ".")
    with tempfile.TemporaryDirectory() as made:
        shim, sqlite, lmdb = (os.path.join(made, name) for name in ("slow_sync.so", "sqlite", "lmdb"))
        subprocess.run(["cc", "-shared", "-fPIC", "-O2", "-o", shim, os.path.join(HERE, "slow_sync.c"), "-ldl"], check=True)
        for peer, library in ((sqlite, "-lsqlite3"), (lmdb, "-llmdb")):
            subprocess.run(["cc", "-O2", "-o", peer, os.path.join(HERE, os.path.basename(peer) + ".c"), library, "-lpthread"], check=True)
        slow = (4000,) if is_delayed else (1000, 4000, 10000)
        for micros, where in [(0, folder)] + [(micros, "/dev/shm") for micros in slow]:
            with tempfile.TemporaryDirectory(dir=where) as at:
                os.chdir(at)
                print("\n%s, load %.1f" % ("syncs of %d ms" % (micros // 1000) if micros else "the disk's own sync", os.getloadavg()[0]))
                print(ROW % ("", "threads", "handles/s", "limit", "syncs", "a group", "median", "99th"))
                (measure_delays if is_delayed else measure)(program, sqlite, lmdb, shim, seconds, micros)
                os.chdir("/")


main()
