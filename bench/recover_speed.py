#!/usr/bin/env python3
"""recover_speed.py JB [JB..] FOLDER..: what a recovery and a dump take beside their own reads and writes, e2fsprogs and `cat`.

Each FOLDER is one that big_journal.sh made, in memory (/dev/shm). Every command is run RUNS times (15) in turn with the others, a
recovery each time on a new copy. A line has the least seconds by the clock and of the processor, and how many times the seconds by the
clock of the two copies, of e2fsck and of debugfs those are, or of a dump those of `cat`.

`its calls` are the reads and writes of `jb recover`, noted by strace and made again by replay.c; `two copies` are made by the same
program: as many blocks of the log as there are copies, read in order one by one, each followed by the write of a home that jb writes.
Needs strace, a C compiler and e2fsprogs."""
import os
import shutil
import subprocess
import sys
import tempfile

from load_speed import HERE, calls_of, replayed, taken

RUNS = 15


def fresh(of):
    """A copy of an image, whose pages are all there."""
    shutil.copyfile(of, "image")
    with open("image", "rb") as file:
        os.fsync(file.fileno())


def two_copies(calls, bs, log):
    """The file `copies`: for each block that these calls write past the log, a read of the log and that write."""
    count = 0
    with open(calls) as lines, open("copies", "w") as out:
        for line in lines:
            kind, *numbers = line.split()
            if kind != "w" or int(numbers[1]) < log:
                continue
            for offset in range(int(numbers[1]), int(numbers[1]) + int(numbers[0]), bs):
                count += 1
                out.write("r %d %d\nw %d %d\n" % (bs, bs * count % log, bs, offset))
    return count


def rows_of(jbs, folder):
    """What is run over a folder's journal: a name, the image that it is run on, if any, and the run."""
    journal = os.path.join(folder, "big.journal")
    with open(journal, "rb") as file:
        bs = int.from_bytes(file.read(16)[12:], "big")
    for jb in jbs:
        fresh(os.path.join(folder, "big.image"))
        count = calls_of([jb, "recover", "image"], "trace")
        name = os.path.basename(jb)
        os.rename("calls", "calls of " + name)
        yield name + " recover", "big.image", lambda jb=jb: taken([jb, "recover", "image"])
        yield "its %d calls" % count, "big.image", lambda name=name: replayed("calls of " + name)
        yield name + " dump", None, lambda jb=jb: taken([jb, "dump", journal])
    copies = two_copies("calls of " + os.path.basename(jbs[-1]), bs, os.path.getsize(journal))
    yield "two copies of %d blocks" % copies, "big.image", lambda: replayed("copies")
    yield "e2fsck -E journal_only -y", "big.img", lambda: taken(["e2fsck", "-E", "journal_only", "-y", "image"], 1)
    yield "debugfs -w -R jr", "big.img", lambda: taken(["debugfs", "-w", "-R", "jr", "image"])
    yield "cat", None, lambda: taken(["cat", journal])


def one(jbs, folder):
    rows = list(rows_of(jbs, folder))
    best = [(9e9, 9e9)] * len(rows)
    for _ in range(RUNS):
        for k, (_, image, run) in enumerate(rows):
            if image is not None:
                fresh(os.path.join(folder, image))
            best[k] = tuple(map(min, zip(best[k], run())))
    copies, e2fsck, debugfs, cat = (cell[0] for cell in best[-4:])
    for (name, image, _), (clock, cpu) in zip(rows, best):
        beside = [cat] if image is None else [copies, e2fsck, debugfs]
        print("| %s | %s | %.4f | %.4f | %s |" % (os.path.basename(folder), name, clock, cpu, ", ".join("%.2f" % (clock / it) for it in beside)), flush=True)


def main():
    paths = [os.path.realpath(it) for it in sys.argv[1:]]
    print("load average %s" % open("/proc/loadavg").read().split()[0])
    print("| Journal | Command | seconds | processor | of the two copies, of e2fsck and of debugfs; or of cat |\n|---|---|---|---|---|")
    with tempfile.TemporaryDirectory(dir="/dev/shm") as work:
        os.chdir(work)
        subprocess.run(["cc", "-O2", "-o", "replay", os.path.join(HERE, "replay.c")], check=True)
        for folder in filter(os.path.isdir, paths):
            one([it for it in paths if not os.path.isdir(it)], folder)
        os.chdir("/")


main()
