#!/usr/bin/env python3
"""load_speed.py JB [JB..]: what a load takes beside its own reads, writes and syncs, and beside reading its text.

Each load is run by each program RUNS times (five) on a new image in memory (/dev/shm). strace then notes the calls of one more run, and
replay.c makes the same calls over again and nothing else; `jb cost` of the text is what reading it takes. A line for each load and
program, with the least of the runs: seconds by the clock and processor seconds of the load, of its calls and of its text, the ratio of
the first to the other two together, by the clock and by processor seconds, and the peak memory beside the text's size. Needs strace, a
C compiler and GNU time. On a machine with other work only the processor seconds tell something."""
import os
import random
import re
import subprocess
import sys
import tempfile
import time

RUNS = 5
HERE = os.path.dirname(os.path.realpath(__file__))
CALL = re.compile(r"^(?:\d+ +)?(pread64|pwrite64|fdatasync|fsync)\((\d+)(?:, .*, (\d+), (\d+))?(?:\)| <unfinished)")


def words(handles, each, homes, size=0, freed=0.0):
    """Handles of so many words over so many homes; each with `size` bytes, or freed."""
    chance = random.Random(1)
    for _ in range(handles):
        line = ["h"]
        for _ in range(each):
            home = chance.randrange(homes)
            line.append("r%d" % home if chance.random() < freed else "w%d=%s" % (home, chance.randbytes(size).hex()))
        yield " ".join(line)


# name: block size, log blocks, homes, limit, threads, lines
LOADS = {
    "many small": (4096, 8192, 20000, 2047, 1, lambda: words(50000, 4, 20000, 4)),
    "many small, 4 threads": (4096, 8192, 20000, 2047, 4, lambda: words(50000, 4, 20000, 4)),
    "many homes": (4096, 8192, 200000, 2047, 1, lambda: words(20000, 8, 200000, 4)),
    "full blocks": (4096, 16384, 20000, 2047, 1, lambda: words(500, 4, 20000, 4096)),
    "small journal": (1024, 64, 256, 16, 1, lambda: words(20000, 2, 256, 4)),
    "half freed": (4096, 8192, 20000, 2047, 1, lambda: words(50000, 4, 20000, 4, 0.5)),
}


def new_image(jb, bs, journal, homes):
    if os.path.exists("image"):
        os.remove("image")
    subprocess.run([jb, "format", "image", "--bs", str(bs), "--journal", str(journal), "--homes", str(homes)], check=True, stdout=subprocess.DEVNULL)


def taken(command, most=0):
    """Seconds by the clock and of the processor of a command, whose status is at most so much."""
    start = time.monotonic()
    child = subprocess.Popen(command, stdout=subprocess.DEVNULL, stderr=subprocess.DEVNULL)
    _, status, use = os.wait4(child.pid, 0)
    child.returncode = os.waitstatus_to_exitcode(status)
    if not 0 <= child.returncode <= most:
        sys.exit("%s: status %d" % (" ".join(command), child.returncode))
    return time.monotonic() - start, use.ru_utime + use.ru_stime


def peak_of(command):
    """The peak memory of a command in MiB: a child of Python itself has at least Python's."""
    subprocess.run(["time", "-q", "-f", "%M", "-o", "peak", *command], check=True, stdout=subprocess.DEVNULL)
    with open("peak") as peak:
        return int(peak.read()) / 1024


def replayed(calls):
    """Seconds by the clock and of the processor that the calls of a file take on the image `image`."""
    return tuple(map(float, subprocess.run(["./replay", "image", calls, "1"], check=True, capture_output=True, text=True).stdout.split()))


def least_of(run, before=lambda: None):
    """The least of each time of several runs, with something done before each of them."""
    runs = []
    for _ in range(RUNS):
        before()
        runs.append(run())
    return tuple(map(min, zip(*runs)))


def calls_of(command, trace):
    """The reads, writes and syncs of the image, in their order, as replay.c takes them."""
    subprocess.run(["strace", "-f", "-qq", "-s", "0", "-e", "trace=pread64,pwrite64,fdatasync,fsync", "-o", trace] + command, check=True, stdout=subprocess.DEVNULL)
    count = 0
    with open(trace) as lines, open("calls", "w") as out:
        for line in lines:
            call = CALL.match(line)
            if call is None:
                continue
            name, _, length, offset = call.groups()
            count += 1
            out.write("s\n" if length is None else "%s %s %s\n" % ("r" if name == "pread64" else "w", length, offset))
    return count


def write_queue(bs, limit, lines):
    with open("queue", "w") as file:
        file.write("bs %d\nlimit %d\n" % (bs, limit))
        for line in lines():
            file.write(line + "\n")


def one(name, jb, bs, journal, homes, threads):
    size = os.path.getsize("queue") / 2**20
    load = [jb, "load", "image", "queue", "--threads", str(threads)]
    clock, cpu = least_of(lambda: taken(load), lambda: new_image(jb, bs, journal, homes))
    text = least_of(lambda: taken([jb, "cost", "queue"], 1))  # 1: all handles are over the limit as one group
    new_image(jb, bs, journal, homes)
    peak = peak_of(load)
    new_image(jb, bs, journal, homes)
    count = calls_of(load, "trace")
    calls = least_of(lambda: replayed("calls"), lambda: new_image(jb, bs, journal, homes))
    ratios = [whole / (alone + read) for whole, alone, read in zip((clock, cpu), calls, text)]
    print("| %s | %.2f | %.2f | %d | %.3f | %.3f | %.3f | %.3f | %.1f | %.1f | %.1f of %.1f MiB |" % (name, clock, cpu, count, *calls, *text, *ratios, peak, size), flush=True)


def main():
    jbs = [os.path.realpath(it) for it in sys.argv[1:]]
    print("load average %s" % open("/proc/loadavg").read().split()[0])
    print("| Load | jb, s | processor | calls | calls alone, s | processor | text alone, s | processor | ratio | of processor s | peak |")
    print("|---|---|---|---|---|---|---|---|---|---|---|")
    with tempfile.TemporaryDirectory(dir="/dev/shm" if os.path.isdir("/dev/shm") else None) as folder:
        os.chdir(folder)
        subprocess.run(["cc", "-O2", "-o", "replay", os.path.join(HERE, "replay.c")], check=True)
        for name, (bs, journal, homes, limit, threads, lines) in LOADS.items():
            write_queue(bs, limit, lines)
            for jb in jbs:
                one("%s, %s" % (name, os.path.basename(jb)) if len(jbs) > 1 else name, jb, bs, journal, homes, threads)
        os.chdir("/")


if __name__ == "__main__":
    main()
