#!/usr/bin/env python3
"""slow_load.py JB: does a load wait for room, and for how long?

A C library in front of the system's makes fdatasync slow, or refuses threads (Linux, a C compiler; JB a build by `rt run`). Three loads:

1. 64 threads on a disk whose fdatasync takes 20 ms, a journal of 34 blocks, handles of three home blocks: each handle gets its room in
   the end, and the status is 0.
2. 20,000 handles of two words and a journal of 64 blocks of 1 KiB in memory (/dev/shm): how long that takes, the least of five runs.
3. Nothing is committed, with --hold or since no thread can be made (the workers run one after the other then), and the log has no room
   for all: ten seconds are waited for once, and not by each worker.

Prints a line for each, and ends with status 1 where one is not as it must be."""
import os
import subprocess
import sys
import tempfile
import time

JB = os.path.realpath(sys.argv[1])
BETWEEN = r"""
#define _GNU_SOURCE
#include <dlfcn.h>
#include <errno.h>
#include <stdlib.h>
#include <unistd.h>

int fdatasync(int fd) {
    const char *slow = getenv("SLOW_SYNC");
    if (slow)
        usleep(atoi(slow));
    return ((int (*)(int))dlsym(RTLD_NEXT, "fdatasync"))(fd);
}

int pthread_create(void *thread, const void *attr, void *(*start)(void *), void *arg) {
    if (getenv("NO_THREADS"))
        return EAGAIN;
    return ((int (*)(void *, const void *, void *(*)(void *), void *))dlsym(RTLD_NEXT, "pthread_create"))(thread, attr, start, arg);
}
"""
bad = 0


def expect(what, is_so, *more):
    global bad
    if not is_so:
        bad += 1
        print("WRONG:", what, *more)


def text(handles, words, homes, limit):
    """Handles of so many words each, over so many homes in turn."""
    lines = ["bs 1024", "limit %d" % limit]
    lines += ["h" + "".join(" w%d" % ((k * words + i) % homes) for i in range(words)) for k in range(handles)]
    return "\n".join(lines) + "\n"


def load(journal, homes, queue, *words, **around):
    """A new image is loaded: status, both outputs and seconds."""
    with open("queue", "w") as file:
        file.write(queue)
    if os.path.exists("image"):
        os.remove("image")
    subprocess.run([JB, "format", "image", "--bs", "1024", "--journal", str(journal), "--homes", str(homes)], check=True, stdout=subprocess.DEVNULL)
    start = time.monotonic()
    ran = subprocess.run([JB, "load", "image", "queue", *words], capture_output=True, text=True, env={**os.environ, **around}, timeout=600)
    return ran.returncode, ran.stdout.strip(), ran.stderr.strip(), time.monotonic() - start


def slow_disk(shim):
    status, out, err, seconds = load(34, 64, text(2000, 3, 64, 8), "--threads", "64", LD_PRELOAD=shim, SLOW_SYNC="20000")
    print("slow disk: 2,000 handles of three blocks, 64 threads, a journal of 34 blocks: status %d, %.1f s, %s %s" % (status, seconds, out, err))
    expect("slow disk", status == 0 and not err)
    expect("slow disk: it was slow", seconds > 1, seconds)


def small_journal():
    runs = [load(64, 256, text(20_000, 2, 256, 16)) for _ in range(5)]
    status, out, err, _ = runs[0]
    times = sorted(run[3] for run in runs)
    print("small journal: 20,000 handles of two words, a journal of 64 blocks: %.2f s, %.2f to %.2f s; %s %s" % (times[2], times[0], times[-1], out, err))
    expect("small journal", all(run[0] == 0 and not run[2] for run in runs), runs)


def nothing_committed(shim):
    status, out, err, seconds = load(34, 64, text(200, 3, 64, 8), "--threads", "8", "--hold")
    print("--hold: 200 handles of three blocks, eight workers: status %d, %.1f s, %s %s" % (status, seconds, out, err.replace("\n", " / ")))
    expect("--hold: Full is reported", status == 1 and ": Full " in err)
    expect("--hold: once ten seconds", 9 < seconds < 15, seconds)
    status, out, err, seconds = load(34, 64, text(200, 3, 64, 8), "--threads", "8", LD_PRELOAD=shim, NO_THREADS="1")
    print("no thread: 200 handles of three blocks, eight workers: status %d, %.1f s, %s %s" % (status, seconds, out, err.replace("\n", " / ")))
    expect("no thread: Full is reported", status == 1 and ": Full " in err)
    expect("no thread: once ten seconds", 9 < seconds < 15, seconds)
    status, out, err, seconds = load(64, 64, text(4, 3, 64, 8), "--threads", "8", LD_PRELOAD=shim, NO_THREADS="1")
    print("no thread: a queue that fits the log: status %d, %.1f s, %s %s" % (status, seconds, out, err))
    expect("no thread: a queue that fits the log", status == 0 and not err and seconds < 5)


with tempfile.TemporaryDirectory(dir="/dev/shm" if os.path.isdir("/dev/shm") else None) as folder:
    os.chdir(folder)
    with open("between.c", "w") as file:
        file.write(BETWEEN)
    subprocess.run(["cc", "-shared", "-fPIC", "-O1", "-o", "between.so", "between.c", "-ldl"], check=True)
    slow_disk(os.path.join(folder, "between.so"))
    small_journal()
    nothing_committed(os.path.join(folder, "between.so"))
    os.chdir("/")
print("slow_load.py: %d wrong" % bad)
sys.exit(bad != 0)
