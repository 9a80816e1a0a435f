#!/usr/bin/env python3
"""kernel_replay.py JB: do JB and the running kernel read each other's logs?

  - jb writes, the kernel reads: `JB load` commits a queue to the journal of a file system, the journal is put back into it, and
    the kernel recovers it at a mount; so do `e2fsck -E journal_only`, on a copy, and `JB recover`. What `JB recover --journal` leaves
    is then mounted too, and so recovered by the kernel once more.
  - the kernel writes, jb reads: files are made and removed in a mounted file system, and its image is copied while it is mounted,
    as a crash would leave it; `e2fsck -E journal_only` recovers a copy, and `JB recover` the image.
  - a file system crashes, is recovered by the kernel and crashes again: `JB recover --journal` refuses a copy of the journal of the first
    crash, and takes one of the second.
`JB recover` does it twice: the image after its journal, and with `--journal` the image where it stands. Each time all blocks outside
the journal are compared. The block of the ext4 superblock may differ: the others write times and flags into it. Needs e2fsprogs, and to be root, since it mounts files. Prints a line for each file system."""
import os
import random
import re
import subprocess
import sys
import tempfile
import time

# block size, feature, MiB of journal; whether the journal is widened
KINDS = [(1024, "^64bit", 4, False), (1024, "64bit", 4, True), (2048, "64bit", 8, False), (4096, "64bit", 8, True)]
SIZE = 64 << 20
FIRST, HOMES = 60 << 20, 60   # where the queue's home blocks begin, in bytes, and how many there are


def run(*words, text=None, may_fail=False):
    return subprocess.run(words, check=not may_fail, capture_output=True, text=True, input=text).stdout


def read(path):
    with open(path, "rb") as file:
        return file.read()


def make(image, size, feature, mib):
    """A file system without checksums."""
    with open(image, "wb") as file:
        file.truncate(SIZE)
    run("mke2fs", "-q", "-F", "-t", "ext4", "-b", str(size), "-O", "^metadata_csum," + feature, "-J", "size=%d" % mib, image)


def journal_of(image):
    """The journal's bytes."""
    run("debugfs", "-R", "dump <8> journal", image)
    return read("journal")


def places_of(image, count):
    """The blocks of the file system that the journal's blocks are in."""
    text = run("debugfs", "-f", "-", image, text="".join("bmap <8> %d\n" % i for i in range(count)))
    return [int(place) for place in re.findall(r"^(\d+)$", text, re.M)]


def queue(size):
    """A queue of handles that write and revoke few home blocks; every fifth copy begins with the journal's magic number."""
    lines, first = ["bs %d" % size, "limit 40"], FIRST // size
    for handle in range(200):
        words = []
        for _ in range(random.randrange(1, 9)):
            home, kind = first + random.randrange(HOMES), random.random()
            words.append("r%d" % home if kind < 0.2 else "w%d=%s%08x" % (home, "c03b3998" if kind < 0.4 else "", handle))
        lines.append("h " + " ".join(words))
    return "\n".join(lines) + "\n"


def recovered(jb, journal, image):
    """What `jb recover` leaves of a file system: after its journal, and in its place, which stays there; and what it prints."""
    with open("both", "wb") as file:
        file.write(journal + read(image))
    with open("journal", "wb") as file:
        file.write(journal)
    run("cp", image, "place")
    line = run(jb, "recover", "both").strip()
    again = run(jb, "recover", "--journal", "journal", "place").strip()
    if again != line:
        sys.exit("%s, and with --journal %s" % (line, again))
    return [read("both")[len(journal):], read("place")], line


def differing(one, other, size, skipped):
    """The blocks that differ, but for those of the journal and that of the ext4 superblock."""
    left_out = set(skipped) | {1024 // size}
    return [i for i in range(len(one) // size)
            if i not in left_out and one[i * size:(i + 1) * size] != other[i * size:(i + 1) * size]]


def jb_writes(jb, size, feature, mib, wide):
    make("fs", size, feature, mib)
    journal = journal_of("fs")
    places = places_of("fs", len(journal) // size)
    with open("queue", "w") as file:
        file.write(queue(size))
    with open("both", "wb") as file:
        file.write(journal + read("fs"))
    if wide:
        run(jb, "widen", "both")
    run(jb, "load", "both", "queue", "--threads", "3")
    journal = read("both")[:len(journal)]
    with open("fs", "r+b") as file:
        for i, place in enumerate(places):
            file.seek(place * size)
            file.write(journal[i * size:(i + 1) * size])
    run("debugfs", "-w", "-R", "feature needs_recovery", "fs")
    run("cp", "fs", "copy")
    mine, line = recovered(jb, journal, "fs")
    run("mount", "-o", "loop", "fs", "mnt")
    run("umount", "mnt")
    run("mount", "-o", "loop", "place", "mnt")
    run("umount", "mnt")
    run("e2fsck", "-E", "journal_only", "-y", "copy", may_fail=True)
    left = mine + [read("place")]
    return line, [differing(one, read(name), size, places) for one in left for name in ("fs", "copy")]


def churn(turn):
    """Makes and removes directories and files, so that blocks of directories are revoked, and syncs."""
    for i in range(40):
        os.makedirs("mnt/%d/%d" % (turn, i))
        for k in range(8):
            with open("mnt/%d/%d/%0200d" % (turn, i, k), "wb") as file:
                file.write(os.urandom(random.randrange(1, 9000)))
    run("sync", "-f", "mnt")
    run("rm", "-r", *("mnt/%d/%d" % (turn, i) for i in range(0, 40, 2)))
    with open("mnt/%d/1/last" % turn, "wb") as file:
        file.write(os.urandom(30000))
        file.flush()
        os.fsync(file.fileno())


def kernel_writes(jb, size, feature, mib):
    make("fs", size, feature, mib)
    run("mount", "-o", "loop", "fs", "mnt")
    try:
        for turn in range(2):
            churn(turn)
        run("cp", "fs", "copy")
    finally:
        run("umount", "mnt")
    journal = journal_of("copy")
    places = places_of("copy", len(journal) // size)
    mine, line = recovered(jb, journal, "copy")
    run("e2fsck", "-E", "journal_only", "-y", "copy", may_fail=True)
    return line, [differing(one, read("copy"), size, places) for one in mine]


def crashes_twice(jb, size, feature, mib):
    """What `jb recover --journal` says after the second crash of copies of the journal of both."""
    make("fs", size, feature, mib)
    said = []
    for turn in range(2):
        run("mount", "-o", "loop", "fs", "mnt")
        try:
            churn(turn)
            run("cp", "fs", "copy")
        finally:
            run("umount", "mnt")
        journal_of("copy")
        os.rename("journal", "journal%d" % turn)
        run("cp", "copy", "fs")
        time.sleep(1.1)  # the times of mounts and commits are whole seconds
    for turn in range(2):
        words = [jb, "recover", "copy", "--journal", "journal%d" % turn, "--dry-run"]
        said.append(subprocess.run(words, capture_output=True, text=True))
    return [(ran.returncode, ran.stderr.strip()) for ran in said]


def main():
    jb, wrong = os.path.abspath(sys.argv[1]), 0
    random.seed(1)
    with tempfile.TemporaryDirectory() as folder:
        os.chdir(folder)
        os.mkdir("mnt")
        for size, feature, mib, wide in KINDS:
            for who, (line, differs) in [("jb", jb_writes(jb, size, feature, mib, wide)),
                                         ("kernel", kernel_writes(jb, size, feature, mib))]:
                wrong += any(differs)
                print("%s wrote, -b %d -O %s%s: %s: %s" % (who, size, feature, " widened" if wide and who == "jb" else "", line,
                                                        "differs in blocks %s" % differs if any(differs) else "the same"))
            older, own = crashes_twice(jb, size, feature, mib)
            is_right = older == (1, "jb: FileSystem Newer copy") and own == (0, "")
            wrong += not is_right
            print("two crashes, -b %d -O %s: %s" % (size, feature, "the older copy is refused" if is_right else "%s, %s" % (older, own)))
        os.chdir("/")
    return 1 if wrong else 0


if __name__ == "__main__":
    sys.exit(main())
