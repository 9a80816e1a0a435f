#!/usr/bin/env python3
"""in_place.py JB [SEED [KILLS]]: does `JB recover --journal` recover a file system where it stands as e2fsck does?

Sparse file systems are made with blocks of 1, 2 and 4 KiB, without and with 64bit, of 1 to 8 GiB. Each gets a dirty journal twice: a
random one (wraps, escapes, revokes, its last transaction cut off), and one that debugfs writes. The journal is dumped by debugfs, and
  - `JB recover --journal journal image` recovers a copy, and `e2fsck -E journal_only` another. All blocks of the two are compared. Two
    may differ, both as they were before JB: that of the ext4 superblock, of which e2fsck changes s_wtime, the flag needs_recovery and
    s_kbytes_written; and the first of the journal inside, of which it changes s_sequence and s_start;
  - a second run of JB finds nothing and changes nothing, and of the journal file only s_sequence and s_start have changed;
  - e2fsck then runs on JB's copy, replays once more, and all blocks are the same as of its own;
  - each of the two is killed at KILLS (8) calls chosen by SEED (0) among its writes and syncs, on new copies, and run again to its end.
    JB then leaves all blocks, and the journal file, as a run that was not killed. So does e2fsck, but for the fields named above.
At last the seconds of both on a dirty file system of 8 GiB. Needs e2fsprogs and strace. Prints a line for each journal."""
import os
import random
import re
import shutil
import struct
import subprocess
import sys
import tempfile
import time

from jbref_read import Super, replay
from jbref_write import big_journal, random_journal

# bytes of a block, feature, GiB
KINDS = [(1024, "^64bit", 1), (1024, "64bit", 2), (2048, "^64bit", 3), (2048, "64bit", 4), (4096, "^64bit", 6), (4096, "64bit", 8)]
# fields of the ext4 superblock and of the journal's that e2fsck writes: offset and bytes
FIELDS = {"s_wtime": (0x30, 4), "needs_recovery": (0x60, 4), "s_kbytes_written": (0x178, 8)}
CLEANED = {"s_sequence": (0x18, 4), "s_start": (0x1C, 4)}
CALLS = "trace=pwrite64,write,ftruncate,fsync,fdatasync"
E2FSCK = ["e2fsck", "-E", "journal_only", "-y"]


def run(*words, text=None, most=0):
    """Standard output of a program that may end with a status up to `most`. e2fsck writes the same time in each run."""
    env = dict(os.environ, E2FSCK_TIME="1800000000", LC_ALL="C")
    done = subprocess.run(words, check=False, capture_output=True, text=True, input=text, env=env)
    if not 0 <= done.returncode <= most:
        sys.exit("%s: status %d: %s%s" % (" ".join(words), done.returncode, done.stdout, done.stderr))
    return done.stdout.strip()


def read_at(name, at, count):
    with open(name, "rb") as file:
        file.seek(at)
        return file.read(count)


def whole(name):
    return read_at(name, 0, -1)


def copy(source, target):
    run("cp", "--sparse=always", source, target)


def data_of(file):
    """The parts of an open file that are not holes."""
    end, at, parts = os.fstat(file.fileno()).st_size, 0, []
    while at < end:
        try:
            begin = os.lseek(file.fileno(), at, os.SEEK_DATA)
        except OSError:
            break
        at = os.lseek(file.fileno(), begin, os.SEEK_HOLE)
        parts.append((begin, at))
    return parts


def differing(one, other, size):
    """The blocks in which two files differ, and the bytes of the two. A hole is zeros in both, and is not read."""
    found, seen, step = {}, set(), 1 << 16
    with open(one, "rb") as a, open(other, "rb") as b:
        if os.fstat(a.fileno()).st_size != os.fstat(b.fileno()).st_size:
            sys.exit("%s and %s have different sizes" % (one, other))
        for begin, end in data_of(a) + data_of(b):
            seen.update(range(begin // step, -(-end // step)))
        for part in sorted(seen):
            a.seek(part * step)
            b.seek(part * step)
            mine, theirs = a.read(step), b.read(step)
            for at in range(0, 0 if mine == theirs else len(mine), size):
                if mine[at:at + size] != theirs[at:at + size]:
                    found[(part * step + at) // size] = (mine[at:at + size], theirs[at:at + size])
    return found


def changed_but(old, new, fields, base=0):
    """Whether two blocks differ outside of these fields, whose offsets are from `base` on."""
    old, new = bytearray(old), bytearray(new)
    for at, count in fields.values():
        old[base + at:base + at + count] = new[base + at:base + at + count]
    return old != new


class FileSystem:
    """A file system with a clean journal, in a file."""

    def __init__(self, size, feature, gib, journal):
        self.size, self.wide, self.name = size, feature == "64bit", "-b %d -O %s, %d GiB" % (size, feature, gib)
        with open("fs", "wb") as file:
            file.truncate(gib << 30)
        run("mke2fs", "-q", "-F", "-t", "ext4", "-b", str(size), "-O", "^metadata_csum," + feature, "-J", journal, "fs")
        self.places = [int(place) for place in run("debugfs", "-R", "blocks <8>", "fs").split()]
        free = re.findall(r"^  Free blocks: (.+)$", run("dumpe2fs", "fs"), re.M)
        self.free = [tuple(map(int, (part + "-" + part).split("-")[:2])) for line in free for part in line.split(", ")]

    def some(self, chance, count):
        """Free blocks all over the file system, the first and the last among them."""
        picked = {self.free[0][0], self.free[-1][1]}
        while len(picked) < count:
            low, high = chance.choice(self.free)
            picked.add(chance.randint(low, high))
        return sorted(picked)

    def put(self, journal):
        """This journal, with the file system's UUID, in place of its own, and the flag needs_recovery."""
        journal = journal[:0x30] + read_at("fs", 1024 + 0x68, 16) + journal[0x40:]
        with open("fs", "r+b") as file:
            for i, place in enumerate(self.places):
                file.seek(place * self.size)
                file.write(journal[i * self.size:(i + 1) * self.size])
        run("debugfs", "-w", "-R", "feature needs_recovery", "fs")

    def put_random(self, chance):
        pool = self.some(chance, 400)
        self.put(random_journal(chance.randrange(1 << 30), self.size, len(self.places), pool, self.wide))

    def put_debugfs(self, chance):
        """Three sessions, each a transaction: copies, a revoke of some of them, and copies of two of these again."""
        homes = self.some(chance, 9)
        with open("blocks", "wb") as file:
            file.write(b"".join((bytes.fromhex("c03b3998") if i % 3 == 0 else b"data") + chance.randbytes(self.size - 4) for i in range(9)))
        listed = [",".join(map(str, some)) for some in (homes, homes[2:7], homes[3:5])]
        lines = "jo\njw -b %s blocks\njc\njo\njw -r %s\njc\njo\njw -b %s blocks\njc\n" % tuple(listed)
        run("debugfs", "-w", "-f", "-", "fs", text=lines)

    def put_full(self, chance):
        self.put(big_journal(self.size, len(self.places), self.some(chance, 40000)))


class Trial:
    """One dirty journal, recovered by both."""

    def __init__(self, jb, fs, chance, kills):
        self.fs, self.chance, self.kills, self.faults = fs, chance, kills, []
        run("debugfs", "-R", "dump <8> journal", "fs")
        self.jb = [jb, "recover", "--journal", "jb.journal", "jb.img"]
        self.e2fsck = E2FSCK + ["e2fsck.img"]

    def expect(self, what, is_so):
        if not is_so:
            self.faults.append(what)

    def new_jb(self):
        copy("fs", "jb.img")
        copy("journal", "jb.journal")

    def new_e2fsck(self):
        copy("fs", "e2fsck.img")

    def recovered(self):
        """Both on new copies; what JB prints. Leaves their files as jb.whole, jb.whole.journal and e2fsck.whole."""
        self.new_jb()
        self.new_e2fsck()
        line, again = run(*self.jb), None
        copy("jb.img", "jb.whole")
        copy("jb.journal", "jb.whole.journal")
        run(*self.e2fsck, most=1)
        copy("e2fsck.img", "e2fsck.whole")
        again = run(*self.jb)
        self.expect("JB says: " + line, line == replay(whole("journal"))[2])
        self.expect("a second run says: " + again, again == "transactions 0 copies 0 revoked 0 next " + line.split()[-1])
        self.expect("a second run changes blocks", not differing("jb.img", "jb.whole", self.fs.size))
        self.expect("a second run changes the journal", whole("jb.journal") == whole("jb.whole.journal"))
        return line

    def judged(self):
        """Compares the three files; the blocks that JB has changed, and those that differ from e2fsck's."""
        size, old, new = self.fs.size, whole("journal"), whole("jb.whole.journal")
        self.expect("the journal's other bytes", not changed_but(old, new, CLEANED))
        self.expect("the journal's start and number", struct.unpack_from(">II", new, 0x18) == (replay(old)[3] % 2**32, 0))
        mine, homes = differing("fs", "jb.whole", size), set(replay(old)[1])
        self.expect("JB changes blocks that no copy is of", set(mine) <= homes)
        beside = differing("jb.whole", "e2fsck.whole", size)
        first, log = 1024 // size, self.fs.places[0]
        self.expect("blocks differ: %s" % sorted(beside), set(beside) == {first, log})
        if set(beside) == {first, log}:
            self.expect("the ext4 superblock", not changed_but(*beside[first], FIELDS, 1024 % size))
            self.expect("the journal's superblock", not changed_but(*beside[log], CLEANED))
        self.new_jb()
        copy("jb.whole", "e2fsck.img")
        run(*self.e2fsck, most=1)
        self.expect("e2fsck after JB", not differing("e2fsck.img", "e2fsck.whole", size))
        return len(mine), sorted(beside)

    def killed(self, new, words, check):
        """Kills a command at calls of its own, runs it again, and has the result checked. Gives how many calls it makes."""
        new()
        run("strace", "-f", "-qq", "-o", "calls", "-e", CALLS, *words, most=1)
        with open("calls") as file:
            names = re.findall(r"^\d+ +(\w+)\(", file.read(), re.M)
        for at in sorted(self.chance.sample(range(len(names)), min(self.kills, len(names)))):
            new()
            inject = "inject=%s:signal=KILL:when=%d" % (names[at], names[:at + 1].count(names[at]))
            ended = subprocess.run(["strace", "-f", "-qq", "-o", os.devnull, "-e", inject] + words, capture_output=True, check=False)
            told = "no kill at %d: %d %s" % (at, ended.returncode, ended.stderr[-200:])
            self.expect(told, ended.returncode in (-9, 137))
            run(*words, most=1)
            check("%s killed at call %d, a %s" % (words[0], at, names[at]))
        return len(names)

    def check_jb(self, what):
        self.expect(what, not differing("jb.img", "jb.whole", self.fs.size))
        self.expect(what + ": the journal", whole("jb.journal") == whole("jb.whole.journal"))

    def check_e2fsck(self, what):
        first, log = 1024 // self.fs.size, self.fs.places[0]
        for block, pair in differing("e2fsck.img", "e2fsck.whole", self.fs.size).items():
            other = changed_but(*pair, *{first: (FIELDS, 1024 % self.fs.size), log: (CLEANED,)}.get(block, ({},)))
            self.expect("%s: block %d" % (what, block), not other)

    def all(self, what):
        line, (changed, beside) = self.recovered(), self.judged()
        calls = [self.killed(self.new_jb, self.jb, self.check_jb), self.killed(self.new_e2fsck, self.e2fsck, self.check_e2fsck)]
        print("%s, %s: %s; %d blocks changed; beside e2fsck all but %s the same; killed at %s: %s" % (
            self.fs.name, what, line, changed, beside, " and ".join("%d of %d calls" % (min(self.kills, n), n) for n in calls),
            "WRONG: " + "; ".join(self.faults) if self.faults else "the same"), flush=True)
        return bool(self.faults)


def timed(trial, what):
    """The least seconds of five runs of each, in turn, on new copies that are synced."""
    best = {}
    for _ in range(5):
        for name, new, words in [("jb", trial.new_jb, trial.jb), ("e2fsck", trial.new_e2fsck, trial.e2fsck)]:
            new()
            os.sync()
            begin = time.perf_counter()
            line = run(*words, most=1)
            took = time.perf_counter() - begin
            best[name] = min(best.get(name, (took, line)), (took, line))
    print("%s, %s: jb %.3f s (%s), e2fsck %.3f s" % (trial.fs.name, what, *best["jb"], best["e2fsck"][0]), flush=True)


def main():
    if len(sys.argv) < 2:
        sys.exit(__doc__)
    jb = os.path.realpath(shutil.which(sys.argv[1]) or sys.argv[1])
    seed, kills = (list(map(int, sys.argv[2:])) + [0, 8][len(sys.argv) - 2:])[:2]
    chance, wrong = random.Random(seed), 0
    with tempfile.TemporaryDirectory() as folder:
        os.chdir(folder)
        for size, feature, gib in KINDS:
            for what in ("random", "debugfs"):
                fs = FileSystem(size, feature, gib, "size=%d" % (8 * size // 1024))
                getattr(fs, "put_" + what)(chance)
                wrong += Trial(jb, fs, chance, kills).all(what)
        for what in ("debugfs", "full"):
            fs = FileSystem(4096, "64bit", 8, "size=64")
            getattr(fs, "put_" + what)(chance)
            timed(Trial(jb, fs, chance, 0), what)
        os.chdir("/")
    print("%d wrong" % wrong)
    return 1 if wrong else 0


if __name__ == "__main__":
    sys.exit(main())
