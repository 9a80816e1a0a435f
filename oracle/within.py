#!/usr/bin/env python3
"""within.py JB [SEED [KILLS]]: does `JB recover --extents` recover a journal where it stands, so that nothing is left to replay?

ext4 and ext3 file systems are made whose journals lie in one, two, three and more stretches (a few blocks are taken before tune2fs
makes the journal), and each gets a dirty journal twice, as in in_place.py. The list that debugfs prints is given to --extents.
  - What JB leaves is what `e2fsck -E journal_only` makes of a copy, in all blocks but two: that of the ext4 superblock, which JB leaves
    as it was, and the journal's first, whose s_sequence is one less. --dry-run says the same before, and changes nothing;
  - a later e2fsck has nothing to replay: it changes those two blocks at most. A home block that is written after JB keeps its bytes,
    which it does not after `--journal` of a copy: there e2fsck replays the log once more over it (both are shown);
  - JB is killed at each of its writes and syncs (of a long log at KILLS (24) of them), on new copies, and run again to its end: the file
    system is then that of a run that was not killed.
Refused, and nothing is changed: a journal that was copied out before e2fsck repaired the file system; one of another block size; one of
another file system; a file system that is mounted on a loop device, where there are any.
OCFS2 volumes, with journals in one, two and three stretches, are treated likewise, where mkfs.ocfs2 and debugfs.ocfs2 are installed: what
JB leaves is compared with what jbref_read.py makes of the journal. A log that ends inside a transaction at a block that is none of a journal,
or in which nothing is committed, JB has to refuse there, and to recover by --force alone: the line says so.
Needs e2fsprogs, and strace for the kills; what is not installed is passed over, with a line that says so. Prints a line for each."""
import os
import random
import re
import shutil
import struct
import subprocess
import sys
import tempfile

import in_place
from in_place import CLEANED, E2FSCK, FIELDS, changed_but, copy, differing, read_at, run, whole
from jbref_read import replay
from within_ocfs2 import VOLUMES, Volume

# what makes the file system, bytes of a block, MiB, and how many blocks are taken within the journal's place
KINDS = [("ext4", "^64bit", 1024, 64, 0), ("ext4", "64bit", 1024, 64, 1), ("ext4", "64bit", 2048, 96, 2), ("ext4", "64bit", 4096, 160, 0),
         ("ext4", "^64bit", 4096, 160, 1), ("ext3", "^64bit", 1024, 64, 0), ("ext3", "^64bit", 1024, 64, 2)]


def need(*names):
    """Whether these programs are installed; a line says which is not."""
    missing = [name for name in names if not shutil.which(name)]
    if missing:
        print("passed over, since %s is not installed" % ", ".join(missing), flush=True)
    return not missing


class Spread(in_place.FileSystem):
    """A file system whose journal lies in stretches: so many blocks are taken where tune2fs would put it, and freed again."""

    def __init__(self, kind, feature, size, mib, taken):
        self.size, self.wide = size, feature == "64bit"
        with open("fs", "wb") as file:
            file.truncate(mib << 20)
        run("mke2fs", "-q", "-F", "-t", kind, "-b", str(size), "-O", "^has_journal,^metadata_csum," + feature, "fs")
        copy("fs", "probe")
        run("tune2fs", "-J", "size=%d" % (4 * size // 1024), "probe")
        places = [int(place) for place in run("debugfs", "-R", "blocks <8>", "probe").split()]
        for part in range(taken):
            run("debugfs", "-w", "-R", "setb %d" % places[len(places) * (part + 1) // (taken + 1)], "fs")
        run("tune2fs", "-J", "size=%d" % (4 * size // 1024), "fs")
        run("e2fsck", "-fy", "fs", most=1)
        self.places = self.file_blocks()
        free = re.findall(r"^  Free blocks: (.+)$", run("dumpe2fs", "fs"), re.M)
        self.free = [tuple(map(int, (part + "-" + part).split("-")[:2])) for line in free for part in line.split(", ")]
        self.listed = re.search(r"^(?:EXTENTS|BLOCKS):\n(.*)$", run("debugfs", "-R", "stat <8>", "fs"), re.M)[1]
        self.stretches = 1 + sum(b != a + 1 for a, b in zip(self.places, self.places[1:]))
        self.name = "%s, -b %d -O %s, %d stretches" % (kind, size, feature, self.stretches)

    def file_blocks(self):
        """The blocks of the journal's file, without those of its map."""
        text = run("debugfs", "-f", "-", "fs", text="".join("bmap <8> %d\n" % i for i in range(4096)))
        return [int(place) for place in re.findall(r"^(\d+)$", text, re.M)]


class Trial(in_place.Trial):
    """One dirty journal, recovered where it stands, and by e2fsck."""

    def __init__(self, jb, fs, chance, kills):
        super().__init__(jb, fs, chance, kills)
        self.within = [jb, "recover", "--extents", fs.listed]
        self.jb = self.within + ["jb.img"]

    def recovered(self):
        self.new_jb()
        self.new_e2fsck()
        before = whole("jb.img")
        said = run(*self.jb, "--dry-run")
        listed = run(*self.jb, "--dry-run", "--list").split("\n")
        self.expect("--dry-run changes blocks", whole("jb.img") == before)
        line = run(*self.jb)
        copy("jb.img", "jb.whole")
        run(*self.e2fsck, most=1)
        copy("e2fsck.img", "e2fsck.whole")
        again = run(self.within[0], "recover", "--extents", self.fs.listed.replace(", ", ","), "jb.img")
        self.expect("JB says: " + line, line == replay(whole("journal"))[2])
        self.expect("--dry-run says: " + said, said == line == listed[0])
        homes = {int(text.split()[1]) for text in listed[1:]}
        self.expect("--list", homes == set(replay(whole("journal"))[1]) and len(listed) == 1 + int(line.split()[3]))
        self.expect("a second run says: " + again, again == "transactions 0 copies 0 revoked 0 next " + line.split()[-1])
        self.expect("a second run changes blocks", whole("jb.img") == whole("jb.whole"))
        return line

    def both_alone(self, pairs, what):
        """Of the blocks that differ none but the two, and of these only the fields."""
        first, log = 1024 // self.fs.size, self.fs.places[0]
        self.expect("%s: blocks %s" % (what, sorted(pairs)), set(pairs) <= {first, log})
        self.expect(what + ": the ext4 superblock", first not in pairs or not changed_but(*pairs[first], FIELDS, 1024 % self.fs.size))
        self.expect(what + ": the journal's superblock", log not in pairs or not changed_but(*pairs[log], CLEANED))

    def judged(self):
        mine, homes = differing("fs", "jb.whole", self.fs.size), set(replay(whole("journal"))[1])
        self.expect("JB changes blocks that no copy is of", set(mine) <= homes | {self.fs.places[0]})
        first = read_at("jb.whole", self.fs.places[0] * self.fs.size, 1024)
        self.expect("the journal is not clean", struct.unpack_from(">II", first, 0x18) == (replay(whole("journal"))[3] % 2**32, 0))
        beside = differing("jb.whole", "e2fsck.whole", self.fs.size)
        self.both_alone(beside, "beside e2fsck")
        copy("jb.whole", "e2fsck.img")
        run(*self.e2fsck, most=1)
        self.both_alone(differing("jb.whole", "e2fsck.img", self.fs.size), "e2fsck after JB")
        return len(mine), sorted(beside)

    def written_since(self, image):
        """Whether a home block that is written now is as it was written after the next e2fsck."""
        homes = sorted(replay(whole("journal"))[1])
        if not homes:
            return True
        newer = b"newer" + bytes(self.fs.size - 5)
        with open(image, "r+b") as file:
            file.seek(homes[0] * self.fs.size)
            file.write(newer)
        run(*E2FSCK, image, most=1)
        return read_at(image, homes[0] * self.fs.size, self.fs.size) == newer

    def undone(self):
        """A block that is written after the recovery: with --extents it stays; after --journal e2fsck undoes it."""
        self.new_jb()
        run(*self.jb)
        self.expect("e2fsck undoes what was written after --extents", self.written_since("jb.img"))
        self.new_jb()
        run(self.within[0], "recover", "--journal", "jb.journal", "jb.img")
        return "" if self.written_since("jb.img") else "; undone after --journal"

    def check_jb(self, what):
        self.expect(what, whole("jb.img") == whole("jb.whole"))

    def all(self, what):
        line, (changed, beside) = self.recovered(), self.judged()
        lost = self.undone()
        calls = self.killed(self.new_jb, self.jb, self.check_jb) if shutil.which("strace") else 0
        print("%s, %s: %s; %d blocks changed; beside e2fsck all but %s the same%s; killed at %d of %d calls: %s" % (
            self.fs.name, what, line, changed, beside, lost, min(self.kills, calls), calls,
            "WRONG: " + "; ".join(self.faults) if self.faults else "the same"), flush=True)
        return bool(self.faults)


def refused(what, line, words, image):
    """Whether a command is refused with this line, and the image stays."""
    before = whole(image)
    ended = subprocess.run(words, capture_output=True, text=True, check=False)
    right = ended.returncode != 0 and (line is None or ended.stderr == line + "\n") and whole(image) == before
    print("%s: %s%s" % (what, ended.stderr.strip() or ended.stdout.strip(), "" if right else ": WRONG"), flush=True)
    return not right


def refusals(jb, chance):
    """Journals that are not the file system's own."""
    fs = Spread("ext4", "64bit", 1024, 64, 0)
    fs.put_debugfs(chance)
    run("debugfs", "-R", "dump <8> stale", "fs")
    copy("fs", "small")
    listed = fs.listed
    run("e2fsck", "-fy", "fs", most=1)
    wrong = refused("a stale copy", "jb: FileSystem Clean fs", [jb, "recover", "--journal", "stale", "fs"], "fs")
    big = Spread("ext4", "64bit", 4096, 160, 0)
    big.put_debugfs(chance)
    wrong += refused("another block size", "jb: FileSystem BlockSize 4096 fs", [jb, "recover", "--journal", "stale", "fs"], "fs")
    wrong += refused("another block size, --force", "jb: FileSystem BlockSize 4096 fs", [jb, "recover", "--force", "--journal", "stale", "fs"], "fs")
    wrong += refused("extents of another file system", "jb: Extents NoJournal", [jb, "recover", "--extents", listed, "fs"], "fs")
    other = Spread("ext4", "64bit", 1024, 64, 0)
    other.put_debugfs(chance)
    wrong += refused("another file system", "jb: FileSystem Uuid fs", [jb, "recover", "--journal", "stale", "fs"], "fs")
    # the journal keeps the UUID that the file system had before tune2fs -U
    run("e2fsck", "-fy", "fs", most=1)
    run("tune2fs", "-U", "random", "fs", text="y\n")
    other.put_debugfs(chance)
    words = [jb, "recover", "--extents", other.listed, "fs"]
    wrong += refused("after tune2fs -U", "jb: FileSystem Uuid", words, "fs")
    print("after tune2fs -U, --force: " + run(*words, "--force"), flush=True)
    return wrong


def mounted(jb, chance):
    """A file system that is mounted from a loop device."""
    fs = Spread("ext4", "64bit", 1024, 64, 0)
    os.makedirs("mnt", exist_ok=True)
    made = subprocess.run(["losetup", "--find", "--show", "fs"], capture_output=True, text=True, check=False)
    device = made.stdout.strip()
    if os.geteuid() or made.returncode or subprocess.run(["mount", device, "mnt"], capture_output=True, check=False).returncode:
        print("a mounted device: passed over, since no loop device can be mounted here", flush=True)
        if device:
            subprocess.run(["losetup", "--detach", device], check=False)
        return False
    try:
        # the kernel's log is emptied by the freeze of umount alone
        with open("mnt/file", "wb") as file:
            file.write(bytes(5000))
            os.fsync(file.fileno())
        ended = subprocess.run([jb, "recover", device, "--extents", fs.listed], capture_output=True, text=True, check=False)
        print("a mounted device: %s%s" % (ended.stderr.strip() or ended.stdout.strip(), "" if ended.returncode else ": WRONG"), flush=True)
        return ended.returncode == 0
    finally:
        run("umount", "mnt")
        run("losetup", "--detach", device)


def main():
    if len(sys.argv) < 2:
        sys.exit(__doc__)
    jb = os.path.realpath(shutil.which(sys.argv[1]) or sys.argv[1])
    seed, kills = (list(map(int, sys.argv[2:])) + [0, 24][len(sys.argv) - 2:])[:2]
    chance, wrong = random.Random(seed), 0
    with tempfile.TemporaryDirectory() as folder:
        os.chdir(folder)
        if need("mke2fs", "debugfs", "e2fsck", "tune2fs", "dumpe2fs"):
            for kind in KINDS:
                for what in ("debugfs", "random"):
                    fs = Spread(*kind)
                    getattr(fs, "put_" + what)(chance)
                    wrong += Trial(jb, fs, chance, 1000 if what == "debugfs" else kills).all(what)
            wrong += refusals(jb, chance)
            wrong += mounted(jb, chance)
        if need("mkfs.ocfs2", "debugfs.ocfs2"):
            for size, cluster, length in VOLUMES:
                wrong += Volume(jb, size, cluster, length, chance, kills).all("random")
        os.chdir("/")
    print("%d wrong" % wrong)
    return 1 if wrong else 0


if __name__ == "__main__":
    sys.exit(main())
