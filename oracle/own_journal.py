#!/usr/bin/env python3
"""own_journal.py JB [OPTION..]: is the journal that JB recovers the file system's own, and no list another's?

ext3 and ext4 file systems of many kinds (dirty_systems.py) are made dirty by the running kernel, and kept in --cache
FOLDER. Of each, ext_finder.py finds the journal, which has to be as `debugfs bmap` says block by block. In --parts:
  recover  `JB recover IMAGE` (without --own `JB recover IMAGE --extents LIST`, with the finder's list) leaves what the
           log means, by jbref_read.py, but for the named words of the file system's superblock; `e2fsck -E
           journal_only` leaves the same but for what a line names, and after JB the same as without it. `e2fsck -fn`
           and `-p` then find nothing, and the kernel mounts it, before -p and after it, with the same names and bytes
           as after e2fsck alone.
           --dry-run changes nothing, a second run nothing more. JB is killed at --kills N of its writes and syncs, and
           run again: the same.
  loads    `JB load` onto the journals that are recovered so, `JB cat`, both recoveries and `e2fsck -fn` (own_loads.py).
  lists    --lists N changed lists over some of them: JB never ends with status 0 and another image (own_lists.py);
           with --own it takes no other list than the right one.
  changes  with --own, all fields and --changes N random changes of some of them (own_changes.py), one of --beside N
           (3) of those that JB recovers beside e2fsck too.
A run of JB may take two seconds of the processor, and --memory KiB (0: any). Of --names a,b only these; ext4-4k-mmp,
over which e2fsck waits for two minutes, only so. Needs to be root, with loop devices, e2fsprogs and strace: else it
says `skipped`, and ends with status 0. Prints a line for each file system; the last line has the number of faults."""
import argparse
import contextlib
import hashlib
import os
import random
import shutil
import stat
import subprocess
import sys
import tempfile
import time
import zlib

sys.dont_write_bytecode = True
import dirty_systems
import in_place
import own_changes
import own_lists
import own_loads
from ext_finder import RECOVER, listed
from in_place import changed_but, run
from own_image import JOURNAL_ONLY, Image, Program, blocks_differing, is_meant, whole

# what e2fsck writes besides in_place.FIELDS in the file system's superblock, of some kinds
MORE = {"errno": {"s_state": (0x3A, 2)}, "no backup": {"s_jnl_backup_type": (0xFD, 1), "s_jnl_blocks": (0x10C, 68)}}
CLEANED = {"s_sequence": (0x18, 4), "s_start": (0x1C, 4), "s_errno": (0x20, 4)}


def recover_words(name, image, own):
    return ["recover", name] + ([] if own else ["--extents", listed(image.recovery.stretches)])


class Trial(in_place.Trial):
    """One dirty file system, recovered by JB with these options and by e2fsck."""

    options, fields, cleaned = [], in_place.FIELDS, CLEANED

    def __init__(self, jb, image, chance, kills, own):
        self.image, self.chance, self.kills, self.faults, self.told = image, chance, kills, [], []
        self.size, self.meant = image.size, image.meant
        self.log = image.recovery.places[0]
        self.jb, self.words = jb, recover_words("jb.img", image, own) + self.options
        self.fields = dict(self.fields, **MORE.get(image.kind.special, {}))

    def new_jb(self):
        self.image.new("jb.img")

    def check_jb(self, what):
        self.expect(what, whole("jb.img") == self.left)

    def as_meant(self, left, what):
        """Whether these bytes are what the log means, but for the named words of the superblock."""
        blocks = blocks_differing(left, self.meant, self.size)
        self.expect("%s: blocks %s" % (what, blocks[:9]), is_meant(left, self.meant, self.image.fs))
        if left[1024:2048] != self.meant[1024:2048]:
            self.told.append("needs_recovery %s" % ("set" if left[1024 + 0x60] & RECOVER else "clear"))

    def recovered(self):
        recovery = self.image.recovery
        self.new_jb()
        status, line, fault = self.jb.run(*self.words, "--dry-run")
        self.expect("--dry-run: %s %s %s" % (status, line, fault), (status, line) == (0, recovery.line))
        self.expect("--dry-run changes blocks", whole("jb.img") == self.image.data)
        status, line, fault = self.jb.run(*self.words)
        self.expect("JB: %s %s %s" % (status, line, fault), (status, line) == (0, recovery.line))
        self.left = whole("jb.img")
        self.as_meant(self.left, "JB")
        status, line, fault = self.jb.run(*self.words)
        again = "transactions 0 copies 0 revoked 0 next " + recovery.line.split()[-1]
        self.expect("again: %s %s %s" % (status, line, fault), (status, line) == (0, again))
        self.expect("a second run changes blocks", whole("jb.img") == self.left)

    def both_alone(self, one, other):
        """The blocks that differ, but for those of the two superblocks, of which only the fields may."""
        front, blocks = self.image.fs.front(), blocks_differing(one, other, self.size)
        for block, fields, base in ((front, self.fields, 1024 % self.size), (self.log, self.cleaned, 0)):
            pair = [data[block * self.size:(block + 1) * self.size] for data in (one, other)]
            if changed_but(*pair, fields, base):
                blocks.append("fields of %d" % block)
        return [block for block in blocks if block not in (front, self.log)]

    def beside(self):
        """e2fsck alone, and e2fsck after JB."""
        run(*JOURNAL_ONLY, self.image.new("e2fsck.img"), most=1)
        alone = whole("e2fsck.img")
        other = self.both_alone(self.left, alone)
        if other and self.writes_more():
            self.told.append("e2fsck writes %s too" % other)
        else:
            self.expect("e2fsck leaves otherwise: %s" % other[:9], not other)
        run(*JOURNAL_ONLY, self.image_of("after.img"), most=1)
        other = self.both_alone(whole("after.img"), alone)
        self.expect("e2fsck after JB: %s" % other[:9], not other or self.image.kind.special in ("mmp", "dot"))

    def writes_more(self):
        """Whether e2fsck does more than to recover: it empties the list of orphans, makes .journal inode 8, makes the
        backup of the map, claims a file system with mmp, and writes all descriptors of meta_bg."""
        kind = self.image.kind
        return kind.special in ("orphans", "dot", "mmp", "no backup") or "meta_bg" in kind.features

    def sound(self):
        """e2fsck -fn and -p on JB's image, and what the kernel finds in it."""
        wanted = 4 if self.image.kind.special == "orphans" else 0
        self.image_of("preen.img")
        for option, name, statuses in (("-fn", "jb.img", (wanted,)), ("-p", "preen.img", (0, 1)),
                                       ("-fn", "preen.img", (0,))):
            ended = subprocess.run(["e2fsck", option, name], capture_output=True, text=True, check=False)
            told = "e2fsck %s %s: %d: %s" % (option, name, ended.returncode, ended.stdout[-300:])
            self.expect(told, ended.returncode in statuses)
        mine, preened, theirs = (mounted(name) for name in (self.image_of("mounted.img"), "preen.img", "e2fsck.img"))
        self.expect("the kernel finds other names or bytes", mine == preened == theirs and len(mine) > 20)
        return len(mine)

    def image_of(self, name):
        in_place.copy("jb.img", name)
        return name

    def all(self):
        self.recovered()
        names = calls = 0
        if not self.faults:
            self.beside()
            names = self.sound()
            calls = self.killed(self.new_jb, [self.jb.name] + self.words, self.check_jb) if self.kills else 0
        recovery = self.image.recovery
        print("%s, %d stretches by the %s: %s; %d names%s; killed at %d of %d calls: %s" % (
            self.image.name, len(recovery.stretches), recovery.by, recovery.line, names,
            "".join("; " + told for told in self.told), min(self.kills, calls), calls,
            "WRONG: " + "; ".join(self.faults) if self.faults else "as it is meant"), flush=True)
        return bool(self.faults)


def mounted(image):
    """The names in a file system that the kernel mounts, and a sum of the bytes of each file."""
    os.makedirs("mnt", exist_ok=True)
    run("mount", "-o", "loop", image, "mnt")
    try:
        found = {}
        for folder, folders, files in os.walk("mnt"):
            for name in folders + files:
                path = os.path.join(folder, name)
                mode = os.lstat(path).st_mode
                data = whole(path) if stat.S_ISREG(mode) else os.readlink(path).encode() if stat.S_ISLNK(mode) else b""
                found[path] = mode, hashlib.sha256(data).hexdigest()
        return {path: told for path, told in found.items() if path not in ("mnt/.journal", "mnt/log")}
    finally:
        run("umount", "mnt")


def images_of(cache, names, kinds=dirty_systems.KINDS, make=dirty_systems.make):
    """The dirty file systems of these kinds, made where the cache has them not."""
    os.makedirs(cache, exist_ok=True)
    for kind in kinds:
        path = os.path.join(cache, "%s-%08x.img" % (kind.name, zlib.crc32(repr(sorted(vars(kind).items())).encode())))
        if kind.name not in names if names else kind.special == "mmp":
            continue
        if not os.path.exists(path):
            with tempfile.TemporaryDirectory(dir=cache) as folder:
                make(kind, path, folder)
        yield kind, path


def as_debugfs(image):
    """Whether the finder's blocks are those of debugfs."""
    fs, places = image.fs, image.recovery.places
    text = "".join("bmap <%d> %d\n" % (fs.inum, i) for i in range(len(places)))
    told = run("debugfs", "-f", "-", image.path, text=text)
    return [int(line) for line in told.split("\n") if line.isdigit()] == places


def recovered(jb, image, chance, given):
    """Part recover of one file system; whether it is wrong."""
    image = Image(*image)
    if not as_debugfs(image):
        print("%s: the finder and debugfs differ: WRONG" % image.name)
        return True
    if image.recovery.fault is None:
        return Trial(jb, image, chance, given.kills, given.own).all()
    ended = jb.run(*recover_words(image.new("jb.img"), image, given.own))
    is_right = ended == (1, "", "jb: " + image.recovery.fault) and whole("jb.img") == image.data
    print("%s: %s%s" % (image.name, ended[2] or ended[1], "" if is_right else ": WRONG"), flush=True)
    return not is_right


def absent():
    """What this machine has not of what is needed, or None."""
    return dirty_systems.missing() or (None if shutil.which("strace") else "strace not installed")


@contextlib.contextmanager
def working(cache):
    """Works in a new folder, in memory where it can, and gives the folder of the cache: this one, or one within."""
    memory = "/dev/shm" if os.access("/dev/shm", os.W_OK) else None
    with tempfile.TemporaryDirectory(dir=memory) as folder:
        cache = os.path.abspath(cache or os.path.join(folder, "cache"))
        os.chdir(folder)
        try:
            yield cache
        finally:
            os.chdir("/")


def main():
    given = argparse.ArgumentParser(description=__doc__, formatter_class=argparse.RawDescriptionHelpFormatter)
    given.add_argument("jb")
    given.add_argument("--cache", default="")
    given.add_argument("--own", action="store_true")
    given.add_argument("--parts", default="recover,loads,lists,changes")
    given.add_argument("--names", default="")
    for name, usual in (("lists", 1000), ("changes", 10000), ("kills", 12), ("seed", 0), ("memory", 512 << 10),
                        ("beside", 3)):
        given.add_argument("--" + name, type=int, default=usual)
    given = given.parse_args()
    if absent():
        print("skipped: %s" % absent())
        return 0
    jb, chance, wrong, begin = Program(given.jb, given.memory), random.Random(given.seed), 0, time.time()
    with working(given.cache) as cache:
        images = list(images_of(cache, [name for name in given.names.split(",") if name]))
        print("%d file systems, %.0f seconds" % (len(images), time.time() - begin), flush=True)
        if "recover" in given.parts:
            wrong += sum(recovered(jb, image, chance, given) for image in images)
        if "loads" in given.parts:
            wrong += own_loads.tried(jb, images, chance, given.own)
        if "lists" in given.parts:
            wrong += own_lists.tried(jb, images, chance, given.lists, given.own)
        if "changes" in given.parts and given.own:
            wrong += own_changes.tried(jb, images, chance, given.changes, given.beside)
    print("%d wrong, %.0f seconds" % (wrong, time.time() - begin))
    return 1 if wrong else 0


if __name__ == "__main__":
    sys.exit(main())
