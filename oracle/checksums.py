#!/usr/bin/env python3
"""checksums.py JB [OPTION..]: does `JB recover --checksums` answer right of journals with checksums?

JB may be the word `reference`: then checksums_reference.py stands in its place, and what it says is compared with
e2fsck and the kernel alone. ext4 file systems as mke2fs makes them by itself are made dirty by the running kernel, and
others by debugfs (`jo -c`) and by jbref_write.py (checksums_systems.py), and kept in --cache FOLDER. In --parts:
  vectors  four journals whose checksums are known (checksums_vectors.py).
  recover  as part recover of own_journal.py, with --checksums: beside e2fsck -E journal_only and the kernel, killed at
           --kills N of its writes and syncs. Without --checksums each is refused, and nothing is written.
  changes  --changes N changed logs over some of them: JB answers as the reference does, with the same bytes; where it
           recovers one, the kernel leaves the same homes; where it refuses one, nothing is written. What e2fsck and the
           kernel do is counted by what is changed and what is answered (checksums_changes.py), --workers N at once.
  texts    `JB dump --checksums` of some changed journals beside the reference, ` wrong` where a copy's data is, with
           --ring what is lost, and `JB cat --checksums` of one of their homes.
  time     a full log of --mib N (96) with checksums: JB, e2fsck, the same log without checksums, and hashing alone.
Of --names a,b only these. A run of JB may take --seconds N (2) of the processor, and --memory KiB (0: any). Needs to be root, with loop devices, e2fsprogs and strace: else it says `skipped`, and ends
with status 0. Prints a line for each file system; the last line has the number of faults."""
import argparse
import random
import sys
import time

sys.dont_write_bytecode = True
import checksums_judged
import checksums_reference
import checksums_speed
import checksums_systems
import checksums_texts
import checksums_vectors
import in_place
import own_journal
from checksums_reference import SUM_AT, SUMS
from ext_finder import listed
from jbref_read import MAGIC_BYTES, Refused
from own_image import SECONDS, Checked, Image, Program, log_of, whole


class Reference:
    """checksums_reference.py in the place of JB: the same words, answers and writes."""

    name = "reference"

    def run(self, command, *words):
        name, *home = [word for word in words if not word.startswith("--")]
        data = whole(name)
        try:
            if command == "dump" and "--ring" in words:
                return checksums_texts.searched(data)
            if command == "dump":
                return 0, checksums_reference.dump(data).strip(), ""
            if command == "cat":
                return 0, checksums_texts.hexed(self.home(data, int(home[0]))), ""
            line, writes = self.recovery(data)
        except Refused as fault:
            return 1, "", "jb: %s" % fault
        with open(name, "r+b") as file:
            for at, new in writes if "--dry-run" not in words else ():
                file.seek(at)
                file.write(new)
        return 0, line, ""

    @staticmethod
    def home(data, number):
        """The bytes of a home block of a file system, as recovery would leave it."""
        found = Checked(data)
        log, size = checksums_reference.Log(log_of(data, found.fs.size, found.places)), found.fs.size
        return log.peeked(number) or data[number * size:(number + 1) * size]

    @staticmethod
    def recovery(data):
        """The line and the writes, of a file system or of a journal at the front with its home blocks behind it."""
        if data[:4] != MAGIC_BYTES:
            found = Checked(data)
            if found.fault is not None:
                raise Refused(found.fault)
            return found.line + (" backup" if found.by == "backup" else ""), found.writes
        log = checksums_reference.Log(data)
        size, length = log.bs, log.bs * log.sup.maxlen
        homes, line = log.recovered((len(data) - length) // size)
        front = [(0, log.cleaned())] if log.sup.start else []
        return line, [(length + home * size, content) for home, content in homes.items()] + front


class Trial(own_journal.Trial):
    """A dirty file system with checksums, recovered by both."""

    options = ["--checksums"]
    fields = dict(in_place.FIELDS, s_checksum=(0x3FC, 4))
    cleaned = dict(own_journal.CLEANED, s_checksum=(SUM_AT, 4))

    def recovered(self):
        """As ever; and refused without the option."""
        if self.jb.name != Reference.name:
            self.new_jb()
            bits = self.image.recovery.super_of(self.image.data[self.log * self.size:][:1024]).incompat & SUMS
            ended = self.jb.run("recover", "jb.img")
            self.expect("without --checksums: %s" % (ended,), ended == (1, "", "jb: Super Feature 2 %d" % bits))
            self.expect("without --checksums blocks are changed", whole("jb.img") == self.image.data)
        super().recovered()
        if self.jb.name != Reference.name:
            self.placed()

    def placed(self):
        """The same with a list of the journal's blocks, and with the journal as a file."""
        recovery, front = self.image.recovery, self.log * self.size
        self.new_jb()
        ended = self.jb.run("recover", "--checksums", "jb.img", "--extents", listed(recovery.stretches))
        self.expect("--extents: %s" % (ended,), ended == (0, recovery.line, "") and whole("jb.img") == self.left)
        self.new_jb()
        log = log_of(self.image.data, self.size, recovery.places)
        with open("jb.journal", "wb") as file:
            file.write(log)
        ended = self.jb.run("recover", "--checksums", "jb.img", "--journal", "jb.journal", "--force")
        after = self.image.data[front:front + 1024]
        wanted = self.left[:front] + after + self.left[front + 1024:]
        self.expect("--journal: %s" % (ended,), ended == (0, recovery.line, "") and whole("jb.img") == wanted)
        self.expect("the journal's file", whole("jb.journal") == self.left[front:front + 1024] + log[1024:])


def all_images(cache, names):
    kinds = checksums_systems.KINDS + checksums_systems.MADE
    return list(own_journal.images_of(cache, names, kinds, checksums_systems.make))


def recovered(jb, images, chance, kills):
    """Part recover; how many file systems are wrong."""
    kills = 0 if jb.name == Reference.name else kills
    return sum(Trial(jb, Image(*image, Checked), chance, kills, True).all() for image in images)


def options():
    given = argparse.ArgumentParser(description=__doc__, formatter_class=argparse.RawDescriptionHelpFormatter)
    given.add_argument("jb")
    given.add_argument("--cache", default="")
    given.add_argument("--parts", default="vectors,recover,changes,texts,time")
    given.add_argument("--names", default="")
    for name, usual in (("changes", 6000), ("kills", 12), ("seed", 0), ("memory", 512 << 10), ("workers", 2), ("mib", 96),
                        ("seconds", SECONDS)):
        given.add_argument("--" + name, type=int, default=usual)
    return given.parse_args()


def main():
    given = options()
    if own_journal.absent():
        print("skipped: %s" % own_journal.absent())
        return 0
    jb = Reference() if given.jb == Reference.name else Program(given.jb, given.memory, given.seconds)
    chance, wrong, begin = random.Random(given.seed), 0, time.time()
    with own_journal.working(given.cache) as cache:
        images = all_images(cache, [name for name in given.names.split(",") if name])
        print("%d file systems, %.0f seconds" % (len(images), time.time() - begin), flush=True)
        parts = {"vectors": lambda: checksums_vectors.tried(jb),
                 "recover": lambda: recovered(jb, images, chance, given.kills),
                 "changes": lambda: checksums_judged.tried(jb, images, chance, given.changes, given.workers),
                 "texts": lambda: checksums_texts.tried(jb, images, chance, given.changes // 10),
                 "time": lambda: checksums_speed.tried(jb, given.mib, cache)}
        for name in given.parts.split(","):
            wrong += parts[name]()
    print("%d wrong, %.0f seconds" % (wrong, time.time() - begin))
    return 1 if wrong else 0


if __name__ == "__main__":
    sys.exit(main())
