"""OCFS2 volumes for within.py, whose first journal is dirty and recovered where it stands.

Nothing but the log tells there whether the list of blocks is right, so where it ends in some ways JB wants --force."""
import re
import shutil
import struct
import subprocess

import in_place
from in_place import copy, differing, read_at, run, whole
from jbref_read import DESCRIPTOR, MAGIC, REVOKE, read_journal, replay, tags_of
from jbref_write import random_journal

# bytes of a block and of a cluster, and the size of the journal, which lies in one, two, three and one stretches
VOLUMES = [(4096, 4096, "8M"), (1024, 4096, "32M"), (1024, 4096, "64M"), (2048, 65536, "8M")]


def ending(journal):
    """How a log ends that is not clean: `Nothing` where no transaction of it is committed, `Broken P` where it ends inside one at
    place P of the journal, at a block without the magic, and else None."""
    sup, found, expected = read_journal(journal)
    if sup.start == 0 or not found:
        return None if sup.start == 0 else "Nothing"
    at, inside = (found[-1][-1][0] + 1 - sup.start) % sup.usable, False
    while at < sup.usable:
        place = sup.first + (sup.start - sup.first + at) % sup.usable
        raw = journal[place * sup.bs:(place + 1) * sup.bs]
        magic, kind, number = struct.unpack_from(">III", raw, 0)
        if magic != MAGIC or number != expected or kind not in (DESCRIPTOR, REVOKE):
            return f"Broken {place}" if inside and magic != MAGIC else None
        at += 1 + (len(tags_of(raw, sup.bs, sup.wide)) if kind == DESCRIPTOR else 0)
        inside = True
    return None


class Volume(in_place.Trial):
    """An OCFS2 volume whose first journal is dirty, recovered where that stands."""

    def __init__(self, jb, size, cluster, length, chance, kills):
        self.size, self.chance, self.kills, self.faults = size, chance, kills, []
        self.name = "OCFS2, -b %d -C %d -J size=%s" % (size, cluster, length)
        with open("fs", "wb") as file:
            file.truncate(400 << 20)
        run("mkfs.ocfs2", "-q", "--fs-features=local", "-b", str(size), "-C", str(cluster), "-J", "size=" + length, "fs", text="y\n")
        rows = re.findall(r"^\t\d+\s+(\d+)\s+(\d+)\s+(\d+)\s+0x", run("debugfs.ocfs2", "-R", "stat //journal:0000", "fs"), re.M)
        self.parts = [(int(first), int(clusters) * cluster // size) for _, clusters, first in rows]
        self.places = [first + i for first, count in self.parts for i in range(count)]
        self.words = [jb, "recover", "--extents", ", ".join("%d-%d" % (first, first + count - 1) for first, count in self.parts), "jb.img"]
        self.put_random()

    def put_random(self):
        """A journal of many transactions in the place of the volume's own."""
        end = (400 << 20) // self.size
        pool = [block for block in range(end - 4000, end) if block not in set(self.places)]
        self.journal = random_journal(self.chance.randrange(1 << 30), self.size, len(self.places), pool)
        with open("fs", "r+b") as file:
            for i, place in enumerate(self.places):
                file.seek(place * self.size)
                file.write(self.journal[i * self.size:(i + 1) * self.size])

    def new_jb(self):
        copy("fs", "jb.img")

    def check_jb(self, what):
        self.expect(what, whole("jb.img") == whole("jb.whole"))

    def judged(self, line):
        """Compares the volume with what the journal says; how many blocks have changed."""
        _, homes, wanted, expected = replay(self.journal)
        changed = differing("fs", "jb.img", self.size)
        self.expect("JB says: " + line, line == wanted)
        self.expect("blocks that no copy is of", set(changed) <= set(homes) | {self.places[0]})
        for home, content in homes.items():
            self.expect("home %d" % home, read_at("jb.img", home * self.size, self.size) == content)
        first = read_at("jb.img", self.places[0] * self.size, 1024)
        self.expect("the journal is not clean", struct.unpack_from(">II", first, 0x18) == (expected % 2**32, 0))
        return len(changed)

    def unsure(self):
        """Where nothing but the log tells whether the list is right: how JB says that it does not, if it has to; --force
        passes that."""
        why = ending(self.journal)
        if not why:
            return ""
        ended = subprocess.run(self.words, capture_output=True, text=True, check=False)
        self.expect("not refused, but " + ended.stderr + ended.stdout, (ended.returncode, ended.stderr) == (1, "jb: Extents %s\n" % why))
        self.expect("a refusal writes", whole("jb.img") == whole("fs"))
        self.words.append("--force")
        return "%s, so --force: " % why

    def all(self, what):
        self.new_jb()
        forced = self.unsure()
        line = run(*self.words)
        changed = self.judged(line)
        copy("jb.img", "jb.whole")
        again = run(*self.words)
        self.expect("a second run says: " + again, again.startswith("transactions 0 "))
        calls = self.killed(self.new_jb, self.words, self.check_jb) if shutil.which("strace") else 0
        print("%s, %d stretches, %s: %s%s; %d blocks changed; killed at %d of %d calls: %s" % (
            self.name, len(self.parts), what, forced, line, changed, min(self.kills, calls), calls,
            "WRONG: " + "; ".join(self.faults) if self.faults else "as jbref_read.py has it"), flush=True)
        return bool(self.faults)
