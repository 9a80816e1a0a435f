"""Loads onto journals that stand in their file systems, for own_journal.py.

After `JB recover` of a dirty file system a queue of handles over free blocks is loaded onto its own journal. JB then
shows the blocks, and its recovery and that of `e2fsck -E journal_only` write them; `e2fsck -fn` finds nothing. A queue
with a handle on a block of the journal is refused, as is one for a file system whose needs_recovery is clear."""
import re
import subprocess

from ext_finder import RECOVER, listed
from in_place import run
from own_image import JOURNAL_ONLY, Image, blocks_differing, whole

HANDLES = 12
HOMES = 9


def free_blocks(chance, name):
    """Some of a file system's free blocks, the first and the last among them."""
    told = re.findall(r"^  Free blocks: (.+)$", run("dumpe2fs", name), re.M)
    free = [tuple(map(int, (part + "-" + part).split("-")[:2])) for line in told for part in line.split(", ")]
    picked = {free[0][0], free[-1][1]}
    while len(picked) < HOMES:
        picked.add(chance.randint(*chance.choice(free)))
    return sorted(picked)


class Load:
    """One file system, and a queue for it."""

    def __init__(self, jb, image, chance, own):
        self.jb, self.image, self.chance, self.faults = jb, image, chance, []
        self.places = [] if own else ["--extents", listed(image.recovery.stretches)]

    def expect(self, what, is_so):
        if not is_so:
            self.faults.append(ascii(what[:200]))

    def ran(self, command, *words):
        return self.jb.run(command, "load.img", *words, *self.places)

    def queue(self, homes):
        """A queue text, what its handles leave at each home, and the beginning of what a load of it says."""
        lines, left, changes = ["bs %d" % self.image.size, "limit 8"], {}, 0
        for handle in range(HANDLES):
            said, some = "handle %d" % handle, self.chance.sample(homes, self.chance.randrange(1, 4))
            lines.append("h " + " ".join("w%d=%s" % (home, said.encode().hex()) for home in some))
            left.update({home: said for home in some})
            changes += len(some)
        return lines, left, "handles %d changes %d settled %d groups " % (HANDLES, changes, HANDLES)

    def write(self, lines):
        with open("queue", "w", encoding="ascii") as file:
            file.write("\n".join(lines) + "\n")

    def refused(self, fault):
        ended = self.ran("load", "queue", "--hold")
        self.expect("not refused as %s: %s" % (fault, ended), ended == (1, "", "jb: " + fault))
        self.expect("a refused load writes", whole("load.img") == self.before)

    def holds(self, what, name, left):
        """Whether an image has these homes."""
        data, size = whole(name), self.image.size
        for home, said in left.items():
            block = data[home * size:(home + 1) * size]
            self.expect("%s: home %d" % (what, home), block == said.encode().ljust(size, b"\0"))

    def loaded(self, left, line):
        """The load, and what `JB cat` shows after it: only the journal's blocks are written."""
        status, told, fault = self.ran("load", "queue", "--hold")
        self.expect("load: %s %s %s" % (status, told, fault), status == 0 and told.startswith(line))
        changed = blocks_differing(whole("load.img"), self.before, self.image.size)
        self.expect("a load writes other blocks", set(changed) <= set(self.image.recovery.places))
        for home, said in left.items():
            shown = self.ran("cat", str(home))
            self.expect("cat %d: %s" % (home, shown), (shown[0], shown[1].rstrip("\0")) == (0, said))
        return told

    def recovered(self, left):
        """What both recoveries leave."""
        run("cp", "--sparse=always", "load.img", "e2fsck.img")
        run(*JOURNAL_ONLY, "e2fsck.img", most=1)
        self.holds("e2fsck", "e2fsck.img", left)
        status, line, fault = self.ran("recover")
        self.expect("recover: %s %s %s" % (status, line, fault), status == 0 and " copies %d " % len(left) in line)
        self.holds("recover", "load.img", left)
        changed = set(blocks_differing(whole("load.img"), self.before, self.image.size))
        self.expect("a recovery writes other blocks", changed <= set(left) | set(self.image.recovery.places))
        wanted = 4 if self.image.kind.special == "orphans" else 0
        ended = subprocess.run(["e2fsck", "-fn", "load.img"], capture_output=True, text=True, check=False)
        self.expect("e2fsck -fn: %d: %s" % (ended.returncode, ended.stdout[-300:]), ended.returncode == wanted)

    def all(self):
        self.image.new("load.img")
        self.ran("recover")
        self.before = whole("load.img")
        lines, left, line = self.queue(free_blocks(self.chance, "load.img"))
        self.write(lines + ["h w%d" % self.chance.choice(self.image.recovery.places)])
        if not self.before[1024 + 0x60] & RECOVER:
            self.refused("FileSystem Clean")
            return "needs_recovery clear"
        self.refused("Extents Home " + open("queue", encoding="ascii").read().split("w")[-1].strip())
        self.write(lines)
        told = self.loaded(left, line)
        self.recovered(left)
        return told


def tried(jb, images, chance, own):
    """A load onto the journal of each; how many are wrong."""
    wrong = 0
    for one in images:
        image = Image(*one)
        if image.recovery.fault is None:
            load = Load(jb, image, chance, own)
            told = load.all()
            print("%s, load: %s: %s" % (image.name, told, "WRONG: " + "; ".join(load.faults) if load.faults else "as it is meant"), flush=True)
            wrong += bool(load.faults)
    return wrong
