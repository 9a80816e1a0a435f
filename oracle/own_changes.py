"""Changed and hostile file systems for own_journal.py, in what says where the journal is.

A field is set to 0, 1, the most, a neighbour or the block that it stands in, or random bytes are changed. `JB recover
IMAGE` then does what ext_finder.py and jbref_read.py mean of these bytes: it names the fault and writes nothing, or
recovers the journal that they find."""
import collections
import struct

from ext_map import DEEPEST, NODE_MAGIC, u16
from in_place import run
from own_beside import AS_MEANT, beside
from own_image import Held, Image, Recovery, is_meant, put

NAMES = ["ext3-1k", "ext3-4k", "ext3-1k-272-stretches", "ext3-1k-no-backup", "ext4-1k", "ext4-2k-inode-1024",
         "ext4-4k-64bit", "ext4-1k-depth-1", "ext4-1k-depth-2", "ext4-4k-depth-1", "ext4-4k-no-backup",
         "ext4-1k-no-flex", "ext4-1k-bigalloc", "ext4-1k-far-inode", "ext4-1k-sparse_super2", "ext4-1k-bigalloc-far"]
# fields: offset and bytes; of the superblock, of a descriptor, of an inode
SUPER = [(0x0, 4), (0x4, 4), (0x14, 4), (0x18, 4), (0x1C, 4), (0x20, 4), (0x28, 4), (0x38, 2), (0x4C, 4), (0x58, 2),
         (0x5C, 4), (0x60, 4), (0x64, 4), (0x68, 4), (0xD0, 4), (0xDC, 4), (0xE0, 4), (0xE4, 4), (0xFD, 1), (0xFE, 2),
         (0x104, 4), (0x150, 4), (0x24C, 4), (0x250, 4)] + [(0x10C + at, 4) for at in range(0, 68, 4)]
DESCRIPTOR = [(at, 4) for at in range(0, 32, 4)] + [(0x28, 4)]
INODE = [(0x0, 2), (0x4, 4), (0x1A, 2), (0x20, 4), (0x6C, 4)] + [(0x28 + at, 4) for at in range(0, 60, 4)]
NODE = [(at, 2) for at in range(0, 8, 2)]
LOG = [(at, 4) for at in range(0, 0x50, 4)]


class Changes:
    """The changes of one file system: in its superblock, in the descriptor, the inode and the nodes of the journal."""

    def __init__(self, jb, image):
        self.jb, self.image = jb, image
        self.data = bytearray(image.data)
        self.file, self.other = Held("changed.img", image.data), Held("e2fsck.img", image.data)
        fs = image.fs
        self.size = fs.size
        group = (fs.inum - 1) // fs.inodes
        self.parts = {"superblock": (1024, 1024)}
        for name, (block, at), count in (("descriptor", fs.descriptor_place(group), fs.desc),
                                         ("inode", fs.inode_place(fs.inum), 128)):
            self.parts[name] = (block * fs.size + at, count)
        self.parts["backup"] = (1024 + 0x10C, 68)
        self.parts["journal"] = (image.recovery.places[0] * fs.size, 256)
        self.nodes = [int(word.split("):")[1]) for word in image.words() if not word[1].isdigit()]
        self.is_tree = u16(image.data, self.parts["inode"][0] + 0x28) == NODE_MAGIC

    def fields(self):
        """Each field: the part's name, its place in the image, and its bytes."""
        for name, fields in (("superblock", SUPER), ("descriptor", DESCRIPTOR), ("inode", INODE), ("journal", LOG)):
            base, count = self.parts[name]
            yield from ((name, base + at, wide) for at, wide in fields if at + wide <= count)
        yield from (("inode", self.parts["inode"][0] + 0x28 + at, wide) for at, wide in NODE)
        for node in self.nodes[:2] + self.nodes[-2:]:
            yield from (("node", node * self.size + at, wide) for at, wide in self.node_fields(node))

    def node_fields(self, node):
        """The fields of a node's header, and of its first and last entries."""
        raw = self.image.data[node * self.size:(node + 1) * self.size]
        if self.is_tree:
            last = 12 * u16(raw, 2)
            places = sorted({12, 24, last})
            return NODE + [(at + part, wide) for at in places for part, wide in ((0, 4), (4, 2), (6, 2), (8, 4))]
        return [(4 * at, 4) for at in (0, 1, self.size // 8, self.size // 4 - 1)]

    def values(self, at, wide):
        """What a field is set to."""
        now, most = int.from_bytes(self.image.data[at:at + wide], "little"), (1 << 8 * wide) - 1
        own = [at // self.size] + ([self.image.recovery.places[1], self.image.fs.blocks, 1] if wide == 4 else [])
        wanted = [0, 1, most, now + 1, now - 1, now ^ 1 << 8 * wide - 1, now << 1, now >> 1] + own
        return sorted({value & most for value in wanted})

    def systematic(self):
        for name, at, wide in self.fields():
            for value in self.values(at, wide):
                yield name, [(at, value.to_bytes(wide, "little"))]

    def random(self, chance):
        """Up to four changes, of one part or of some."""
        names, writes = [], []
        for _ in range(chance.choice([1, 1, 1, 2, 3, 4])):
            name = chance.choice(list(self.parts) + (["node"] * 3 if self.nodes else []))
            base, count = (chance.choice(self.nodes) * self.size, self.size) if name == "node" else self.parts[name]
            wide = chance.choice([1, 2, 4])
            at = base + chance.randrange(0, chance.choice([64, count]) if count > 64 else count, wide)
            now = int.from_bytes(self.image.data[at:at + wide], "little")
            value = chance.choice([0, 1, 2, 255, chance.randrange(1 << 32), chance.randrange(self.image.fs.blocks),
                                   now ^ 1 << chance.randrange(8 * wide)])
            names.append(name)
            writes.append((at, (value % (1 << 8 * wide)).to_bytes(wide, "little")))
        return "+".join(sorted(set(names))), writes

    def crafted(self):
        """Nodes that lead to themselves or to each other, and the highest tree that is right."""
        map_at, room = self.parts["inode"][0] + 0x28, (self.size - 12) // 12
        if not self.is_tree:
            for word, node in enumerate(self.nodes[:3]):
                full = [(node * self.size, struct.pack("<I", node) * (self.size // 4))]
                yield "itself", full
                yield "itself", full + [(map_at + 48 + 4 * word, struct.pack("<I", node))]
            return
        for node in self.nodes[:2]:
            height = u16(self.image.data, node * self.size + 6)
            yield "itself", [(node * self.size, node_of(height, [(i, node, 1) for i in range(room)], room))]
        told = run("debugfs", "-R", "ffb %d" % DEEPEST, self.image.path)
        free = [int(word) for word in told.split() if word.isdigit()]
        for many in (1, room) if len(free) == DEEPEST else ():
            nodes = [node_of(0, self.leaves()[:room], room)]
            nodes += [node_of(i + 1, [(at, free[i], 1) for at in range(many)], room) for i in range(DEEPEST - 1)]
            root = node_of(DEEPEST, [(0, free[-1], 1)], 4)
            yield "highest", [(map_at, root)] + [(block * self.size, node) for block, node in zip(free, nodes)]

    def leaves(self):
        """The entries of the stretches."""
        found, first = [], 0
        for low, count in self.image.recovery.stretches:
            found.append((first, low, count))
            first += count
        return found

    def tried(self, writes, is_beside):
        """The recovery that is meant, the run's end, why that is wrong, or None, and what e2fsck makes of it, where
        that is asked for."""
        undo = put(self.data, writes)
        self.file.put(writes)
        recovery = Recovery(self.data)
        ended = self.jb.run("recover", "changed.img")
        wrong = self.judged(recovery, ended)
        is_beside = is_beside and ended[0] == 0 and not wrong
        theirs = beside(self.data, recovery, self.other) if is_beside else None
        put(self.data, undo)
        self.file.put([(at, self.image.data[at:at + len(new)]) for at, new in writes + recovery.writes])
        if not self.file.has(self.data):
            self.file.map[:] = self.image.data
        return recovery, ended, wrong, theirs

    def judged(self, recovery, ended):
        status, line, fault = ended
        kept = self.file.has(self.data)
        if recovery.perhaps and fault.startswith("jb: FileSystem Clean"):
            return None if kept else "something is written"
        if recovery.fault is None:
            meant = recovery.line + (" backup" if recovery.by == "backup" else "")
            is_right = status == 0 and line == meant and self.recovered(recovery)
            return None if is_right else "not recovered as %s by the %s" % (meant, recovery.by)
        if status is None or status <= 0 or not fault.startswith("jb: "):
            return "no fault, but %s" % recovery.fault
        return None if kept else "something is written"

    def recovered(self, recovery):
        """Whether the file is as it is meant."""
        undo = put(self.data, recovery.writes)
        is_so = self.file.has(self.data) or is_meant(bytes(self.file.map), bytes(self.data), recovery.fs)
        put(self.data, undo)
        return is_so


def node_of(height, entries, most):
    """A node of a tree with these entries: place, block, and in a leaf how many."""
    node = struct.pack("<4HI", NODE_MAGIC, len(entries), most, height, 0)
    for first, low, count in entries:
        leaf, index = struct.pack("<IHHI", first, count, 0, low), struct.pack("<IIHH", first, low, 0, 0)
        node += index if height else leaf
    return node


def told_of(writes):
    return ", ".join("%d: %s" % (at, new[:8].hex()) for at, new in writes)


class Answers:
    """What was answered, over all changes."""

    def __init__(self):
        self.meant, self.beside, self.others = (collections.Counter() for _ in range(3))
        self.done = self.names = self.wrong = 0

    def add(self, changes, name, writes, answer):
        recovery, (status, line, fault), why, theirs = answer
        self.done += 1
        self.meant["recovered by the %s" % recovery.by if recovery.fault is None else words_of(recovery.fault)] += 1
        if theirs:
            theirs = "%s by the %s: %s" % ("tree" if changes.is_tree else "block map", recovery.by, theirs)
            self.beside[theirs] += 1
            if self.beside[theirs] <= 3 and not theirs.endswith(AS_MEANT):
                print("%s, %s %s: e2fsck: %s" % (changes.image.name, name, told_of(writes), theirs), flush=True)
        if recovery.fault is not None and status and fault != "jb: " + recovery.fault:
            self.names += 1
            self.others["%s for %s" % (words_of(fault[4:]), words_of(recovery.fault))] += 1
            self.tell(self.names, changes, name, writes, "%s, and not %s" % (fault, recovery.fault))
        if why:
            self.wrong += 1
            self.tell(self.wrong, changes, name, writes, "WRONG: %s: %s %s %s" % (why, status, line, fault))

    @staticmethod
    def tell(count, changes, name, writes, what):
        if count <= 40:
            print("%s, %s %s: %s" % (changes.image.name, name, told_of(writes), what), flush=True)

    def print(self):
        print("%d changed file systems, %d of them with another fault's name, %d wrong" % (
            self.done, self.names, self.wrong))
        for what, counted in (("meant", self.meant), ("another name", self.others), ("e2fsck, where JB recovers", self.beside)):
            print("%s: %s" % (what, "; ".join("%s %d" % one for one in counted.most_common())), flush=True)


def words_of(fault):
    """A fault without its numbers."""
    return " ".join(word for word in fault.split() if not word.isdigit())


def tried(jb, images, chance, count, part):
    """All fields of the file systems and so many random changes, one of `part` beside e2fsck; how many are answered
    wrongly."""
    answers = Answers()
    chosen = [one for one in images if one[0].name in NAMES]
    for one in chosen:
        image = Image(*one)
        changes = Changes(jb, image)
        hers = [changes.random(chance) for _ in range(count // len(chosen))]
        for name, writes in list(changes.crafted()) + list(changes.systematic()) + hers:
            answers.add(changes, name, writes, changes.tried(writes, chance.randrange(part) == 0))
        print("%s: %d changes so far, %d wrong" % (image.name, answers.done, answers.wrong), flush=True)
    answers.print()
    return answers.wrong
