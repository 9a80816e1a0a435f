"""Dirty file systems whose journals have checksums, for checksums.py: as mke2fs makes ext4 by itself, and the running
kernel leaves it (dirty_systems.py), and some whose journals debugfs or jbref_write.py fills, for the forms that the
kernel does not write."""
import os
import random
import re

import dirty_systems
import ext_finder
from checksums_reference import Log, Super
from dirty_systems import Kind, run
from jbref_write import random_journal

SUMS = "metadata_csum,"
KINDS = [
    Kind("sums-1k-64bit", "ext4", 1024, 16, SUMS + "64bit", special="copied"),
    Kind("sums-1k", "ext4", 1024, 16, SUMS + "^64bit", special="copied"),
    Kind("sums-4k-64bit", "ext4", 4096, 16, SUMS + "64bit", special="copied"),
    Kind("sums-4k", "ext4", 4096, 16, SUMS + "^64bit", special="copied"),
    Kind("sums-2k-inode-1024", "ext4", 2048, 16, SUMS + "64bit", words=["-I", "1024"]),
    Kind("sums-1k-wraps", "ext4", 1024, 40, SUMS + "64bit", journal=1, turns=14),
    Kind("sums-4k-wraps", "ext4", 4096, 48, SUMS + "^64bit", turns=12),
    Kind("sums-1k-data", "ext4", 1024, 16, SUMS + "64bit", special="data"),
    Kind("sums-4k-data", "ext4", 4096, 16, SUMS + "^64bit", special="data"),
    Kind("sums-1k-depth-2", "ext4", 1024, 16, SUMS + "64bit", step=5),
    Kind("sums-4k-orphans", "ext4", 4096, 16, SUMS + "64bit", special="orphans"),
    Kind("sums-4k-bigalloc", "ext4", 4096, 32, SUMS + "bigalloc,^resize_inode", ["-C", "65536"]),
    Kind("sums-1k-many-features", "ext4", 1024, 16, SUMS + "metadata_csum_seed,inline_data,ea_inode"),
    Kind("sums-1k-orphan_file", "ext4", 1024, 16, SUMS + "orphan_file", special="orphans"),
    Kind("sums-4k-no-backup", "ext4", 4096, 16, SUMS + "64bit", special="no backup"),
]
# `special` says who fills the journal, and with which version of checksums
MADE = [
    Kind("debugfs-1k-v2", "ext4", 1024, 16, SUMS + "^64bit", special="debugfs 2"),
    Kind("debugfs-1k-v2-64bit", "ext4", 1024, 16, SUMS + "64bit", special="debugfs 2"),
    Kind("debugfs-4k-v3", "ext4", 4096, 16, SUMS + "^64bit", special="debugfs 3"),
    Kind("debugfs-4k-v3-64bit", "ext4", 4096, 16, SUMS + "64bit", special="debugfs 3"),
    Kind("random-1k-v2", "ext4", 1024, 16, SUMS + "^64bit", special="random 2"),
    Kind("random-1k-v2-64bit", "ext4", 1024, 16, SUMS + "64bit", special="random 2"),
    Kind("random-1k-v3", "ext4", 1024, 16, SUMS + "^64bit", special="random 3"),
    Kind("random-4k-v3-64bit", "ext4", 4096, 16, SUMS + "64bit", special="random 3"),
]


def homes_of(image, chance, count):
    """So many free blocks."""
    free = re.findall(r"^  Free blocks: (.+)$", run("dumpe2fs", image), re.M)
    parts = [tuple(map(int, (part + "-" + part).split("-")[:2])) for line in free if line for part in line.split(", ")]
    return sorted(chance.sample([block for low, high in parts for block in range(low, high + 1)], count))


def by_debugfs(kind, image, chance, version):
    """Six sessions, each a transaction: copies, revokes of some of them, and copies of some of these again."""
    homes = homes_of(image, chance, 80)
    blocks = image + ".blocks"
    with open(blocks, "wb") as file:
        for i in range(len(homes)):
            file.write((bytes.fromhex("c03b3998") if i % 3 == 0 else b"data") + chance.randbytes(kind.size - 4))
    listed = [("-b", homes), ("-r", homes[2:30]), ("-b", homes[3:9]), ("-b", homes[20:50]), ("-r", homes[40:44]),
              ("-b", homes[42:60])]
    for option, some in listed:
        words = "jw %s %s %s\n" % (option, ",".join(map(str, some)), blocks if option == "-b" else "")
        run("debugfs", "-w", "-f", "-", image, text="jo -c -v %d\n%sjc\n" % (version, words))


def by_random(kind, image, chance, version):
    """A log of jbref_write.py that wraps, has some transactions and is not long, in the place of the journal."""
    homes = homes_of(image, chance, 300)
    with open(image, "r+b") as file:
        data = file.read()
        fs, stretches, _ = ext_finder.find(data, Super)
        places = ext_finder.places_of(stretches)
        uuid, wide = fs.raw[0x68:0x78], "^64bit" not in kind.features
        read = None
        while not read or len(read.committed) < 6 or not len(places) - read.sup.start < read.stop < 600:
            log = random_journal(chance.randrange(1 << 30), kind.size, len(places), homes, wide, version, uuid)
            read = Log(log)
        for place, at in zip(places, range(0, len(log), kind.size)):
            file.seek(place * kind.size)
            file.write(log[at:at + kind.size])
    run("debugfs", "-w", "-R", "feature needs_recovery", image)


def make(kind, target, folder):
    """Makes one in a folder of work, with some files; it appears whole."""
    made = re.fullmatch("(debugfs|random) ([23])", kind.special or "")
    if not made:
        return dirty_systems.make(kind, target, folder)
    image, mount, chance = os.path.join(folder, "new.img"), os.path.join(folder, "mnt"), random.Random(kind.name)
    dirty_systems.empty(kind, image)
    os.makedirs(mount)
    run("mount", "-o", "loop", image, mount)
    dirty_systems.work(mount, chance, 0)
    run("umount", mount)
    {"debugfs": by_debugfs, "random": by_random}[made[1]](kind, image, chance, int(made[2]))
    os.rename(image, target)
