"""Small ext3 and ext4 file systems whose journals the running kernel leaves full, for own_journal.py.

Each is made by mke2fs (and tune2fs, over a file system with holes, where the journal lies in many stretches), mounted,
worked on, and shut down as a loss of power does after the last commit (EXT4_IOC_SHUTDOWN): its log is committed, and
not written home. The image is copied before the unmount, which would write the homes. Needs root, loop devices and
e2fsprogs."""
import fcntl
import os
import random
import re
import shutil
import struct
import subprocess

import ext_finder
from jbref_read import read_journal

SHUTDOWN, FLUSH_LOG = 0x8004587D, b"\x01\0\0\0"
NEEDED = ["mke2fs", "tune2fs", "debugfs", "dumpe2fs", "e2fsck", "mount", "umount"]
NO_SUMS = "^metadata_csum"
FAR = "meta_bg,^resize_inode,^flex_bg"


class Kind:
    """How a file system is made; `step`: tune2fs makes the journal where each step-th block is taken."""

    def __init__(self, name, kind, size, mib, features="", words=(), journal=4, step=0, turns=2, special=None):
        self.name, self.kind, self.size, self.mib, self.features = name, kind, size, mib, features
        self.words, self.journal, self.step, self.turns, self.special = list(words), journal, step, turns, special


KINDS = [
    Kind("ext3-1k", "ext3", 1024, 16),
    Kind("ext3-2k", "ext3", 2048, 24, words=["-I", "128"]),
    Kind("ext3-4k", "ext3", 4096, 32, journal=8),
    Kind("ext3-1k-272-stretches", "ext3", 1024, 32, step=17),
    Kind("ext3-1k-three-levels", "ext3", 1024, 160, journal=68),
    Kind("ext3-1k-wraps", "ext3", 1024, 48, journal=1, turns=14),
    Kind("ext3-1k-every-super", "ext3", 1024, 32, "^sparse_super,^resize_inode", ["-g", "1024"]),
    Kind("ext3-1k-dot-journal", "ext3", 1024, 16, special="dot"),
    Kind("ext3-1k-no-backup", "ext3", 1024, 16, special="no backup"),
    Kind("ext3-1k-orphans", "ext3", 1024, 16, special="orphans"),
    Kind("ext3-1k-clean-copy", "ext3", 1024, 16, special="clean copy"),
    Kind("ext3-1k-data", "ext3", 1024, 16, special="data"),
    Kind("ext4-1k", "ext4", 1024, 16, "^64bit"),
    Kind("ext4-2k-inode-1024", "ext4", 2048, 24, words=["-I", "1024"]),
    Kind("ext4-4k-64bit", "ext4", 4096, 32, "64bit"),
    Kind("ext4-4k-wraps", "ext4", 4096, 64, "64bit", turns=12),
    Kind("ext4-1k-depth-1", "ext4", 1024, 16, "64bit", step=17),
    Kind("ext4-1k-depth-2", "ext4", 1024, 24, "^64bit", step=5),
    Kind("ext4-4k-depth-1", "ext4", 4096, 32, "64bit", step=5),
    Kind("ext4-4k-depth-2", "ext4", 4096, 48, "64bit", journal=8, step=2),
    Kind("ext4-1k-no-flex", "ext4", 1024, 16, "^flex_bg,uninit_bg,^64bit", ["-I", "128"]),
    Kind("ext4-1k-meta_bg", "ext4", 1024, 48, FAR + ",64bit", ["-g", "256", "-N", "8192"], turns=1),
    Kind("ext4-1k-far-inode", "ext4", 1024, 48, FAR + ",64bit", ["-g", "256", "-N", "8192"], turns=1, special="far"),
    Kind("ext4-1k-sparse_super2", "ext4", 1024, 48, FAR + ",sparse_super2,^64bit", ["-g", "512"], special="far"),
    Kind("ext4-2k-far-inode", "ext4", 2048, 64, "^64bit,^resize_inode", ["-g", "256", "-N", "16384"], special="far"),
    Kind("ext4-1k-bigalloc", "ext4", 1024, 16, "bigalloc,^resize_inode", ["-C", "16384"]),
    Kind("ext4-1k-bigalloc-far", "ext4", 1024, 48, FAR + ",bigalloc", ["-C", "2048", "-g", "512"], special="far"),
    Kind("ext4-4k-bigalloc", "ext4", 4096, 48, "bigalloc,^resize_inode", ["-C", "65536"]),
    Kind("ext4-4k-no-backup", "ext4", 4096, 32, special="no backup"),
    Kind("ext4-4k-orphans", "ext4", 4096, 32, special="orphans"),
    Kind("ext4-4k-data", "ext4", 4096, 32, special="data"),
    Kind("ext4-1k-errno", "ext4", 1024, 16, special="errno"),
    Kind("ext4-4k-mmp", "ext4", 4096, 32, "mmp", special="mmp"),
    Kind("ext4-4k-many-features", "ext4", 4096, 32, "inline_data,ea_inode,large_dir,encrypt"),
    Kind("ext4-4k-fast_commit", "ext4", 4096, 32, "fast_commit", special="fast_commit"),
]


def missing():
    """What keeps this machine from making them, or None."""
    if os.geteuid():
        return "root is needed"
    absent = [name for name in NEEDED if not shutil.which(name)]
    if absent:
        return "%s not installed" % ", ".join(absent)
    found = subprocess.run(["losetup", "--find"], capture_output=True, check=False)
    return "there is no loop device" if found.returncode else None


def run(*words, text=None, most=0):
    """Standard output of a program that may end with a status up to `most`. e2fsck writes the same time in each run."""
    env = dict(os.environ, LC_ALL="C", E2FSCK_TIME="1800000000")
    done = subprocess.run(words, check=False, capture_output=True, text=True, input=text, env=env, errors="replace")
    if not 0 <= done.returncode <= most:
        end = done.stdout[-500:] + done.stderr[-500:]
        raise RuntimeError("%s: status %d: %s" % (" ".join(words), done.returncode, end))
    return done.stdout


def copy(source, target):
    run("cp", "--sparse=always", source, target)


def empty(kind, image):
    """The file system with an empty journal."""
    with open(image, "wb") as file:
        file.truncate(kind.mib << 20)
    late = kind.step or kind.special == "dot"
    plain = kind.kind == "ext4" and "metadata_csum" not in kind.features
    given = [NO_SUMS if plain else "", kind.features, "^has_journal" if late else ""]
    words = ["-b", str(kind.size), "-O", ",".join(filter(None, given)) or "has_journal", "-E", "lazy_journal_init=1"]
    words += kind.words + ([] if late else ["-J", "size=%d" % kind.journal])
    run("mke2fs", "-q", "-F", "-t", kind.kind, *words, image)
    if kind.step:
        blocks = (kind.mib << 20) // kind.size
        taken = "".join("setb %d\n" % block for block in range(kind.step, blocks, kind.step))
        run("debugfs", "-w", "-f", "-", image, text=taken)
        run("tune2fs", "-J", "size=%d" % kind.journal, image)
        run("e2fsck", "-fy", image, most=1)
    if kind.special == "far":
        far_inode(image)
    if kind.special == "no backup":
        run("debugfs", "-w", "-R", "ssv jnl_backup_type 0", image)


def inode_place(image, number):
    """The block and the offset of an inode."""
    told = run("debugfs", "-R", "imap <%d>" % number, image)
    found = re.search(r"located at block (\d+), offset 0x([0-9a-f]+)", told)
    return int(found[1]), int(found[2], 16)


def far_inode(image):
    """The journal gets the last inode of the last group that has one free, in place of inode 8, and the name /log."""
    told = run("dumpe2fs", "-h", image)
    names = ("Inode count", "Block size", "Inode size")
    count, size, width = (int(re.search(r"%s:\s+(\d+)" % name, told)[1]) for name in names)
    raw = []
    with open(image, "r+b") as file:
        for number in (8, count):
            block, at = inode_place(image, number)
            raw.append(block * size + at)
        file.seek(raw[0])
        inode = file.read(width)
        file.seek(raw[1])
        file.write(inode)
        file.seek(raw[0])
        file.write(bytes(width))
    run("debugfs", "-w", "-f", "-", image, text="ssv journal_inum %d\nseti <%d>\nln <%d> log\n" % (count, count, count))
    run("e2fsck", "-fy", image, most=1)


def work(folder, chance, turn):
    """Makes, moves and removes folders, files and links, so that blocks of folders are revoked, with three commits."""
    base = "%s/%d" % (folder, turn)
    for i in range(16):
        os.makedirs("%s/%d" % (base, i))
        for k in range(chance.randrange(1, 9)):
            with open("%s/%d/%d-%s" % (base, i, k, "n" * chance.randrange(1, 180)), "wb") as file:
                file.write(chance.randbytes(chance.randrange(1, 9000)))
        os.symlink("s" * chance.randrange(1, 200), "%s/%d/link" % (base, i))
    committed(base + "/first")
    for i in range(0, 16, 3):
        shutil.rmtree("%s/%d" % (base, i))
    committed(base + "/second")
    for i in range(1, 16, 3):
        os.rename("%s/%d" % (base, i), "%s/moved-%d" % (base, i))
    with open(base + "/magic", "wb") as file:
        file.write(bytes.fromhex("c03b3998") * 2048)
    committed(base + "/third")


def orphans(folder):
    """Files that are removed and still open, the last of a name and a committed one."""
    opened = []
    for i in range(5):
        name = "%s/orphan-%d" % (folder, i)
        opened.append(open(name, "wb"))
        opened[-1].write(bytes(40000 * (i + 1)))
        opened[-1].flush()
        os.fsync(opened[-1].fileno())
        os.unlink(name)
    committed(folder + "/after-orphans")
    return opened


def committed(name):
    with open(name, "wb") as file:
        file.write(bytes(3000))
        file.flush()
        os.fsync(file.fileno())


def device_of(folder):
    with open("/proc/mounts", encoding="utf-8") as file:
        return next(line.split()[0] for line in file if line.split()[1] == os.path.realpath(folder))


def crashed(kind, source, target, folder):
    """The image as a loss of power leaves it after some work."""
    chance = random.Random(kind.name)
    os.makedirs(folder, exist_ok=True)
    run("mount", "-o", "loop" + (",data=journal" if kind.special == "data" else ""), source, folder)
    try:
        if kind.special == "dot":
            # a journal that is made while the file system is mounted is the file .journal
            run("tune2fs", "-J", "size=%d" % kind.journal, device_of(folder))
            run("umount", folder)
            run("mount", "-o", "loop", source, folder)
        for turn in range(kind.turns):
            work(folder, chance, turn)
        opened = orphans(folder) if kind.special == "orphans" else []
        if kind.special != "copied":
            handle = os.open(folder, os.O_RDONLY)
            fcntl.ioctl(handle, SHUTDOWN, FLUSH_LOG)
            os.close(handle)
        copy(source, target)
        for file in opened:
            file.close()
    finally:
        run("umount", folder)


def errno_put(kind, image):
    """An error number in the journal's superblock, as an abort leaves it."""
    first = int(run("debugfs", "-R", "bmap <8> 0", image))
    with open(image, "r+b") as file:
        file.seek(first * kind.size + 0x20)
        file.write((5).to_bytes(4, "big"))


def clean_copy(image):
    """The last copy of the file system's superblock in the log says that no recovery is needed, as after an unmount."""
    with open(image, "r+b") as file:
        data = file.read()
        fs, stretches, _ = ext_finder.find(data)
        places = ext_finder.places_of(stretches)
        log = b"".join(fs.block(place) for place in places)
        copies = [piece[0] for found in read_journal(log)[1] for piece in found if piece[1:3] == ("copy", fs.front())]
        at = places[copies[-1]] * fs.size + 1024 % fs.size + 0x60
        file.seek(at)
        file.write(struct.pack("<I", struct.unpack_from("<I", data, at)[0] & ~ext_finder.RECOVER))


def make(kind, target, folder):
    """Makes one in a folder of work; it appears whole."""
    image, mount = os.path.join(folder, "new.img"), os.path.join(folder, "mnt")
    empty(kind, image)
    crashed(kind, image, image + ".crashed", mount)
    if kind.special == "errno":
        errno_put(kind, image + ".crashed")
    if kind.special == "clean copy":
        clean_copy(image + ".crashed")
    if kind.special == "mmp":
        # as if nobody else could have it mounted: e2fsck and the kernel need not wait to see
        run("debugfs", "-w", "-R", "smmp seq 0xff4d4d50", image + ".crashed")
    os.rename(image + ".crashed", target)
    os.unlink(image)
