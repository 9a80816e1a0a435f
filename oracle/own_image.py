"""One dirty file system for own_journal.py: its bytes, its own journal, and what its recovery has to leave."""
import ctypes
import mmap
import os
import shutil
import struct
import subprocess

import checksums_reference
import ext_finder
from in_place import changed_but, run
from jbref_read import Refused, Super, replay

MEMCMP = ctypes.CDLL(None).memcmp
SECONDS = 2  # of the processor, the most of one run; by the clock thirty times as many, beside much other work
JOURNAL_ONLY = ["e2fsck", "-E", "journal_only", "-y"]
# what JB may leave otherwise in the file system's superblock than the log means it: offset and bytes
JB_FIELDS = {"needs_recovery": (0x60, 4)}


def log_of(data, size, places):
    return b"".join(data[place * size:(place + 1) * size] for place in places)


class Recovery:
    """What a recovery of these bytes has to do: `writes`, each an offset and bytes, or `fault`, why it is refused."""

    super_of = Super

    def __init__(self, data):
        self.fs = self.by = self.line = self.fault = None
        self.perhaps = False  # whether `FileSystem Clean` may be answered too
        self.stretches, self.places, self.writes = [], [], []
        try:
            self.fs, self.stretches, self.by = ext_finder.find(data, self.super_of)
            self.places = ext_finder.places_of(self.stretches)
            self.read(data)
        except (ext_finder.Fault, Refused) as fault:
            self.fault = str(fault)

    def read(self, data):
        """The copies at their homes, and a clean journal with the first number that was not found."""
        fs, log, own = self.fs, log_of(data, self.fs.size, self.places), set(self.places)
        self.guarded(Super(log[:1024]))
        sup, homes, self.line, expected = replay(log)
        for home in homes:
            if home in own:
                raise Refused("Extents Home %d" % home)
            if home >= fs.whole():
                raise Refused("HomeOutOfRange %d" % home)
        self.writes = [(home * fs.size, content) for home, content in homes.items()]
        if sup.start:
            self.writes.append((self.places[0] * fs.size + 0x18, struct.pack(">II", expected % 2**32, 0)))

    def guarded(self, sup):
        """What is asked of a journal beside a file system."""
        if sup.start and any(sup.uuid) and sup.uuid != self.fs.raw[0x68:0x78]:
            raise Refused("FileSystem Uuid")
        self.perhaps = bool(sup.start) and not self.fs.needs_recovery


class Checked(Recovery):
    """The same of `--checksums`."""

    super_of = checksums_reference.Super

    def read(self, data):
        read, own = checksums_reference.Log(log_of(data, self.fs.size, self.places)), set(self.places)
        self.guarded(read.sup)
        homes, self.line = read.recovered(self.fs.whole())
        for home in homes:
            if home in own:
                raise Refused("Extents Home %d" % home)
        self.writes = [(home * self.fs.size, content) for home, content in homes.items()]
        if read.sup.start:
            self.writes.append((self.places[0] * self.fs.size, read.cleaned()))


def put(data, writes):
    """Writes to a bytearray; gives the writes that undo them."""
    before = [(at, bytes(data[at:at + len(new)])) for at, new in writes]
    for at, new in writes:
        data[at:at + len(new)] = new
    return before[::-1]


class Image:
    """A dirty file system of the cache."""

    def __init__(self, kind, path, recovery=Recovery):
        self.kind, self.name, self.path = kind, kind.name, path
        with open(path, "rb") as file:
            self.data = file.read()
        self.recovery = recovery(self.data)
        self.fs, self.size = self.recovery.fs, kind.size
        meant = bytearray(self.data)
        put(meant, self.recovery.writes)
        self.meant = bytes(meant)

    def new(self, target):
        run("cp", "--sparse=always", self.path, target)
        return target

    def words(self):
        """The list as debugfs prints it, with the blocks of the map."""
        lines = run("debugfs", "-R", "stat <%d>" % self.fs.inum, self.path).split("\n")
        at = next(i for i, line in enumerate(lines) if line in ("EXTENTS:", "BLOCKS:"))
        return lines[at + 1].split(", ")


class Held:
    """A file with these bytes, which programs change, and which is changed back."""

    def __init__(self, name, data):
        with open(name, "wb") as file:
            file.write(data)
        with open(name, "r+b") as file:
            self.map = mmap.mmap(file.fileno(), 0)
        self.place = (ctypes.c_char * len(data)).from_buffer(self.map)

    def has(self, data):
        """Whether the file has these bytes, a bytearray."""
        other = (ctypes.c_char * len(data)).from_buffer(data)
        return len(self.map) == len(data) and MEMCMP(self.place, other, ctypes.c_size_t(len(data))) == 0

    def put(self, writes):
        for at, new in writes:
            self.map[at:at + len(new)] = new

    def differing(self, data, size):
        """The blocks in which it differs from these bytes, a bytearray of its length."""
        step, found, other = 64 * size, [], (ctypes.c_char * len(data)).from_buffer(data)
        for low in range(0, len(data), step):
            high = min(low + step, len(data))
            places = [ctypes.addressof(one) + low for one in (self.place, other)]
            if MEMCMP(*map(ctypes.c_void_p, places), ctypes.c_size_t(high - low)):
                found += [at // size for at in range(low, high, size) if self.map[at:at + size] != data[at:at + size]]
        return found


def is_meant(left, meant, fs):
    """Whether an image is as it is meant, but for the named words of the file system's superblock."""
    alone = blocks_differing(left, meant, fs.size) in ([], [fs.front()])
    return alone and not changed_but(left[1024:2048], meant[1024:2048], JB_FIELDS)


class Program:
    """JB, with so many seconds of the processor, and at most so many KiB of address space, or any where that is 0."""

    def __init__(self, name, memory, seconds=SECONDS):
        self.name, self.most = os.path.realpath(shutil.which(name) or name), 30 * seconds
        limit = "ulimit -t %d; " % seconds + ("ulimit -v %d; " % memory if memory else "")
        self.front = ["sh", "-c", limit + 'exec "$0" "$@"', self.name]

    def run(self, *words):
        """How it ended: status (of a signal below 0, None where it took too long), standard output and error."""
        try:
            done = subprocess.run(self.front + list(words), capture_output=True, text=True, check=False,
                                  timeout=self.most, errors="replace")
            return done.returncode, done.stdout.strip(), done.stderr.strip()[:200]
        except subprocess.TimeoutExpired:
            return None, "", "no end after %d seconds" % self.most


def whole(name):
    with open(name, "rb") as file:
        return file.read()


def blocks_differing(one, other, size):
    """The blocks in which two images of one length differ."""
    if one == other:
        return []
    step = 64 * size
    parts = [at for at in range(0, len(one), step) if one[at:at + step] != other[at:at + step]]
    return [at // size for part in parts for at in range(part, min(part + step, len(one)), size)
            if one[at:at + size] != other[at:at + size]]
