"""Disks of a given size, for the scripts beside this: a tmpfs, where one can be mounted (as root)."""
import contextlib
import os
import subprocess
import tempfile

KIB = 1024


@contextlib.contextmanager
def disk(kib):
    """A disk with so much room, as the folder where a program starts; None where none can be mounted."""
    here = os.getcwd()
    with tempfile.TemporaryDirectory() as folder:
        mounted = subprocess.run(["mount", "-t", "tmpfs", "-o", "size=%dk" % kib, "none", folder], stderr=subprocess.DEVNULL).returncode == 0
        try:
            os.chdir(folder)
            yield folder if mounted else None
        finally:
            os.chdir(here)
            if mounted:
                subprocess.run(["umount", "-l", folder], check=True)


def free():
    return os.statvfs(".").f_bfree


def enlarge(folder, kib):
    subprocess.run(["mount", "-o", "remount,size=%dk" % kib, folder], check=True)


def fill(name, blocks=0):
    """Takes the room that the disk has left, but for so many of its blocks."""
    most = (free() - blocks) * os.statvfs(".").f_bsize
    with open(name, "wb", buffering=0) as file, contextlib.suppress(OSError):
        while file.tell() < most and file.write(bytes(KIB)):
            pass


def content(name):
    with open(name, "rb") as file:
        return file.read()
