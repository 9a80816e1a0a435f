"""What a recovery with checksums takes beside e2fsck, without them, and hashing alone; for checksums.py."""
import os
import random
import shutil
import subprocess
import sys

import ext_finder
from checksums_reference import Super
from checksums_systems import homes_of
from dirty_systems import run
from jbref_write import big_journal
from own_image import whole

HERE = os.path.dirname(os.path.realpath(__file__))
sys.path.append(os.path.join(HERE, "..", "bench"))
from load_speed import taken  # noqa: E402

RUNS = 15


def full(name, features, mib, version):
    """A file system of four such journals whose journal is full of committed transactions, and the journal as a file;
    made where it is not there."""
    if os.path.exists(name + ".journal"):
        return
    with open(name, "wb") as file:
        file.truncate(4 * mib << 20)
    run("mke2fs", "-q", "-F", "-t", "ext4", "-b", "4096", "-O", features, "-J", "size=%d" % mib, name)
    fs, stretches, _ = ext_finder.find(whole(name), Super)
    places = ext_finder.places_of(stretches)
    homes = homes_of(name, random.Random(1), 40000)
    log = big_journal(4096, len(places), homes, 2, version, bytes(fs.raw[0x68:0x78]))
    with open(name, "r+b") as file:
        for place, at in zip(places, range(0, len(log), 4096)):
            file.seek(place * 4096)
            file.write(log[at:at + 4096])
    run("debugfs", "-w", "-R", "feature needs_recovery", name)
    with open(name + ".journal", "wb") as file:
        file.write(log)


def fresh(of):
    """A copy of an image, whose pages are all there."""
    shutil.copyfile(of, "image")
    with open("image", "rb") as file:
        os.fsync(file.fileno())


def tried(jb, mib, cache):
    """Prints the least seconds by the clock and of the processor of each."""
    sums, plain = (os.path.join(cache, "%s-%d.img" % (name, mib)) for name in ("time-sums", "time-plain"))
    full(sums, "metadata_csum,^64bit", mib, 3)
    full(plain, "^metadata_csum,^64bit", mib, 0)
    rows = [("recover --checksums", sums, [jb.name, "recover", "--checksums", "image"]),
            ("e2fsck -E journal_only -y", sums, ["e2fsck", "-E", "journal_only", "-y", "image"]),
            ("recover of the same log without checksums", plain, [jb.name, "recover", "image"]),
            ("e2fsck -E journal_only -y of that", plain, ["e2fsck", "-E", "journal_only", "-y", "image"])]
    best = [(9e9, 9e9)] * len(rows)
    for _ in range(RUNS):
        for k, (_, of, words) in enumerate(rows):
            fresh(of)
            best[k] = tuple(map(min, zip(best[k], taken(words, 1))))
    subprocess.run(["cc", "-O2", "-o", "crc32c", os.path.join(HERE, "crc32c.c")], check=True)
    told = run("./crc32c", sums + ".journal", "4096", str(RUNS)).split()
    rows, best = rows + [("hashing alone", "", [])], best + [tuple(map(float, told[:2]))]
    for (name, _, _), (clock, cpu) in zip(rows, best):
        print("| %d MiB, %s | %.4f | %.4f | %.2f of e2fsck |" % (mib, name, clock, cpu, clock / best[1][0]), flush=True)
    return 0
