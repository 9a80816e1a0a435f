"""The parts of safe_anywhere.py that want root: block devices, mounted ones, and a mount to be read alone. Elsewhere they print that they
were not tried."""
import os
import resource
import shutil
import subprocess
import tempfile

from anywhere import JB, QUEUE, expect, fresh, made, mounted_at, reason, run


def device():
    """Each command over a block device gives what it gives over a file of the same bytes."""
    new, loaded = made()
    for commands, content in [
        ([["dump"], ["cat", "1"], ["recover"], ["renumber"], ["widen"], ["dump"]], loaded),
        ([["load", "queue", "--hold", "--threads", "1"], ["recover"], ["dump"]], new),  # one group, whatever the timing
    ]:
        fresh({"file": content, "backing": content, "queue": QUEUE})
        made_device = subprocess.run(["losetup", "--find", "--show", "backing"], stdout=subprocess.PIPE, stderr=subprocess.PIPE)
        if made_device.returncode != 0:
            why = made_device.stderr.decode().strip()
            print("block device: not tried, as none can be made here (%s)" % why)
            ends = []
            for words in commands:
                ends.append(run([words[0], "file", *words[1:]])[0])
            expect("a file in its place", ends == [0] * len(commands), ends)
            return
        name = made_device.stdout.decode().strip()
        try:
            for words in commands:
                want = run([words[0], "file", *words[1:]])
                got = run([words[0], name, *words[1:]])
                expect("%s of a block device" % words, got == want and got[0] == 0, got, want)
        finally:
            subprocess.run(["losetup", "--detach", name])
        expect("the bytes of the block device", open("backing", "rb").read() == open("file", "rb").read())
    print("block device: compared with a file")
    mounted(loaded)


def mounted(loaded):
    """A device that is mounted is read, and not changed; the same of the file that its loop device is over, by each of its names. A file
    within what is mounted is changed, and so is that file once it is not mounted any more, though the loop device has it."""
    fresh({"backing": bytes(4 << 20), "journal": loaded[: 33 * 1024]})
    os.link("backing", "linked")
    name = subprocess.run(["losetup", "--find", "--show", "backing"], stdout=subprocess.PIPE).stdout.decode().strip()
    try:
        with tempfile.TemporaryDirectory(prefix="a b\u202e") as room:
            made = subprocess.run(["mke2fs", "-q", "-F", "-b", "1024", name], stderr=subprocess.DEVNULL).returncode
            # to be read alone at first, since the kernel writes the superblock of one that may be written, whenever it likes
            if made != 0 or subprocess.run(["mount", "-o", "ro", name, room], stderr=subprocess.DEVNULL).returncode != 0:
                print("a mounted device: not tried, as none can be mounted here")
                return
            try:
                before = open(name, "rb").read()
                for image in [name, "backing", "linked"]:
                    for words in [["recover", image], ["recover", image, "--journal", "journal"], ["renumber", image], ["widen", image]]:
                        got = run(words)
                        expect("mounted: %s" % words, got == (2, b"", b"jb: in use %s\n" % image.encode() + mounted_at(image)), got)
                    got = run(["cat", image, "1", "--journal", "journal"])
                    expect("mounted: cat %s" % image, got[0] == 0 and len(got[1]) == 1024, got)
                expect("a mounted device is as it was", open(name, "rb").read() == before)
                subprocess.run(["mount", "-o", "remount,rw", room], check=True)
                got = run(["recover", name])
                expect("mounted to be written", got == (2, b"", b"jb: in use %s\n" % name.encode() + mounted_at(name)), got)
                inside = os.path.join(room, "inside")
                with open(inside, "wb") as file:
                    file.write(loaded)
                got = run(["recover", inside])
                expect("a file within what is mounted", got[0] == 0, got)
            finally:
                subprocess.run(["umount", room])
            got = run(["widen", "backing"])
            expect("not mounted any more", got == (1, b"", b"jb: Own None\n"), got)
    finally:
        subprocess.run(["losetup", "--detach", name])
    print("a mounted device, and its file: 18 runs")


def loop(over, *words):
    """A loop device over this file or device."""
    made = subprocess.run(["losetup", *words, "--find", "--show", over], stdout=subprocess.PIPE, check=True)
    return made.stdout.decode().strip()


def stacked():
    """What is mounted is found through each loop device that stands on another one, and by each of two over one file; a stretch of a file
    that has no byte in common with what is mounted is changed."""
    if os.geteuid() != 0:
        print("loop devices over one file: not tried, as none can be made here")
        return
    loaded = made()[1]
    size = 1 << 20
    fresh({"backing": bytes(4 * size), "image": loaded})
    devices = []
    try:
        with tempfile.TemporaryDirectory() as room:
            for words in [[], [], ["--offset", str(size), "--sizelimit", str(size)], ["--offset", str(2 * size)]]:
                devices.append(loop("backing", *words))
            first, second, part, behind = devices
            devices.append(loop(first))
            upper = devices[-1]
            for mounted, refused, taken in [
                (first, [first, second, upper, part, behind, "backing"], []),
                (upper, [upper, first, second, part, "backing"], []),
                (part, [part, first, second, upper, "backing"], [behind]),
            ]:
                subprocess.run(["mke2fs", "-q", "-F", "-b", "1024", mounted, "1024"], stderr=subprocess.DEVNULL, check=True)
                subprocess.run(["mount", "-o", "ro", mounted, room], check=True)
                try:
                    for image in refused:
                        got = run(["widen", image])
                        expect("mounted %s: %s" % (mounted, image), got == (2, b"", b"jb: in use %s\n" % image.encode() + mounted_at(image)), got)
                    for image in taken + ["image"]:
                        got = run(["renumber", image])
                        expect("mounted %s: %s" % (mounted, image), b"in use" not in got[2] and b"unknown" not in got[2], got)
                finally:
                    subprocess.run(["umount", room])
    finally:
        for name in reversed(devices):
            subprocess.run(["losetup", "--detach", name])
    print("loop devices over one file and one another: 18 runs")


def parted():
    """Of a disk with two partitions, of which one is mounted, that one and the disk are refused, and the file below; the other one is not."""
    if os.geteuid() != 0 or shutil.which("addpart") is None:
        print("partitions: not tried, as none can be made here")
        return
    fresh({"backing": bytes(6 << 20)})
    disk = loop("backing", "--partscan")
    one, two = disk + "p1", disk + "p2"
    try:
        for number, start in [("1", "2048"), ("2", "6144")]:
            subprocess.run(["addpart", disk, number, start, "4096"], check=True)
        with tempfile.TemporaryDirectory() as room:
            for mounted, refused, taken in [(one, [one, disk, "backing"], [two]), (two, [two, disk, "backing"], [one])]:
                subprocess.run(["mke2fs", "-q", "-F", "-b", "1024", mounted], stderr=subprocess.DEVNULL, check=True)
                subprocess.run(["mount", "-o", "ro", mounted, room], check=True)
                try:
                    for image in refused + taken:
                        got = run(["widen", image])
                        free = b"jb: Super NoMagic\n" if image == two else b"jb: Own None\n"  # two has no file system yet
                        want = (2, b"", b"jb: in use %s\n" % image.encode() + mounted_at(image)) if image in refused else (1, b"", free)
                        expect("mounted %s: %s" % (mounted, image), got == want, got)
                finally:
                    subprocess.run(["umount", room])
    finally:
        subprocess.run(["losetup", "--detach", disk])
    print("partitions of a disk: 8 runs")


UNKNOWN = (2, b"", b"jb: mounts unknown image\n")


def reads_of(name, words):
    """The how manyth reads of a run are of this file."""
    subprocess.run(["strace", "-y", "-e", "trace=read", "-o", "trace", JB, *words], stdout=subprocess.DEVNULL, stderr=subprocess.DEVNULL)
    calls = [line for line in open("trace") if line.startswith("read(")]
    found = [number for number, line in enumerate(calls, 1) if "/%s>" % name in line]
    expect("reads of %s" % name, len(found) > 1, calls)
    return found


def unknown():
    """Where the system does not say what is mounted, an image is not changed, but by recover --force; it is read."""
    loaded = made()[1]
    runs = 0
    commands = [["recover", "image"], ["renumber", "image"], ["widen", "image"], ["load", "image", "queue"], ["recover", "image", "--extents", "0-32"]]
    ways = []
    if shutil.which("strace"):
        ways.append((["strace", "--quiet=all", "-o", "/dev/null", "-P", "/proc/self/mountinfo", "-e", "inject=openat:error=EMFILE"], "EMFILE at the list of mounts"))
        fresh({"image": loaded})
        for number in reads_of("mountinfo", ["recover", "image"]):
            ways.append((["strace", "--quiet=all", "-o", "/dev/null", "-e", "inject=read:error=EIO:when=%d" % number], "EIO at read %d, of the list of mounts" % number))
    if os.geteuid() == 0 and shutil.which("unshare"):
        ways.append((["unshare", "-m", "sh", "-c", 'umount -l /proc && exec "$@"', "sh"], "no /proc"))
        other = 'mount -t tmpfs none /proc && mkdir /proc/self && printf "%s" >/proc/self/mountinfo && exec "$@"'
        for text in ["", "1 2 x\\n", "22 1 0:21 / /proc rw\\n22 1 x:1 / / rw\\n", "22 1 254 / / rw"]:
            ways.append((["unshare", "-m", "sh", "-c", other % text, "sh"], "the list %r" % text))
    for way, what in ways:
        for words in commands:
            fresh({"image": loaded, "queue": QUEUE})
            got = run(words, by=way)
            expect("%s: %s" % (what, words), got == UNKNOWN and open("image", "rb").read() == loaded, got)
        # what only reads does not look at the list, so that its reads are others
        readers = [] if "EIO" in what else [["cat", "image", "1"], ["recover", "image", "--dry-run"]]
        for words in [*readers, ["recover", "image", "--force"]]:
            got = run(words, by=way)
            expect("%s: %s" % (what, words), got[0] == 0 and not got[2], got)
        runs += len(commands) + len(readers) + 1
    # as few files as jb can open beside the image, and one fewer: it ends well or is refused, and never writes what it has not looked for
    for most in range(4, 8):
        fresh({"image": loaded})
        got = run(["recover", "image"], before=lambda: resource.setrlimit(resource.RLIMIT_NOFILE, (most, most)))
        good = got[0] == 0 or (got[0] == 2 and open("image", "rb").read() == loaded)
        expect("%d files: %s" % (most, got), good and (most != 4 or got == UNKNOWN), got)
        runs += 1
    print("mounts that are not known: %d runs" % runs)


def no_devices():
    """The same where the system says what is mounted, and not on what that stands."""
    if os.geteuid() != 0 or shutil.which("unshare") is None:
        print("no /sys: not tried, as nothing can be mounted here")
        return
    loaded = made()[1]
    fresh({"backing": bytes(1 << 20), "image": loaded})
    name = loop("backing")
    hidden = ["unshare", "-m", "sh", "-c", 'mount -t tmpfs none /sys && exec "$@"', "sh"]
    try:
        with tempfile.TemporaryDirectory() as room:
            subprocess.run(["mke2fs", "-q", "-F", name], stderr=subprocess.DEVNULL, check=True)
            subprocess.run(["mount", "-o", "ro", name, room], check=True)
            try:
                got = run(["recover", "image"], by=hidden)
                expect("a loop device without /sys", got == UNKNOWN and open("image", "rb").read() == loaded, got)
                got = run(["widen", name], by=hidden)
                expect("a mounted device without /sys", got == (2, b"", b"jb: in use %s\n" % name.encode() + mounted_at(name)), got)
                got = run(["recover", name, "--force"], by=hidden)
                expect("a mounted device by force", got == (2, b"", b"jb: in use %s\n" % name.encode() + mounted_at(name)), got)
                got = run(["recover", "image", "--force"], by=hidden)
                expect("a file by force", got[0] == 0, got)
                for what in ["loop/backing_file", "loop/offset", "loop/sizelimit"]:
                    with open("image", "wb") as image:
                        image.write(loaded)
                    numbers = os.stat(name).st_rdev
                    path = "/sys/dev/block/%d:%d/%s" % (os.major(numbers), os.minor(numbers), what)
                    got = run(["recover", "image"], by=["strace", "--quiet=all", "-o", "/dev/null", "-P", path, "-e", "inject=openat:error=EIO"])
                    expect("EIO at %s" % what, got == UNKNOWN and open("image", "rb").read() == loaded, got)
            finally:
                subprocess.run(["umount", room])
    finally:
        subprocess.run(["losetup", "--detach", name])
    print("devices that are not known: 7 runs")


def read_only():
    """On a file system that is mounted to be read alone, cat shows what it shows elsewhere, and what writes is refused."""
    new, loaded = made()
    fresh({"image": loaded, "journal": loaded[: 33 * 1024], "homes": loaded[33 * 1024 :]})
    commands = [["cat", "image", "1", "-n", "3"], ["cat", "homes", "1", "--hex", "--journal", "journal"], ["dump", "image"]]
    wants = [run(words) for words in commands]
    here = os.getcwd()
    with tempfile.TemporaryDirectory() as room:
        if subprocess.run(["mount", "-t", "tmpfs", "none", room], stderr=subprocess.DEVNULL).returncode != 0:
            print("a mount to be read alone: not tried, as nothing can be mounted here")
            return
        try:
            for name in os.listdir("."):
                shutil.copy(name, room)
            subprocess.run(["mount", "-o", "remount,ro", room], check=True)
            os.chdir(room)
            for words, want in zip(commands, wants):
                got = run(words)
                expect("read alone: %s" % words, got == want and got[0] == 0, got, want)
            for words in [["recover", "image"], ["renumber", "image"], ["widen", "image"]]:
                got = run(words)
                expect("read alone: %s" % words, got == (2, b"", b"jb: cannot read image\n" + reason("EROFS")), got)
            got = run(["recover", "homes", "--journal", "journal"])
            expect("read alone: recover --journal", got == (2, b"", b"jb: cannot read journal\n" + reason("EROFS")), got)
        finally:
            os.chdir(here)
            subprocess.run(["umount", room])
    print("a mount to be read alone: 7 runs")
