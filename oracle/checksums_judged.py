"""Changed logs with checksums, given to JB, to the kernel and to e2fsck, for checksums.py."""
import collections
import ctypes
import errno
import fcntl
import multiprocessing
import os
import random
import subprocess
import tempfile

from checksums_changes import changes
from in_place import run
from own_image import JOURNAL_ONLY, Checked, Held, Image, is_meant, put

LIBC = ctypes.CDLL(None, use_errno=True)
READ_ONLY, FLUSH_BUFFERS, SECONDS = 1, 0x1261, 20
Answer = collections.namedtuple("Answer", "what jb kernel e2fsck wrong told")


class Mounts:
    """A loop device over a file, which the kernel mounts to be read alone: it recovers the log all the same. The device
    is there as long as it is open here."""

    def __init__(self, name):
        self.folder, self.device = tempfile.mkdtemp(dir="."), run("losetup", "--find", "--show", name)
        self.handle = os.open(self.device, os.O_RDONLY)
        run("losetup", "--detach", self.device)

    def tried(self):
        """The kernel's error, or None."""
        fcntl.ioctl(self.handle, FLUSH_BUFFERS)
        words = [word.encode() for word in (self.device, self.folder, "ext4")]
        if LIBC.mount(*words, READ_ONLY, b""):
            return errno.errorcode[ctypes.get_errno()]
        if LIBC.umount2(self.folder.encode(), 0):
            raise OSError(ctypes.get_errno(), "umount")
        return None


def by_e2fsck(size):
    """What went wrong with e2fsck, or None. It may have made the file longer."""
    env = dict(os.environ, LC_ALL="C", E2FSCK_TIME="1800000000")
    try:
        subprocess.run(JOURNAL_ONLY + ["e2fsck.img"], capture_output=True, check=False, env=env, timeout=SECONDS)
    except subprocess.TimeoutExpired:
        return "no end"
    finally:
        os.truncate("e2fsck.img", size)
    return None


class Judge:
    """One dirty file system, whose log is changed again and again."""

    def __init__(self, jb, image):
        self.jb, self.image, self.size, self.data = jb, image, image.size, bytearray(image.data)
        self.file, self.kernel, self.e2fsck = (Held(name, image.data) for name in ("jb.img", "kernel.img", "e2fsck.img"))
        self.mounts = Mounts("kernel.img")
        self.skipped = set(image.recovery.places) | {image.fs.front()}
        self.all = self.homes_of(image.recovery.writes)

    def homes_of(self, writes):
        """Block -> bytes, but for the file system's superblock, of which others write more."""
        return {at // self.size: new for at, new in writes if at // self.size not in self.skipped}

    def tried(self, what, writes):
        undo = put(self.data, writes)
        for held in (self.file, self.kernel, self.e2fsck):
            held.put(writes)
        recovery = Checked(self.data)
        ended = self.jb.run("recover", "--checksums", "jb.img")
        wrong, mine = self.judged(recovery, ended), None
        answer = words_of(ended[2])
        if ended[0] == 0:
            mine = self.homes_of(recovery.writes)
            answer = "taken" if self.are(mine, self.all) else "taken, other homes"
        error = self.mounts.tried()
        kernel = self.left(self.kernel, mine, "refused" if error else "mounted")
        e2fsck = self.left(self.e2fsck, mine, by_e2fsck(len(self.data)) or "")
        if mine is not None and kernel.startswith("mounted") and "as JB" not in kernel:
            wrong = wrong or "the kernel leaves other homes"
        put(self.data, undo)
        self.undone(writes + (recovery.writes if recovery.fault is None else []))
        told = "%s, and by the reference %s" % (" ".join(map(str, ended)), recovery.fault or recovery.line)
        return Answer(what, answer, kernel, e2fsck, wrong, told)

    def undone(self, writes):
        """JB's file as it was; the other two are already, but for what was changed."""
        before = [(at, self.image.data[at:at + len(new)]) for at, new in writes]
        for held in (self.file, self.kernel, self.e2fsck):
            held.put(before)
        if not self.file.has(self.data):
            self.file.map[:] = self.image.data

    def judged(self, recovery, ended):
        """What is wrong with JB's answer and bytes, or None."""
        wanted = (1, "", "jb: %s" % recovery.fault) if recovery.fault else (0, recovery.line, "")
        undo = put(self.data, recovery.writes if recovery.fault is None else [])
        is_so = self.file.has(self.data) or is_meant(bytes(self.file.map), bytes(self.data), recovery.fs)
        put(self.data, undo)
        if ended != wanted:
            return "another answer" + ("" if is_so else ", and other bytes")
        return None if is_so else "something is written" if recovery.fault else "other bytes"

    def left(self, held, mine, told):
        """What another program has made of the file, in words; it is changed back."""
        wrote = held.differing(self.data, self.size)
        homes = {block: held.map[block * self.size:(block + 1) * self.size] for block in wrote if block not in self.skipped}
        start = self.image.recovery.places[0] * self.size + 0x1C
        is_kept = any(held.map[start:start + 4])
        for block in wrote:
            held.map[block * self.size:(block + 1) * self.size] = self.data[block * self.size:(block + 1) * self.size]
        if mine is not None and self.are(homes, mine):
            what = "as JB"
        else:
            what = "all homes" if self.are(homes, self.all) else "other homes" if homes else "no home"
        return " ".join(filter(None, [told, what, "log kept" if is_kept else "log empty"]))

    def are(self, homes, wanted):
        """Whether the homes that were written are these, where the others are as they were."""
        return all(homes.get(at, self.block(at)) == wanted.get(at, self.block(at)) for at in {**homes, **wanted})

    def block(self, number):
        return bytes(self.data[number * self.size:(number + 1) * self.size])


def words_of(fault):
    """A fault without its numbers and its front."""
    return " ".join(word for word in fault.split()[1:] if not word.isdigit())


def share(task):
    """The answers to every so manyth change of one file system, in a folder of its own."""
    jb, kind, path, seed, count, part, parts = task
    with tempfile.TemporaryDirectory(dir=".") as folder:
        before = os.getcwd()
        os.chdir(folder)
        judge = Judge(jb, Image(kind, path, Checked))
        found = enumerate(changes(judge.image, random.Random(seed), count))
        answers = [judge.tried(*change) for i, change in found if i % parts == part]
        os.close(judge.mounts.handle)
        os.chdir(before)
        return kind.name, answers


def tried(jb, images, chance, count, workers):
    """So many changes over these file systems, but for those with orphans, of which the kernel writes more when it
    mounts them; how many are answered wrongly."""
    images = [one for one in images if one[0].special != "orphans"]
    each, seeds = -(-count // len(images)), [chance.randrange(1 << 30) for _ in images]
    tasks = [(jb, *image, seed, each, part, workers) for image, seed in zip(images, seeds) for part in range(workers)]
    answers, wrong = collections.Counter(), 0
    with multiprocessing.Pool(workers, maxtasksperchild=1) as pool:
        for name, found in pool.imap_unordered(share, tasks, 1):
            for answer in found:
                answers[answer[:4]] += 1
                wrong += bool(answer.wrong)
                if answer.wrong and wrong <= 40:
                    print("%s, %s: WRONG: %s: %s; kernel: %s" % (name, answer.what, answer.wrong, answer.told, answer.kernel))
                elif answer.jb.startswith("taken") and answer.kernel.startswith("refused"):
                    print("%s, %s: %s; kernel: %s" % (name, answer.what, answer.told, answer.kernel))
            print("%s: %d changes so far, %d wrong" % (name, sum(answers.values()), wrong), flush=True)
    summary(answers)
    return wrong


def summary(answers):
    """How often JB answers what, and what the two others do then; and the same by what is changed."""
    for title, form in (("what JB, the kernel and e2fsck do", lambda key: key[1:]), ("of what is changed", lambda key: key[:2])):
        counted = collections.Counter()
        for key, count in answers.items():
            counted[" | ".join(form(key))] += count
        print("%s:\n%s" % (title, "\n".join("| %s | %d |" % (key, counted[key]) for key in sorted(counted))), flush=True)
