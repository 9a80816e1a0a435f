"""What safe_anywhere.py runs `jb` with: one run, the folder as it is before each, and what was not as it must be."""
import errno
import os
import stat
import subprocess
import sys
import tempfile

JB = os.path.realpath(sys.argv[1])
SIZES = ["--bs", "1024", "--journal", "33", "--homes", "16"]
QUEUE = b"bs 1024\nlimit 8\nh w1=0102 r2\nh w3\n"
wrong = []


def expect(what, is_so, *more):
    if not is_so:
        wrong.append(what)
        print("WRONG:", what, *more)


def run(words, closed=(), stdin=b"", before=None, wait=20, by=()):
    """A run of jb: its status (None where it did not end), standard output and standard error, b"" where that is closed. `by` are the
    words of a program that runs it."""

    def child():
        for fd in closed:
            os.close(fd)
        if before:
            before()

    with tempfile.TemporaryFile() as given:
        given.write(stdin)
        given.seek(0)
        p = subprocess.Popen([*by, JB, *words], stdin=given, stdout=subprocess.PIPE, stderr=subprocess.PIPE, preexec_fn=child)
        try:
            out, err = p.communicate(timeout=wait)
            return p.returncode, out, err
        except subprocess.TimeoutExpired:
            p.kill()
            p.communicate()
            return None, b"", b""


def reason(error):
    """The second line of a fault that has the system's reason alone."""
    number = getattr(errno, error)
    return b"jb:  %s (os error %d)\n" % (os.strerror(number).encode(), number)


def held_by(process):
    """The second line of a file that this process has locked."""
    return b"jb:  locked by process %d (%s)\n" % (process, open("/proc/%d/comm" % process, "rb").read().rstrip(b"\n"))


def mounted_at(device):
    """The second line of a device that is mounted, as the list of mounts has it; nothing where that has not this device."""
    numbers = os.stat(device)
    wanted = "%d:%d" % (os.major(numbers.st_rdev), os.minor(numbers.st_rdev))
    points = [line.split()[4] for line in open("/proc/self/mountinfo") if line.split()[2] == wanted]
    # a space is told as the list writes it, and what turns the direction of the text as in each name
    return b"jb:  mounted at %s\n" % points[0].replace("\u202e", r"\xe2\x80\xae").encode() if stat.S_ISBLK(numbers.st_mode) and points else b""


def fresh(files):
    """The folder as it is before each run."""
    for name in os.listdir("."):
        os.remove(name)
    for name, content in files.items():
        with open(name, "wb") as f:
            f.write(content)


def all_files():
    return {name: open(name, "rb").read() for name in sorted(os.listdir("."))}


def made(words=()):
    """The bytes of a new image, and of one with two committed handles."""
    fresh({"queue": QUEUE})
    assert run(["format", "image", *SIZES, *words])[0] == 0
    new = open("image", "rb").read()
    assert run(["load", "image", "queue", "--hold"])[0] == 0
    return new, open("image", "rb").read()
