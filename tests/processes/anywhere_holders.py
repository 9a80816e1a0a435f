"""The part of safe_anywhere.py about who has a file that is in use: which process has locked it, by /proc/locks and its own name. Nothing is said
of one that has ended."""
import subprocess
import sys

from anywhere import QUEUE, expect, fresh, made, run

# takes the locks of files, as `flock` or as another lock of fcntl, under another name, and keeps them until its input ends; with `left` a child
# keeps them, and the process that took them ends
HOLD = """
import fcntl, os, sys
kind, comm, *names = sys.argv[1:]
if comm:
    open("/proc/self/comm", "wb").write(os.fsencode(comm).decode("unicode_escape").encode("latin1"))
files = [os.open(name, os.O_RDWR) for name in names]
for file in files:
    fcntl.lockf(file, fcntl.LOCK_EX) if kind == "lockf" else fcntl.flock(file, fcntl.LOCK_SH if kind == "shared" else fcntl.LOCK_EX)
if kind == "left" and os.fork():
    os._exit(0)
print("held", flush=True)
sys.stdin.read()
"""


def hold(kind, name, *files):
    """A process of this name that has locked these files."""
    p = subprocess.Popen([sys.executable, "-c", HOLD, kind, name, *files], stdin=subprocess.PIPE, stdout=subprocess.PIPE)
    assert p.stdout.readline() == b"held\n"
    return p


def ended(p):
    p.stdin.close()
    p.wait()
    p.stdout.read()


def holders():
    """Of several locks the one of this file is told, of the process that has it, and that under its own name."""
    loaded = made()[1]
    commands = [["recover", "image"], ["renumber", "image"], ["widen", "image"], ["load", "image", "queue"]]
    runs = 0
    for kind, name, shown in [
        ("flock", "keeper", b"keeper"),
        ("shared", "keeper", b"keeper"),
        ("flock", "a b(1) 'c", b"a b(1) 'c"),
        ("flock", r"a\x1bb\x7f", rb"a\x1bb\x7f"),
        ("flock", r"a\xe2\x80\xaeb", rb"a\xe2\x80\xaeb"),
        ("left", "keeper", None),
    ]:
        fresh({"image": loaded, "other": loaded, "third": loaded, "queue": QUEUE})
        others = [hold("flock", "first", "other"), hold("lockf", "second", "image")]
        p = hold(kind, name, "third", "image")
        if kind == "left":
            p.wait()
        others.append(hold("flock", "last", "queue"))
        who = b"" if shown is None else b"jb:  locked by process %d (%s)\n" % (p.pid, shown)
        for words in commands:
            got = run(words)
            expect("locked by %s %s: %s" % (kind, name, words), got == (2, b"", b"jb: in use image\n" + who), got)
            got = run([*words, "-q"])
            expect("locked by %s %s, with -q: %s" % (kind, name, words), got == (2, b"", b"jb: in use image\n"), got)
            runs += 2
        for q in [p, *others]:
            ended(q)
        expect("no longer locked", open("image", "rb").read() == loaded and run(["recover", "image"])[0] == 0)
    print("who has a file: %d runs" % runs)
