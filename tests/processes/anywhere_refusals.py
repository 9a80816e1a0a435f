"""The parts of safe_anywhere.py in which the system refuses a link or a lock, by strace. Elsewhere they print that they were not tried."""
import os
import shutil
import time

from anywhere import QUEUE, SIZES, all_files, expect, fresh, made, reason, run


LINK = "?link,linkat"


def refused(call, error):
    """The words that run a program whose calls of this name are refused so."""
    return ["strace", "--quiet=all", "-o", "/dev/null", "-e", "inject=%s:error=%s" % (call, error)]


def links():
    """An image gets its name by a link alone: where the file system has none it is not made, and no file of the name is replaced."""
    if shutil.which("strace") is None:
        print("links: not tried, as there is no strace")
        return
    runs = 0
    for error, line in [
        ("EPERM", b"jb: no links new\n"),
        ("EOPNOTSUPP", b"jb: no links new\n"),
        ("EMLINK", b"jb: no links new\n"),
        ("EEXIST", b"jb: cannot make new\n"),
        ("EACCES", b"jb: cannot make new\n"),
        ("EIO", b"jb: cannot make new\n"),
        ("ENOSPC", b"jb: cannot make new\n"),
        ("EROFS", b"jb: cannot make new\n"),
        ("EXDEV", b"jb: cannot make new\n"),
    ]:
        fresh({})
        got = run(["format", "new", *SIZES], by=refused(LINK, error))
        expect("link: %s" % error, got == (2, b"", line + reason(error) * (b"cannot" in line)) and not os.listdir("."), got, os.listdir("."))
        runs += 1
    # a file that comes by the name while the image is made stays: strace would hold a rename back for two seconds
    fresh({})
    slow = refused(LINK, "EPERM") + ["-e", "inject=?rename,?renameat,renameat2:delay_enter=2s"]
    late = ["sh", "-c", '( (sleep 1; echo mine >new) >/dev/null 2>&1 & ) && exec "$@"', "sh", *slow]
    got = run(["format", "new", *SIZES], by=late)
    time.sleep(2)
    expect("a file that comes meanwhile", got == (2, b"", b"jb: no links new\n") and all_files() == {"new": b"mine\n"}, got, os.listdir("."))
    print("links: %d runs" % (runs + 1))


def locks():
    """A lock that another program has, and each one that is refused otherwise, keeps jb out; where there are no locks it goes on."""
    if shutil.which("strace") is None:
        print("refused locks: not tried, as there is no strace")
        return
    new, loaded = made()
    commands = [["recover", "image"], ["renumber", "image"], ["widen", "image"], ["load", "image", "queue"], ["cat", "image", "1"]]
    runs = 0
    for error, line in [
        ("EAGAIN", b"jb: in use image\n"),
        ("ENOLCK", b"jb: cannot read image\n"),
        ("EIO", b"jb: cannot read image\n"),
        ("EINVAL", b"jb: cannot read image\n"),
        ("EBADF", b"jb: cannot read image\n"),
        ("EPERM", b"jb: cannot read image\n"),
        ("EOPNOTSUPP", None),
        ("ENOSYS", None),
    ]:
        for words in commands:
            fresh({"image": new if words[0] in ["renumber", "widen", "load"] else loaded, "queue": QUEUE})
            before = all_files()
            got = run(words, by=refused("flock", error))
            good = got[0] == 0 if line is None else got == (2, b"", line + reason(error) * (b"cannot" in line)) and all_files() == before
            expect("flock %s: %s" % (error, words), good, got)
        fresh({})
        got = run(["format", "new", *SIZES], by=refused("flock", error))
        # a lock that another program has is no refusal of the system
        unmade = (2, b"", b"jb: cannot make new\n" + reason(error) * (error != "EAGAIN"))
        good = got[0] == 0 and os.listdir(".") == ["new"] if line is None else got == unmade and not os.path.exists("new")
        # who was there first and has the lock removes the file
        left = [] if line is None or error != "EAGAIN" else ["new.jb-unfinished"]
        expect("flock %s: format" % error, good and (line is None or os.listdir(".") == left), got, os.listdir("."))
        runs += len(commands) + 1
    print("refused locks: %d runs" % runs)
