#!/usr/bin/env python3
"""safe_anywhere.py JB: is `jb` safe wherever it is started?

Each command is run with each of the eight sets of closed descriptors 0, 1 and 2, and its image, status and outputs are compared with
those of a run with all three open: a closed standard input is empty, a closed standard output ends in status 1 and `jb: WriteFault`
where there is something for it, a closed standard error takes nothing, and the image is the same. Then: files of the wrong kind, a
device (a loop device where one can be made: as root), loop devices over one another, a system that does not say what is mounted, files
that cannot be made, links and locks that are refused, who has a locked file, a limit of the file size, lines that are one write (with strace, where it is
there), a mount to be read alone (as root). Prints a line for each part, and each run that is not as it must be. Needs Linux."""
import itertools
import os
import re
import resource
import shutil
import signal
import socket
import subprocess
import sys
import tempfile

from anywhere import JB, QUEUE, SIZES, all_files, expect, fresh, held_by, made, reason, run, wrong
from anywhere_holders import holders
from anywhere_mounts import device, no_devices, parted, read_only, stacked, unknown
from anywhere_refusals import links, locks


def closed_sets(files, commands):
    runs = 0
    for words, stdin in commands:
        fresh(files)
        status, out, err = run(words, stdin=stdin)
        left = all_files()
        for closed in itertools.chain.from_iterable(itertools.combinations(range(3), n) for n in range(4)):
            fresh(files)
            want = (status, out, err)
            if 0 in closed and stdin:
                fresh(files)
                want = run(words)  # an empty input
                fresh(files)
            if 1 in closed and want[1]:
                want = (1, b"", b"jb: WriteFault\n")
            if 2 in closed:
                want = (*want[:2], b"")
            got = run(words, closed, stdin)
            runs += 1
            expect("closed %s: jb %s" % (closed, " ".join(words)), got == want, got, want)
            expect("closed %s: files of jb %s" % (closed, " ".join(words)), all_files() == left)
    print("closed descriptors: %d runs of %d commands" % (runs, len(commands)))


def kinds():
    """An image of a wrong kind is refused at once, and is not opened."""
    runs = 0
    fresh({"queue": QUEUE})
    os.mkfifo("fifo")
    s = socket.socket(socket.AF_UNIX)
    s.bind("socket")
    for name in ["fifo", "socket", ".", "/dev/null", "/dev/zero", "/dev/tty"]:
        for words in [["recover", name], ["widen", name], ["renumber", name], ["load", name, "queue"], ["cat", name, "1"]]:
            got = run(words, wait=5)
            runs += 1
            expect(" ".join(words), got == (2, b"", b"jb: cannot read %s\n" % name.encode()), got)
    s.close()
    # texts and journals may be pipes
    new, loaded = made()
    fresh({"image": loaded, "queue": QUEUE})
    os.mkfifo("fifo")
    for words, content in [("dump", loaded), ("cost", QUEUE), ("plan", QUEUE)]:
        want = run([words, "image" if words == "dump" else "queue"])
        writer = subprocess.Popen(["sh", "-c", 'cat "$0" >fifo', "image" if words == "dump" else "queue"])
        got = run([words, "fifo"])
        writer.wait()
        expect(words + " of a pipe", got == want and got[0] == 0, got, want)
        got = run([words, "-"], stdin=content)
        expect(words + " of standard input", got == want, got, want)
        runs += 2
    print("kinds of files: %d runs" % runs)


def making():
    """A file that cannot be made whole is removed again, and the same command with better numbers works."""
    fresh({})
    good = (0, b"formatted limit 8\n", b"")

    def small_files(taken):
        def limit():
            signal.signal(signal.SIGXFSZ, signal.SIG_IGN if taken else signal.SIG_DFL)
            resource.setrlimit(resource.RLIMIT_FSIZE, (1 << 14, 1 << 14))

        return limit

    for words, before, want in [
        (["--bs", "1024", "--journal", "8", "--homes", "16"], None, (1, b"", b"jb: Geometry\n")),
        (["--bs", "1024", "--journal", "2147483648", "--homes", "0"], None, (1, b"", b"jb: Geometry\n")),
        (["--bs", "512", "--journal", "33", "--homes", "16"], None, (2, b"", b"jb: bad option\n")),
        (SIZES, small_files(True), (2, b"", b"jb: cannot make new\n" + reason("EFBIG"))),
    ]:
        got = run(["format", "new", *words], before=before)
        expect("format new %s" % words, got == want, got)
        expect("no file after format new %s" % words, not os.path.exists("new"))
    got = run(["format", "new", *SIZES])
    expect("format new, with better numbers", got == good, got)
    whole = open("new", "rb").read()
    for words, want in [(SIZES, (2, b"", b"jb: cannot make new\n" + reason("EEXIST"))), (["--bs", "1024", "--journal", "8", "--homes", "1"], (1, b"", b"jb: Geometry\n"))]:
        got = run(["format", "new", *words])
        expect("format of a file that is there", got == want and open("new", "rb").read() == whole, got)
    os.symlink("new", "link")
    got = run(["format", "link", *SIZES])
    expect("format of a link", got == (2, b"", b"jb: cannot make link\n" + reason("EEXIST")) and os.path.islink("link"), got)
    os.remove("link")
    os.remove("new")
    # the system ends the program at its limit of the file size, unless its signal is ignored
    got = run(["format", "new", *SIZES], before=small_files(False))
    expect("format past the limit", got == (-signal.SIGXFSZ, b"", b""), got)
    expect("what it leaves is empty", not os.path.exists("new") and os.path.getsize("new.jb-unfinished") == 0)
    got = run(["format", "new", *SIZES])
    expect("format after that", got == good and os.listdir(".") == ["new"], got, os.listdir("."))
    print("format: new files tried")


def locked():
    """An image that another program has locked is refused by the commands that write, and read by dump."""
    new, loaded = made()
    fresh({"image": loaded, "queue": QUEUE})
    if shutil.which("flock") is None:
        print("locks: not tried, as there is no flock")
        return
    text = run(["dump", "image"])
    p = subprocess.Popen(["flock", "image", "cat"], stdin=subprocess.PIPE)
    while subprocess.call(["flock", "-n", "image", "true"]) == 0:
        pass
    for words in [["recover", "image"], ["renumber", "image"], ["widen", "image"], ["load", "image", "queue"], ["cat", "image", "1"]]:
        got = run(words)
        expect("locked: %s" % words, got == (2, b"", b"jb: in use image\n" + held_by(p.pid)), got)
    expect("locked: dump", run(["dump", "image"]) == text)
    p.stdin.close()
    p.wait()
    expect("a locked image", open("image", "rb").read() == loaded)
    expect("no longer locked", run(["recover", "image"])[0] == 0)
    # of many at once, each is whole or refused, and one is done
    fresh({"image": loaded})
    ps = [subprocess.Popen([JB, "recover", "image"], stdout=subprocess.PIPE, stderr=subprocess.PIPE) for _ in range(16)]
    ends = [(*p.communicate(), p.returncode) for p in ps]
    # one that has just ended is not named
    pids = b"|".join(b"%d" % p.pid for p in ps)
    done = [out for out, err, status in ends if status == 0]
    refused = [err for out, err, status in ends if status != 0]
    expect("at once: refused", all(re.fullmatch(rb"jb: in use image\n(jb:  locked by process (%s) \(jb\)\n)?" % pids, err) for err in refused), refused)
    expect("at once: done", done.count(b"transactions 2 copies 2 revoked 0 next 5\n") + done.count(b"transactions 1 copies 2 revoked 0 next 4\n") == 1, done)
    print("locks: 16 at once, %d done one after the other, %d refused" % (len(done), len(refused)))


def one_write():
    """Each line is one call of write."""
    if shutil.which("strace") is None:
        print("one line, one write: not tried here, as there is no strace (a test of tests_tool counts writes)")
        return
    new, loaded = made()
    runs = 0
    for words, files in [
        (["format", "made", *SIZES], {}),
        (["recover", "image"], {"image": loaded}),
        (["renumber", "image"], {"image": new}),
        (["widen", "image"], {"image": new}),
        (["load", "image", "queue", "--hold"], {"image": new, "queue": QUEUE}),
        (["recover", "none"], {}),
        (["recover", "image"], {"image": b""}),
        (["dump", "image"], {"image": loaded}),
        (["cost", "queue"], {"queue": QUEUE}),
    ]:
        fresh(files)
        subprocess.run(["strace", "-f", "-e", "trace=write,writev", "-o", "trace", JB, *words], stdout=subprocess.DEVNULL, stderr=subprocess.DEVNULL)
        calls = [line for line in open("trace") if "write" in line and "(1, " in line or "(2, " in line]
        # the system's reason is a line of its own
        expect("one write: %s" % words, len(calls) == 1 + (words == ["recover", "none"]), calls)
        runs += 1
    print("one line, one write: %d runs" % runs)


def both_synced():
    """Each sync of an image of two files is one of the journal's file and then one of the other."""
    if shutil.which("strace") is None:
        print("syncs of two files: not tried, as there is no strace")
        return
    loaded = made()[1]
    fresh({"journal": loaded[: 33 * 1024], "homes": loaded[33 * 1024 :]})
    words = ["recover", "homes", "--journal", "journal"]
    subprocess.run(["strace", "-y", "-e", "trace=fdatasync,pwrite64", "-o", "trace", JB, *words], stdout=subprocess.DEVNULL, stderr=subprocess.DEVNULL)
    calls = [("sync " if "fdatasync" in line else "write ") + ("journal" if "journal>" in line else "homes") for line in open("trace") if "(" in line and ">" in line]
    syncs = ["sync journal", "sync homes"]
    want = syncs + ["write homes"] * calls.count("write homes") + syncs + ["write journal"] + syncs
    expect("syncs of two files", calls == want and "write homes" in calls, calls)
    print("syncs of two files: %d calls" % len(calls))


with tempfile.TemporaryDirectory() as folder:
    os.chdir(folder)
    new, loaded = made()
    wide = made(["--wide"])[0]
    files = {"new": new, "loaded": loaded, "wide": wide, "queue": QUEUE, "empty": b"", "journal": loaded[: 33 * 1024],
             "clean": new[: 33 * 1024], "homes": loaded[33 * 1024 :]}
    fresh(files)
    cert = run(["plan", "queue"])[1]
    files["cert"] = cert
    closed_sets(
        files,
        [
            (["format", "made", *SIZES], b""),
            (["format", "new", *SIZES], b""),
            (["format", "made", "--bs", "512", "--journal", "33", "--homes", "16"], b""),
            (["recover", "loaded"], b""),
            (["recover", "new"], b""),
            (["recover", "empty"], b""),
            (["recover", "none"], b""),
            (["renumber", "new"], b""),
            (["renumber", "loaded"], b""),
            (["widen", "new"], b""),
            (["widen", "wide"], b""),
            (["cat", "loaded", "1"], b""),
            (["cat", "loaded", "1", "--hex"], b""),
            (["cat", "loaded", "16"], b""),
            (["cat", "homes", "1", "--journal", "journal"], b""),
            (["recover", "homes", "--journal", "journal"], b""),
            (["recover", "homes", "--journal", "homes"], b""),
            (["load", "homes", "queue", "--journal", "clean", "--hold"], b""),
            (["load", "new", "queue", "--hold"], b""),
            (["load", "loaded", "queue"], b""),
            (["load", "new", "none"], b""),
            (["load", "new", "empty"], b""),
            (["dump", "journal"], b""),
            (["dump", "-"], loaded),
            (["dump", "empty"], b""),
            (["cost", "queue"], b""),
            (["cost", "-"], QUEUE),
            (["plan", "queue"], b""),
            (["plan", "-"], QUEUE),
            (["check", "queue", "cert"], b""),
            (["check", "queue", "queue"], b""),
            (["--help"], b""),
            (["--version"], b""),
            (["coast"], b""),
            ([], QUEUE),
        ],
    )
    kinds()
    device()
    stacked()
    parted()
    unknown()
    no_devices()
    making()
    links()
    locks()
    locked()
    holders()
    read_only()
    both_synced()
    one_write()
    os.chdir("/")
print("safe_anywhere.py: %d wrong" % len(wrong))
sys.exit(len(wrong) != 0)
