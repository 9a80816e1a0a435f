#!/usr/bin/env python3
"""Starts two copies of a program at once on one image: one goes on, and the other is refused.

    tests/processes/two_at_once.py JB STORE ACCOUNTS [ROUNDS]

A copy of example_accounts that moves money for a second has its image open: another copy, example_store, and each command of `jb` that opens an image are
refused then, and the accounts hold what they must at the end. Then, in each of this many rounds (10, if no number is given), eight copies of example_accounts,
and eight of example_store, are started at once where there is no image: each ends well or is refused, one at least ends well, and what those
that ended well have put is in the store. Ends with 1 where it was otherwise."""
import os
import subprocess
import sys
import tempfile
import time

LINE = b"the accounts hold 100000\n"
REFUSED = b"another process has the image open\n"
wrong = 0


def expect(what, is_so, *found):
    global wrong
    if not is_so:
        wrong += 1
        print("WRONG:", what, *found)


def begin(words, given=b""):
    """A program that was started, with this as all of its input."""
    p = subprocess.Popen(words, stdin=subprocess.PIPE, stdout=subprocess.PIPE, stderr=subprocess.STDOUT)
    p.stdin.write(given)
    p.stdin.close()
    p.stdin = None
    return p


def end(p):
    out = p.communicate(timeout=120)[0]
    return p.returncode, out


def held(jb, store, accounts):
    """While one copy has the image open, each other is refused."""
    subprocess.run([accounts, "image", "0"], capture_output=True)
    with open("queue", "w") as queue:
        queue.write("bs 1024\nlimit 8\nh w1\n")
    first = begin([accounts, "image", "60000"])
    time.sleep(0.3)
    who = b"jb:  locked by process %d (%s)\n" % (first.pid, open("/proc/%d/comm" % first.pid, "rb").read().rstrip(b"\n"))
    rows = [
        ([accounts, "image", "1"], (1, REFUSED)),
        ([store, "image"], (1, REFUSED)),
        ([jb, "recover", "image"], (2, b"jb: in use image\n" + who)),
        ([jb, "renumber", "image"], (2, b"jb: in use image\n" + who)),
        ([jb, "widen", "image"], (2, b"jb: in use image\n" + who)),
        ([jb, "load", "image", "queue"], (2, b"jb: in use image\n" + who)),
        ([jb, "cat", "image", "1"], (2, b"jb: in use image\n" + who)),
    ]
    for words, want in rows:
        found = end(begin(words))
        expect("%s while another has the image" % words, (found[0], found[1][-len(want[1]):]) == want, found)
    expect("the first copy was at work all the time", first.poll() is None)
    found = end(first)
    expect("the first copy", found == (0, LINE), found)
    print("held: %d programs refused" % len(rows))


def at_once(store, accounts, rounds):
    """Of many copies that are started at once, each ends well or is refused."""
    done = refused = 0
    for number in range(rounds):
        for name, words, given in [("accounts", [accounts, "one", "50"], None), ("store", [store, "two"], "put %d %d\n")]:
            copies = [begin(words, (given % (at + 1, number + 1)).encode() if given else b"") for at in range(8)]
            ends = [end(p) for p in copies]
            well = [at for at, found in enumerate(ends) if found[0] == 0]
            done += len(well)
            refused += len(ends) - len(well)
            for at, found in enumerate(ends):
                want = (0, LINE if given is None else b"put %d\n" % (at + 1)) if at in well else (1, b"%s: %s" % (words[1].encode(), REFUSED))
                expect("one of eight copies of " + name, found == want, found)
            expect("one of the copies of %s ends well" % name, well)
            if given:
                asked = end(begin(words, b"".join(b"get %d\n" % (at + 1) for at in range(8))))
                for at in well:
                    expect("what a copy has put", b"%d has %d\n" % (at + 1, number + 1) in asked[1], asked)
        os.remove("one")
        os.remove("two")
    print("at once: %d copies ended well, %d were refused" % (done, refused))
    expect("some were refused", refused)


def main():
    jb, store, accounts = (os.path.abspath(word) for word in sys.argv[1:4])
    rounds = int(sys.argv[4]) if len(sys.argv) > 4 else 10
    here = os.getcwd()
    with tempfile.TemporaryDirectory() as folder:
        os.chdir(folder)
        held(jb, store, accounts)
        at_once(store, accounts, rounds)
        os.chdir(here)
    print("two_at_once.py: %d wrong" % wrong)
    return 1 if wrong else 0


sys.exit(main())
