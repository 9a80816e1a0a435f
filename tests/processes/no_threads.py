#!/usr/bin/env python3
"""Runs the examples where the system makes no thread: each ends with a fault, and changes nothing. A load ends well: its workers run one
after the other, and what they stopped is committed after them.

    tests/processes/no_threads.py STORE ACCOUNTS JB

The stack of a new thread is set to more than the memory that the process may have, so that no thread is made; with two threads' worth of memory some of
several are made. Each program has to say within twenty seconds that it gets no thread, and the image has to be what it was. Started again without a limit it ends well."""
import os
import resource
import subprocess
import sys
import tempfile

TEXT = b"the system makes no thread more; run with fewer workers\n"
wrong = 0


def expect(what, is_so, *found):
    global wrong
    if not is_so:
        wrong += 1
        print("WRONG:", what, *found)


def begin(words, given, stack=None):
    """A program with this input; a new thread of it wants this many MiB of the 1,536 that it has."""

    def limits():
        if stack is not None:
            resource.setrlimit(resource.RLIMIT_STACK, (stack << 20, stack << 20))
            resource.setrlimit(resource.RLIMIT_AS, (1536 << 20, 1536 << 20))

    p = subprocess.Popen(words, stdin=subprocess.PIPE, stdout=subprocess.PIPE, stderr=subprocess.STDOUT, preexec_fn=limits)
    p.stdin.write(given)
    p.stdin.close()
    p.stdin = None
    return p


def end(p):
    try:
        return p.communicate(timeout=20)[0], p.returncode
    except subprocess.TimeoutExpired:
        p.kill()
        return b"it waits for ever", None


def load_alone(jb):
    """A load of two workers that has no thread: its counts are those with --hold, and each home has the change with the highest ticket."""
    with open("queue", "w", encoding="ascii") as it:
        it.write("bs 1024\nlimit 8\nh w1=01 w2=02 w3=03\nh w3=04 w4=05 w5=06\nh w1=07 w2=08\n")
    for name, words, stack in [("held", ["--hold"], None), ("alone", [], 4096)]:
        subprocess.run([jb, "format", name, "--bs", "1024", "--journal", "33", "--homes", "16"], check=True, stdout=subprocess.DEVNULL)
        found = end(begin([jb, "load", name, "queue", "--threads", "2", *words], b"", stack))
        expect("a load (%s)" % name, found == (b"handles 3 changes 8 settled 3 groups 1 blocks 7\n", 0), found)
        subprocess.run([jb, "recover", name], check=True, stdout=subprocess.DEVNULL)
    with open("alone", "rb") as it:
        homes = list(it.read()[33 * 1024::1024])
    # one worker has run the first and the third handle, and the other, before or after it, the second one
    expect("the homes of a load without threads", homes in [[0, 7, 8, shared, 5, 6] + [0] * 10 for shared in (3, 4)], homes)


def main():
    store, accounts, jb = (os.path.abspath(word) for word in sys.argv[1:4])
    here = os.getcwd()
    with tempfile.TemporaryDirectory() as folder:
        os.chdir(folder)
        programs = [("store", [store, "store"], b"put 1 5\n", b"put 1\n"), ("accounts", [accounts, "accounts", "5"], b"", b"the accounts hold 100000\n")]
        rows = []
        for name, words, given, line in programs:
            for stack in [4096, 600]:
                image = "%s.%d" % (name, stack)
                words = [words[0], image, *words[2:]]
                found = end(begin(words, given))
                expect("a first run of " + name, found == (line, 0), found)
                rows.append((name, stack, image, words, given, line, open(image, "rb").read()))
        # all at once, since each waits for ten seconds
        started = [begin(words, given, stack) for _, stack, _, words, given, _, _ in rows]
        for p, (name, stack, image, words, given, line, before) in zip(started, rows):
            found = end(p)
            if stack == 600 and name == "store":
                # its three threads are one and two more: with two of them made nothing is missing
                continue
            expect("%s without threads (%d)" % (name, stack), found == (b"%s: %s" % (image.encode(), TEXT), 1), found)
            expect("the image of %s (%d)" % (name, stack), open(image, "rb").read()[64 * 1024:] == before[64 * 1024:])
            found = end(begin(words, given))
            expect("%s with threads again" % name, found == (line, 0), found)
        load_alone(jb)
        os.chdir(here)
    print("no_threads.py: %d runs, %d wrong" % (len(rows) + 1, wrong))
    return 1 if wrong else 0


sys.exit(main())
