#!/usr/bin/env python3
"""Kills programs while they make an image, and starts them again: each start has to work.

    tests/processes/kill_creation.py JB STORE ACCOUNTS [KILLS]

Each of `jb format`, example_store and example_accounts is started KILLS times (40, if no number is given) in a folder without the image, with what the start
before has left of one, and is killed at a random moment. Where strace is there, each is also killed at each of its calls of the system from the
first that names the image to the last that makes it, and each of these calls is refused in turn: the program may end well or with a fault then, and with
a fault `jb format` leaves no image. After each the program is started once more and has to end well, with what it must print. Prints how many starts
there were, how often the killed one had left a file that was not finished, and how often the image; ends with 1 where a start went wrong."""
import os
import random
import re
import shutil
import signal
import subprocess
import sys
import tempfile
import time

UNFINISHED = ".jb-unfinished"
SIZES = ["--bs", "1024", "--journal", "33", "--homes", "16"]
wrong = 0


class Program:
    """A program that makes an image: its words, its input, and what a whole start prints."""

    def __init__(self, name, words, given, prints):
        self.name, self.words, self.given, self.prints = name, words, given, prints

    def start(self, words, patience=None):
        """The status and the output of a start, or None where it was killed after this many seconds."""
        started = subprocess.Popen(words, stdin=subprocess.PIPE, stdout=subprocess.PIPE, stderr=subprocess.STDOUT)
        try:
            out = started.communicate(self.given, timeout=patience)[0]
        except subprocess.TimeoutExpired:
            started.send_signal(signal.SIGKILL)
            started.communicate()
            return None
        return started.returncode, out

    def works(self, jb, image):
        """Whether a start ends well now: an image that is there is no reason for `jb format` to make one."""
        found = self.start(self.words, 60)
        if self.name == "jb format":
            recovered = subprocess.run([jb, "recover", image], capture_output=True, timeout=60)
            good = found[0] == 0 or (os.path.exists(image) and b"cannot make" in found[1])
            return good and recovered.returncode == 0, (found, recovered.stderr)
        return found is not None and found[0] == 0 and re.fullmatch(self.prints, found[1]), found


def expect(what, is_so, found):
    global wrong
    if not is_so:
        wrong += 1
        print("WRONG:", what, found)


def after(program, what, jb, image, counts):
    """The start after one that was killed or refused."""
    counts["starts"] += 1
    counts["unfinished"] += os.path.exists(image + UNFINISHED)
    counts["image"] += os.path.exists(image)
    good, found = program.works(jb, image)
    expect(f"{program.name} after {what}", good, found)
    if os.path.exists(image):
        os.remove(image)


def unmade(program, what, found, image):
    """A `jb format` that had a call refused, and ended with a fault, leaves no image; only one whose line was not written is whole."""
    if program.name == "jb format" and found and found[0] != 0 and b"WriteFault" not in found[1]:
        expect(f"the image after {what}", not os.path.exists(image), found)


def calls_of(program, image):
    """The calls that make the image: the name of each, and the how manyth of this name it is."""
    # the first thread alone, which has made the image before it starts another one
    subprocess.run(["strace", "-f", "-o", "trace", *program.words], input=program.given, capture_output=True)
    lines = open("trace").read().splitlines()
    first_thread = lines[0].split()[0]
    seen, calls, last = {}, [], 0
    for line in lines:
        found = re.match(r"(\d+)\s+(\w+)\(", line)
        if not found or found[1] != first_thread:
            continue
        name = found[2]
        seen[name] = seen.get(name, 0) + 1
        if name != "execve" and (calls or os.path.basename(image) in line):
            calls.append((name, seen[name]))
            if UNFINISHED in line:
                last = len(calls)
    os.remove("trace")
    os.remove(image)
    return calls[:last + 2]


ORDER = ["open", "flock", "ftruncate", "write", "fsync", "pwrite64", "fdatasync", "link", "fsync", "unlink"]


def in_order(program, image):
    """The calls that make the image are these, in this order: it gets its name once all of it is synced, and then its folder is synced."""
    # what a killed run has left would be removed first
    if os.path.exists(image + UNFINISHED):
        os.remove(image + UNFINISHED)
    subprocess.run(["strace", "-f", "-y", "-o", "trace", *program.words], input=program.given, capture_output=True)
    calls = []
    for line in open("trace"):
        found = re.match(r"\d+\s+(\w+)\((.*)", line)
        if not found or found[1] not in ["openat", "open", "flock", "ftruncate", "write", "fsync", "pwrite64", "fdatasync", "link", "linkat", "unlink", "unlinkat", "rename"]:
            continue
        name = found[1].removesuffix("at")
        folder = name == "fsync" and "<%s>" % os.path.dirname(image) in found[2]
        # the zeros of a long image are several writes
        if ((UNFINISHED in line and not (name == "open" and "O_CREAT" not in line)) or folder) and calls[-1:] + [name] != ["write", "write"]:
            calls.append(name)
    os.remove("trace")
    os.remove(image)
    expect("the calls by which %s makes its image" % program.name, calls[:len(ORDER)] == ORDER, calls)


def main():
    jb, store, accounts = (os.path.abspath(word) for word in sys.argv[1:4])
    kills = int(sys.argv[4]) if len(sys.argv) > 4 else 40
    chance = random.Random(1)
    here = os.getcwd()
    counts = {"starts": 0, "unfinished": 0, "image": 0}
    with tempfile.TemporaryDirectory() as folder:
        os.chdir(folder)
        image = os.path.join(folder, "image")
        programs = [
            Program("jb format", [jb, "format", image, *SIZES], b"", b""),
            Program("example_store", [store, image], b"put 1 5\nget 1\n", rb"put 1\n1 has 5\n"),
            Program("example_accounts", [accounts, image, "0"], b"", rb"the accounts hold 100000\n"),
        ]
        for program in programs:
            start = time.time()
            program.start(program.words)
            took = time.time() - start
            os.remove(image)
            for _ in range(kills):
                program.start(program.words, chance.uniform(0, took))
                after(program, "a random moment", jb, image, counts)
            if shutil.which("strace") is None:
                print("each call: not tried, as there is no strace")
                continue
            in_order(program, image)
            for name, number in calls_of(program, image):
                for how in ["signal=SIGKILL", "error=EIO", "error=EPERM"]:
                    words = ["strace", "-f", "-o", "/dev/null", "-e", f"inject={name}:{how}:when={number}", *program.words]
                    ended = program.start(words, 60)
                    if how.startswith("error"):
                        unmade(program, f"{how} at {name} {number}", ended, image)
                    after(program, f"{how} at {name} {number}", jb, image, counts)
        os.chdir(here)
    print("%(starts)d starts after one that was stopped: %(unfinished)d found a file that was not finished, %(image)d an image" % counts, end="")
    print(f", {wrong} wrong")
    return 1 if wrong else 0


sys.exit(main())
