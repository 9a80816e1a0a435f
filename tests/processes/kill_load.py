#!/usr/bin/env python3
"""kill_load.py JB [SEED]: is an image whole after a `jb load` that was stopped?

A queue of handles is loaded into a new image, in turn with each list of options in LOADS, in two ways:
  - killed: strace kills the program at the entry of the k-th pwrite64 or fdatasync of a thread, for each k until none is left;
  - power: strace notes the bytes of each call of a run that ends. At each moment of it the sectors of 512 bytes that were
    written since the last fdatasync each keep any of their versions, as chosen by SEED (0 where it is left out).
Each image that is left is recovered by JB, and its home blocks must be those of a prefix of the handles of each thread,
with each handle whole. A second recovery must find nothing. Handles that a power cut cannot take are not lost at a later one.
Needs strace. Prints a line for each list of options."""
import os
import random
import re
import subprocess
import sys
import tempfile

SIZE, HOMES, HANDLES, SECTOR = 1024, 64, 24, 512
MOST = 65536  # bytes of one call: blocks in a row are written together
CALL = re.compile(r'(?:\d+ +)?(pwrite64|fdatasync)\(\d+(?:, "([^"]*)"(?:\.\.\.)?, (\d+), (\d+))?')

# blocks of the journal, most blocks of a group, threads, and further words: a held batch needs room for all its credits
LOADS = [
    (120, 8, 1, ["--hold"]),
    (120, 8, 4, ["--hold"]),
    (120, 8, 1, ["--hold", "--checkpoint"]),
    (33, 8, 1, []),
    (33, 8, 4, []),
    (33, 8, 1, ["--checkpoint"]),
    (33, 8, 4, ["--checkpoint"]),
]


def mark(handle):
    """The bytes that a handle writes. Those of each third one begin with the magic number of a journal's own blocks."""
    return (b"\xc0\x3b\x39\x98" if handle % 3 == 0 else b"data") + bytes([handle + 1])


def text():
    """Each handle writes home 0 and two homes of its own, and each fifth one frees the first home of that four before it."""
    lines = ["bs %d" % SIZE, "limit 8"]
    for handle in range(HANDLES):
        words = ["w%d=%s" % (home, mark(handle).hex()) for home in (0, 2 * handle + 1, 2 * handle + 2)]
        lines.append(" ".join(["h"] + words + ["r%d" % (2 * handle - 7)] * (handle % 5 == 4)))
    return "\n".join(lines) + "\n"


def wrong(image, journal, threads, whole):
    """What is wrong with the home blocks of a recovered image, or None; and how many handles they have."""
    homes = [image[at:at + SIZE] for at in range(journal * SIZE, (journal + HOMES) * SIZE, SIZE)]
    blocks = [mark(handle).ljust(SIZE, b"\0") for handle in range(HANDLES)]
    zeros = bytes(SIZE)
    there = [homes[2 * handle + 2] == blocks[handle] for handle in range(HANDLES)]
    for handle in range(HANDLES):
        freed = handle % 5 == 0 and handle + 4 < HANDLES and there[handle + 4]
        first, second = homes[2 * handle + 1], homes[2 * handle + 2]
        if not there[handle] and (first != zeros or second != zeros):
            return "handle %d is there in part" % handle, 0
        if there[handle] and first != blocks[handle] and not (freed and first == zeros):
            return "handle %d has lost a block" % handle, 0
        if there[handle] and handle >= threads and not there[handle - threads]:
            return "handle %d is there without handle %d" % (handle, handle - threads), 0
    lasts = [h for h in range(HANDLES) if there[h] and not (h + threads < HANDLES and there[h + threads])]
    if homes[0] not in ([blocks[handle] for handle in lasts] or [zeros]):
        return "home 0 is not of the last handle", 0
    if whole and not all(there):
        return "only %d handles are there" % sum(there), 0
    return None, sum(there)


class Loads:
    def __init__(self, jb, folder, seed):
        self.jb, self.folder, self.random = jb, folder, random.Random(seed)
        self.image, self.queue = os.path.join(folder, "image"), os.path.join(folder, "queue.txt")
        self.faults = 0
        with open(self.queue, "w", encoding="ascii") as queue:
            queue.write(text())

    def format(self, journal, most):
        if os.path.exists(self.image):
            os.remove(self.image)
        sizes = ["--bs", str(SIZE), "--journal", str(journal), "--homes", str(HOMES), "--max", str(most)]
        subprocess.run([self.jb, "format", self.image] + sizes, check=True, stdout=subprocess.DEVNULL)

    def load(self, threads, words, strace):
        trace = ["strace", "-f", "-qq", "-e", "trace=pwrite64,fdatasync"] + strace
        load = [self.jb, "load", self.image, self.queue, "--threads", str(threads)] + words
        return subprocess.run(trace + load, capture_output=True, text=True, check=False)

    def judge(self, what, journal, threads, whole):
        """Recovers the image, says what is wrong with it, and gives how many handles it has."""
        first = subprocess.run([self.jb, "recover", self.image], capture_output=True, text=True, check=False)
        with open(self.image, "rb") as file:
            once = file.read()
        fault, handles = wrong(once, journal, threads, whole)
        again = subprocess.run([self.jb, "recover", self.image], capture_output=True, text=True, check=False)
        with open(self.image, "rb") as file:
            twice = file.read()
        if first.returncode or again.returncode:
            fault = "recover says: " + first.stderr + again.stderr
        elif not again.stdout.startswith("transactions 0 ") or once != twice:
            fault = "a second recover says: " + again.stdout
        if fault:
            self.faults += 1
            print("  WRONG %s: %s" % (what, fault))
        return handles

    def killed(self, journal, most, threads, words):
        """Kills the load at each call; gives how many handles each image has."""
        found = []
        while True:
            at = len(found) + 1
            self.format(journal, most)
            inject = "inject=pwrite64,fdatasync:signal=KILL:when=%d" % at
            ended = self.load(threads, words, ["-o", os.devnull, "-e", inject])
            found.append(self.judge("killed at %d" % at, journal, threads, ended.returncode == 0))
            if ended.returncode == 0:
                return found[:-1]

    def power(self, journal, most, threads, words):
        """Cuts the power at each call; gives how many handles each image has."""
        self.format(journal, most)
        with open(self.image, "rb") as file:
            new = file.read()
        log = os.path.join(self.folder, "log")
        self.load(threads, words, ["-xx", "-s", str(MOST), "-o", log])
        with open(log, encoding="ascii") as file:
            calls = [call.groups() for call in map(CALL.match, file) if call]
        found, kept, since, safe = [], bytearray(new), {}, 0
        for at, (name, data, _, place) in enumerate(calls):
            if name == "pwrite64":
                data, place = bytes.fromhex(data.replace("\\x", "")), int(place)
                for begin in range(0, len(data), SECTOR):
                    since.setdefault(place + begin, []).append(data[begin:begin + SECTOR])
            else:
                for sector, versions in since.items():
                    kept[sector:sector + SECTOR] = versions[-1]
                since = {}
            for choice in ("none", "newest", "any", "any"):
                left = bytearray(kept)
                for sector, versions in since.items():
                    version = {"none": None, "newest": versions[-1]}.get(choice, self.random.choice([None] + versions))
                    left[sector:sector + SECTOR] = version or left[sector:sector + SECTOR]
                with open(self.image, "wb") as file:
                    file.write(left)
                found.append(self.judge("power off after %d, %s" % (at, choice), journal, threads, False))
                if found[-1] < safe:
                    self.faults += 1
                    print("  WRONG power off after %d, %s: %d handles of %d are there" % (at, choice, found[-1], safe))
                safe = found[-1] if choice == "none" else safe
        return found


def main():
    jb, seed = os.path.realpath(sys.argv[1]), int(sys.argv[2]) if len(sys.argv) > 2 else 0
    with tempfile.TemporaryDirectory() as folder:
        loads = Loads(jb, folder, seed)
        for journal, most, threads, words in LOADS:
            kills = loads.killed(journal, most, threads, words)
            cuts = loads.power(journal, most, threads, words)
            name = " ".join(["--threads", str(threads)] + words)
            told = [name, len(kills), len(set(kills)), len(cuts), len(set(cuts))]
            print("%s: killed %d times, %d numbers of handles left; power off %d times, %d numbers of handles left" % tuple(told))
        print("%d wrong" % loads.faults)
        return 1 if loads.faults else 0


if __name__ == "__main__":
    sys.exit(main())
