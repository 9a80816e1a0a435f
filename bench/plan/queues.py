#!/usr/bin/env python3
"""Writes a queue text for `jb plan`: queues.py LOAD [HANDLES]. LOAD is one of LOADS."""
import random
import sys

MOST = 2147483646


def spread(handles, words, homes):
    chance = random.Random(1)
    return [" ".join(f"w{h}" for h in chance.sample(range(homes), words)) for _ in range(handles)]


def freed(handles):
    """Each handle writes four home blocks, and the next one frees them."""
    lines = []
    for i in range(handles):
        homes = range(4 * (i // 2), 4 * (i // 2) + 4)
        lines.append(" ".join(f"{'w' if i % 2 == 0 else 'r'}{h}" for h in homes))
    return lines


def idle(handles, place):
    """Each handle writes a home block of its own, but for one at this place of each eight, which does nothing."""
    return ["" if i % 8 == place else f"w{i}" for i in range(handles)]


LOADS = {
    # name: (limit, handles, the lines of so many handles)
    "seven": (MOST, 16000, lambda n: [f"w{i % 7}" for i in range(n)]),
    "sixty": (40, 16000, lambda n: spread(n, 3, 60)),
    "wide": (MOST, 15000, lambda n: spread(n, 200, 2000)),
    "freed": (5, 16000, freed),
    "pairs": (7, 2000000, lambda n: ["w1 w2"] * n),
    "inodes": (8192, 60000, lambda n: spread(n, 5, 5000)),
    "new": (MOST, 16000, lambda n: [f"w{i}" for i in range(n)]),
    "fresh": (2047, 60000, lambda n: [f"w{i}" for i in range(n)]),
    "halves": (2047, 60000, lambda n: [f"w{2 * i} r{2 * i + 1}" for i in range(n)]),
    "eighth": (MOST, 16000, lambda n: idle(n, 7)),
    "sparse": (MOST, 16000, lambda n: [f"w{i}" if i % 8 == 0 else "" for i in range(n)]),
    "second": (MOST, 16000, lambda n: [f"w{i}" if i % 8 == 1 else "" for i in range(n)]),
    "fresh_eighth": (2047, 60000, lambda n: idle(n, 7)),
    "twos": (MOST, 16000, lambda n: [f"w{i // 2}" for i in range(n)]),
    "shifted": (MOST, 16000, lambda n: [f"w{(i + 1) // 2}" for i in range(n)]),
}


def main():
    limit, handles, lines = LOADS[sys.argv[1]]
    if len(sys.argv) > 2:
        handles = int(sys.argv[2])
    print("bs 1024")
    print(f"limit {limit}")
    for line in lines(handles):
        print(f"h {line}".rstrip())


main()
