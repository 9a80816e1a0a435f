#!/usr/bin/env python3
"""A second reader and writer of journals, written from the format alone (not from jb's code).

  jbref.py dump JOURNAL                      the text that `jb dump JOURNAL` should print
  jbref.py homes JOURNAL                     what recovery writes: one line `home first-sixteen-bytes` per home block
  jbref.py counts JOURNAL                    the line that `jb recover` should print
  jbref.py logdump JOURNAL LOGDUMP           compares the found blocks with the text of `debugfs -R "logdump -a -f JOURNAL"`
  jbref.py rows JOURNAL [NAME]               the non-zero rows of JOURNAL as test data
  jbref.py rows_at BS PLACE FILE             the non-zero rows of FILE: place of the block (FILE's first is PLACE), which row of it, words
  jbref.py image JOURNAL FS OUT              JOURNAL followed by FS
  jbref.py compare OUT JOURNAL FS REPLAYED PLACE   OUT after recovery beside debugfs's replay; PLACE is the journal's
                                             first block in the file system
  jbref.py own JOURNAL FS REPLAYED PLACE     this file's own recovery beside debugfs's replay, in the same way
  jbref.py random SEED BS MAXLEN HOMES OUT [wide]   a random journal (wrap, escapes, revokes, numbers through 2^32), of 64-bit
                                             block numbers where `wide` is said
  jbref.py big BS MAXLEN HOMES OUT           a journal full of committed transactions
  jbref.py lay IMAGE WORDS..                 writes a committed transaction for each WORDS, as 'w5=c03b r7', into the clean journal of IMAGE
  jbref.py put JOURNAL FS BLOCKS             writes JOURNAL over the blocks of FS that are listed in the file BLOCKS

HOMES is FIRST-PAST, the home blocks from FIRST on and before PAST, or a file that lists home blocks.
"""
import os
import re
import struct
import sys

from jbref_read import Refused, Super, dump, shown, replay, check_logdump, rows, rows_at, compare
from jbref_write import lay_groups, random_journal, big_journal


def read(name):
    return open(name, "rb").read()


def pool_of(text):
    """`A-B` or a file with numbers."""
    if re.fullmatch(r"\d+-\d+", text):
        low, high = map(int, text.split("-"))
        return range(low, high)
    return [int(x) for x in read(text).split()]


def main(words):
    what, rest = words[0], words[1:]
    try:
        if what == "dump":
            sys.stdout.write(dump(read(rest[0])))
        elif what == "homes":
            for home, content in sorted(replay(read(rest[0]))[1].items()):
                print(home, content[:16].hex())
        elif what == "counts":
            print(replay(read(rest[0]))[2])
        elif what == "logdump":
            return 0 if check_logdump(read(rest[0]), open(rest[1]).read()) else 1
        elif what == "rows":
            sys.stdout.write(rows(read(rest[0]), rest[1] if len(rest) > 1 else "JOURNAL"))
        elif what == "rows_at":
            sys.stdout.write(rows_at(int(rest[0]), int(rest[1]), read(rest[2])))
        elif what == "image":
            with open(rest[2], "wb") as out:
                out.write(read(rest[0]))
                out.write(read(rest[1]))
        elif what == "compare":
            return 0 if compare(*rest[:4], int(rest[4])) else 1
        elif what == "own":
            journal, fs = read(rest[0]), bytearray(read(rest[1]))
            sup, homes, _, expected = replay(journal)
            for home, content in homes.items():
                fs[home * sup.bs : (home + 1) * sup.bs] = content
            front = bytearray(journal)
            if sup.start:
                struct.pack_into(">II", front, 0x18, expected, 0)
            out = rest[2] + ".own"
            open(out, "wb").write(front + fs)
            same = compare(out, rest[0], rest[1], rest[2], int(rest[3]))
            os.remove(out)
            return 0 if same else 1
        elif what == "random":
            wide = rest[5:] == ["wide"]
            open(rest[4], "wb").write(random_journal(int(rest[0]), int(rest[1]), int(rest[2]), pool_of(rest[3]), wide))
        elif what == "big":
            open(rest[3], "wb").write(big_journal(int(rest[0]), int(rest[1]), pool_of(rest[2]), *map(int, rest[4:])))
        elif what == "lay":
            lay_groups(rest[0], rest[1:])
        elif what == "put":
            data, places = read(rest[0]), [int(x) for x in read(rest[2]).split()]
            bs = Super(data[:1024]).bs
            assert len(places) * bs == len(data), (len(places), len(data))
            with open(rest[1], "r+b") as fs:
                for i, place in enumerate(places):
                    fs.seek(place * bs)
                    fs.write(data[i * bs : (i + 1) * bs])
        else:
            sys.exit(__doc__)
    except Refused as refused:
        print(f"jb: {refused}", file=sys.stderr)
        return 1
    return 0


if __name__ == "__main__":
    sys.exit(main(sys.argv[1:]))
