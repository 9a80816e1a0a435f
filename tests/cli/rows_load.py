"""Rows of the table: loads, and closed descriptors."""
from images import BS, LAST_TAG, SAME_UUID, commit, data, descriptor, image, superblock
from rows import BASIC, BLOCK_5, CLEAN, CLEARED, FULL, HANDLE, MADE, OLD, ONE, OUT_OF_RANGE, RECOVERED, SMALL, WIDENED, WRITE, queue, row
from rows_places import over, parted, system

LOADED = image(superblock(2, 1), ONE)
row("load a q --hold", 0, "handles 1 changes 2 settled 1 groups 1 blocks 4\n", files={"a": image(SMALL), "q": queue(HANDLE)}, after={"a": LOADED})
row("load a q", 0, "handles 1 changes 2 settled 1 groups 1 blocks 4\n", files={"a": image(SMALL), "q": queue(HANDLE)}, after={"a": LOADED})
row("load a q --hold --stamp 7", 0, "handles 1 changes 2 settled 1 groups 1 blocks 4\n", files={"a": image(SMALL), "q": queue(HANDLE)},
    after={"a": image(superblock(2, 1), ONE[:3] + [commit(2, 7)])})
row("load a q --hold --checkpoint", 0, "handles 1 changes 2 settled 1 groups 1 blocks 4\n", files={"a": image(SMALL), "q": queue(HANDLE)},
    after={"a": image(superblock(2), ONE, written={5: BLOCK_5})})
TWO_HANDLES = [descriptor(2, [(n, (SAME_UUID if n else 0) | (LAST_TAG if n == 5 else 0)) for n in range(6)]), *[data()] * 6, commit(2),
               descriptor(3, [(n, (SAME_UUID if n > 6 else 0) | (LAST_TAG if n == 11 else 0)) for n in range(6, 12)]), *[data()] * 6, commit(3)]
row("load a q --hold --threads 1", 0, "handles 2 changes 12 settled 2 groups 2 blocks 16\n", after={"a": image(superblock(2, 1), TWO_HANDLES)},
    files={"a": image(SMALL), "q": queue("w0 w1 w2 w3 w4 w5/w6 w7 w8 w9 w10 w11", 3)})
row("load a q --hold --threads 64", 0, "handles 1 changes 2 settled 1 groups 1 blocks 4\n", files={"a": image(SMALL), "q": queue(HANDLE)}, after={"a": LOADED})
row("load a q --journal j --hold", 0, "handles 1 changes 2 settled 1 groups 1 blocks 4\n", files={**parted(image(SMALL)), "q": queue(HANDLE)},
    after={"j": LOADED[:33 * BS]})
row("load a q", 0, "handles 0 changes 0 settled 0 groups 0 blocks 0\n", files={"a": image(SMALL), "q": queue("")})
# the file system of a load, before its text is read; of a clean journal its block size alone, and of one that is not, as of a recovery
for front, home, err in ((SMALL, system(log=2), "FileSystem BlockSize 4096 a"), (SMALL, system(log=9, uuid=bytes(16)), "FileSystem BlockSize 0 a"), (SMALL, system(uuid=bytes(16), incompat=0), ""),
                         (superblock(2, 1), system(), "NeedsRecovery j"), (superblock(2, 1), system(incompat=0), "FileSystem Clean a"), (superblock(2, 1), system(uuid=bytes(16)), "FileSystem Uuid a")):
    if err:
        row("load a q --journal j --checkpoint", 1, err="jb: %s\n" % err, files={**parted(over(image(front, ONE), home)), "q": queue(HANDLE)})
    else:
        row("load a q --journal j --hold --checkpoint", 0, "handles 1 changes 2 settled 1 groups 1 blocks 4\n", files={**parted(over(image(front), home)), "q": queue(HANDLE)},
            after=parted(over(image(superblock(2), ONE, written={5: BLOCK_5}), home)))
row("load a q --journal j", 1, err="jb: FileSystem BlockSize 4096 a\n", files=parted(over(image(SMALL), system(log=2))))
row("load a q", 0, "handles 1 changes 2 settled 1 groups 1 blocks 4\n", files={"a": over(image(SMALL), system(log=2)), "q": queue(HANDLE)},
    after={"a": over(LOADED, system(log=2))})
for threads in (0, 65):
    row("load a q --threads %d" % threads, 2, err="jb: bad option\n", beside="--threads")
row("load a q", 1, err="jb: BlockSize\n", files={"a": image(SMALL), "q": queue(HANDLE, first="bs 2048")})
row("load a q", 1, err="jb: NumbersSpent\n", files={"a": image(CLEAN), "q": queue(HANDLE)})
NOTHING = "handles 0 changes 0 settled 0 groups 0 blocks 0\n"
row("load a q", 1, NOTHING, "jb: handle 0: TooManyCredits 6\n", files={"a": image(SMALL), "q": queue("w0 w1 w2 w3 w4 w5 w6")})
row("load a q", 1, NOTHING, "jb: handle 0: OutOfRange 16\n", files={"a": image(SMALL), "q": queue("w16")}, beside="16")
row("load a q --hold", 1, "handles 1 changes 2 settled 1 groups 1 blocks 4\n", "jb: handle 1: OutOfRange 16\n",
    files={"a": image(SMALL), "q": queue(HANDLE + "/w16/w1")}, after={"a": LOADED}, beside="16")
row("load a q --hold", 1, "handles 5 changes 30 settled 5 groups 1 blocks 8\n", "jb: handle 5: Full 30\n",
    files={"a": image(SMALL), "q": queue("/".join(["w0 w1 w2 w3 w4 w5"] * 6))},
    after={"a": image(superblock(2, 1), TWO_HANDLES[:8])})
row("load a q --hold", 1, "handles 1 changes 2 settled 0 groups 0 blocks 0\n", "jb: commit Aborted\n", files={"a": image(SMALL), "q": queue(HANDLE)},
    how="trap '' XFSZ; ulimit -f 1", after={"a": image(superblock(2, 1))}, beside=WRITE % 1)
row("load a q", 1, err="jb: WriteFault\n", files={"a": image(SMALL), "q": queue(HANDLE)}, to="full", after={"a": LOADED})

# ---- closed descriptors ------------------------------------------------------------------------------------------------------

# an image that is opened as descriptor 1 or 2 takes what the program says
for closed in ("exec >&-", "exec <&- >&-", "exec >&- 2>&-", "exec <&- >&- 2>&-"):
    said = "" if "2>" in closed else "jb: WriteFault\n"
    row(BASIC, 1, err=said, how=closed, after={"a": MADE})
    row("recover a", 1, err=said, files={"a": FULL}, how=closed, after={"a": RECOVERED})
    row("renumber a", 1, err=said, files={"a": image(CLEAN, OLD)}, how=closed, after={"a": image(superblock(0), CLEARED)})
    row("widen a", 1, err=said, files={"a": image(SMALL, OLD)}, how=closed, after={"a": WIDENED})
    row("load a q --hold", 1, err=said, files={"a": image(SMALL), "q": queue(HANDLE)}, how=closed, after={"a": LOADED})
    row("dump a", 1, err=said, files={"a": FULL}, how=closed)
row("recover a", 1, files={"a": image(superblock(2, 1), OUT_OF_RANGE)}, how="exec 2>&-")
row("cost -", 2, err="jb: queue line 1: BlockSizeLine\n", how="exec <&-")
