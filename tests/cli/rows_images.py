"""Rows over images and journals: one image after the other, each run twice where a second one finds nothing to do."""
import re

from images import BS, ESCAPE, LAST_TAG, commit, data, descriptor, group, image, padded, revoke, superblock
from rows import BASIC, BLOCK_5, DUMP, DUMPED, FOLDER, FOUR, HANDLE, LARGE, MADE, MISSING, ONE, THERE, queue, row
from rows_load import NOTHING
from rows_places import SPLIT, dated, dated_image, over, parted, system, within, xxd

LAST = 2**32 - 1
# a journal whose log has a transaction, and its image without home blocks
USED = image(superblock(2, 1), ONE)
JOURNAL = USED[:33 * BS]
REFUSED_SUPERS = [(USED[:0], "ShortBlock"), (USED[:1023], "ShortBlock"), (USED[:BS], "Geometry"), (USED[:20 * BS], "Geometry"), (JOURNAL[:-1], "Geometry"),
                  (image(superblock(2, 1, incompat=16), ONE), "Feature 2 16"), (image(superblock(2, 1, incompat=0x13), ONE), "Feature 2 16")]


def bytes_of(text):
    """What a run writes that is no text."""
    return text.decode(errors="surrogateescape")


def kib(blocks, size=2):
    """Blocks of more than one KiB that begin as these do."""
    return [padded(block, size * BS) for block in blocks]


# ---- new images --------------------------------------------------------------------------------------------------------------

NAMELESS = bytes(16)
for words, front, limit in [("--max 0", {}, 8), ("--max 6", {"most": 6}, 6), ("--max=6 --wide", {"most": 6, "incompat": 3}, 6), ("--max 1", {"most": 1}, 3),
                            ("--max 4294967295", {"most": LAST}, 32)]:
    row(BASIC + " " + words, 0, "formatted limit %d\n" % limit, after={"a": image(superblock(uuid=NAMELESS, **front))})
row("format a --bs 1024 --journal 0 --homes 16", 1, err="jb: Geometry\n")
for words, bad in [("--bs 1025 --journal 33 --homes 16", "--bs"), ("--bs 8192 --journal 33 --homes 16", "--bs"),
                   ("--bs 1024 --journal 0 --homes 9007199254740992", "--homes"), ("--bs 4096 --journal 4294967295 --homes 18446744073709551615", "--homes"),
                   ("--bs 1024 --journal 33 --homes 16 --uuid ''", "--uuid"),
                   ("--bs 1024 --journal 33 --homes 16 --uuid 000102030405060708090a0b0c0d0e0g", "--uuid"),
                   ("--bs 1024 --journal 33 --homes 16 --uuid 000102030405060708090a0b0c0d0e", "--uuid"),
                   ("--bs 1024 --journal 33 --homes 16 --uuid 000102030405060708090a0b0c0d0e0f10", "--uuid"),
                   # of several bad options the first in the order of the help
                   ("--bs 512 --journal 4294967296 --homes 0 --max 4294967296 --uuid ''", "--bs"),
                   ("--bs 1024 --journal 4294967296 --homes 0 --max 4294967296 --uuid ''", "--journal"),
                   ("--bs 1024 --journal 4294967295 --homes 9007199254740992 --max 4294967296 --uuid ''", "--max"),
                   ("--bs 1024 --journal 33 --homes 9007199254740992 --max 0 --uuid 00", "--uuid"),
                   ("--bs 1024 --journal 33 --homes 9007199254740992 --max 0 --uuid 000102030405060708090a0b0c0d0e0f", "--homes")]:
    for terminal in "", "err":
        row("format a " + words, 2, err="jb: bad option\n", beside=bad, terminal=terminal)
for name, beside in (".", THERE), ("''", MISSING):
    row(BASIC.replace(" a ", " %s " % name), 2, err="jb: cannot make %s\n" % name.strip("'"), beside=beside)
TWO_KIB = image(superblock(maxlen=40, said=2 * BS, size=2 * BS), homes=1, maxlen=40, size=2 * BS)
row("format a --bs 2048 --journal 40 --homes 1 --uuid 000102030405060708090A0b0c0d0e0f", 0, "formatted limit 9\n", after={"a": TWO_KIB})
row("recover a", 0, "transactions 0 copies 0 revoked 0 next 2\n", files={"a": TWO_KIB})
row("recover a", 0, "transactions 0 copies 0 revoked 0 next 2\n", files={"a": MADE})
# 2^63 - 1024 bytes, which a shell does not let a file grow to
row("format a --bs 1024 --journal 33 --homes 9007199254740958 --wide", 2, err="jb: cannot make a\n", how="trap '' XFSZ; ulimit -f 1000000",
    beside=LARGE)

# ---- recoveries --------------------------------------------------------------------------------------------------------------

# a copy and a revoke of one home, in one transaction
AT_ONCE = [revoke(2, [7]), descriptor(2, [(7, ESCAPE | LAST_TAG)]), *ONE[2:]]
SEVEN = image(superblock(2, 1), AT_ONCE)
for words in "", " --dry-run", " --dry-run --list":
    row("recover a" + words, 0, "transactions 1 copies 0 revoked 1 next 4\n", files={"a": SEVEN}, after={} if words else {"a": image(superblock(3), AT_ONCE)})
row("recover a", 0, "transactions 0 copies 0 revoked 0 next 4\n", files={"a": image(superblock(3), AT_ONCE)})
# of a tag of 12 bytes the high half of the home is what is the first word of the UUID otherwise
for content, err in [*((content, "Super " + name) for content, name in REFUSED_SUPERS),
                     (image(superblock(2, 1, incompat=3), ONE), "HomeOutOfRange 283686884868101 2"),
                     (JOURNAL, "HomeOutOfRange 5 2"), (image(superblock(2, 1), [revoke(2, [7], 1025), *ONE[1:]]), "BadRevoke 1"),
                     (superblock(2, said=4 * BS), "Super ShortBlock")]:
    for words in "", " --dry-run":
        row("recover a" + words, 1, err="jb: %s\n" % err, files={"a": content}, beside="0" if content == JOURNAL else "16" if "Home" in err else "")
row("recover a --extents (0-32):16-48", 1, err="jb: Extents Home 20\n",
    files=within(image(superblock(2, 1), [ONE[0], descriptor(2, [(20, ESCAPE | LAST_TAG)]), *ONE[2:]]), [(16, 33)], 49))
for words, name, beside in (("recover ''", "", MISSING), ("recover /dev/zero", "/dev/zero", ""), ("recover .", ".", ""), ("renumber .", ".", ""),
                            ("widen .", ".", "")):
    row(words, 2, err="jb: cannot read %s\n" % name, beside=beside)

# ---- renumber and widen ------------------------------------------------------------------------------------------------------

BARE = [data(), data(), ONE[2], data()]
for number, incompat, length in [(2, 1, 49 * BS), (LAST, 1, 49 * BS), (2, 0, 49 * BS), (2, 3, 49 * BS), (2, 1, 33 * BS), (2, 1, 49 * BS - 1)]:
    clean, bare = image(superblock(number, incompat=incompat), ONE)[:length], image(superblock(0, incompat=incompat), BARE)[:length]
    wide = image(superblock(number, incompat=incompat | 2), ONE)[:length]
    row("renumber a", 0, "renumbered blocks 3 next 1\n", files={"a": clean}, after={"a": bare})
    row("renumber a", 0, "renumbered blocks 0 next 1\n", files={"a": bare})
    row("widen a", 0, "%s limit 8\n" % ("already wide" if incompat == 3 else "widened"), files={"a": clean}, after={"a": wide})
    row("widen a", 0, "already wide limit 8\n", files={"a": wide})
for content, err in [(image(superblock(2, 1, incompat=3), ONE), "NeedsRecovery"), (USED, "NeedsRecovery"),
                     (image(superblock(2, incompat=16), ONE), "Super Feature 2 16"),
                     (image(superblock(2), ONE)[:33 * BS - 1], "Super Geometry"), (USED[:20 * BS], "Super Geometry"),
                     (superblock(2)[:1023], "Super ShortBlock"), (b"", "Super ShortBlock")]:
    for words in "renumber a", "widen a":
        row(words, 1, err="jb: %s\n" % err, files={"a": content})

# ---- dumps -------------------------------------------------------------------------------------------------------------------

# at the places 32, 1, 2 and 3
AROUND = DUMPED.replace("start=1 ", "start=32 ")
for place, was in (32, "\n1 revoke"), (1, "\n2 desc"), (2, "\n3 copy"), (3, "\n4 comm"):
    AROUND = AROUND.replace(was, "\n%d%s" % (place, was[2:]))
# with block numbers of 64 bits, and a copy of home 2^32 + 5
WIDE_LOG = [revoke(2, [7], wide=True), descriptor(2, [(2**32 + 5, ESCAPE | LAST_TAG)], wide=True), *ONE[2:]]
WIDE = DUMPED.replace("incompat=00000001", "incompat=00000003").replace("count=20", "count=24").replace("home=5 ", "home=4294967301 ")
for content, out, err in [(JOURNAL, DUMPED, ""), (image(superblock(2, 32), [*ONE[1:], *[data()] * 28, ONE[0]], homes=0), AROUND, ""),
                          (image(superblock(2, incompat=0), ONE, homes=0), DUMP % (2, 0, 0) + "clean next=3\n", ""),
                          (image(superblock(2, 1, incompat=3), WIDE_LOG, homes=0), WIDE, ""),
                          *((content, "", "Super " + name) for content, name in REFUSED_SUPERS),
                          (image(superblock(2, 1), [revoke(2, [7], 1025), *ONE[1:]], homes=0), "", "BadRevoke 1"), (JOURNAL[:5 * BS], "", "Super Geometry")]:
    err = err and "jb: %s\n" % err
    row("dump a", 1 if err else 0, out, err, files={"a": content})
    row("dump -", 1 if err else 0, out, err, stdin=content)
LINES = DUMPED.splitlines(True)
for words, numbers in [("a --home 5", [3, 4]), ("--home=7 a --last 1", [2]), ("--last 0 a", [0, 1, 6])]:
    row("dump " + words, 0, "".join(LINES[n] for n in numbers), files={"a": JOURNAL})
row("dump .", 1, err="jb: ReadFault\n", beside=FOLDER)

# ---- cat, and journals in a file of their own --------------------------------------------------------------------------------

FIVE = bytes_of(BLOCK_5)
TWO_BLOCKS = BLOCK_5 + data()
FAR = 2**64 - 1
for words, files in ("cat a", {"a": USED}), ("cat --journal j a", parted(USED)):
    of = " a" * ("j" in files)
    row(words + " 5", 0, FIVE, files=files)
    row(words + " 6", 0, bytes_of(data()), files=files)
    row(words + " 5 -n 2", 0, bytes_of(TWO_BLOCKS), files=files)
    row(words + " 5 -n 0", 0, files=files)
    row(words + " --hex -n2 5", 0, xxd(TWO_BLOCKS), files=files)
    row(words + " 16 -n 0", 1, err="jb: NoHome 16%s\n" % of, files=files, beside="16")
    row(words + " 15 -n 3", 1, bytes_of(data()), "jb: NoHome 16%s\n" % of, files=files, beside="16")
    row(words + " %d -n 2" % FAR, 1, err="jb: NoHome %d%s\n" % (FAR, of), files=files, beside="16")
row("cat ./a 5 --journal a", 2, err="jb: same file ./a\n", files={"a": JOURNAL})

# ---- file systems, and copies of a journal that are older than theirs ---------------------------------------------------------

# with blocks of 2 KiB the file system's superblock is in the midst of home block 0
OLD_TWO_KIB = {"j": image(superblock(2, 1, said=2 * BS, size=2 * BS), kib(dated(7)), homes=0, size=2 * BS),
               "a": data() + system(log=1, mounted=8) + bytes(14 * BS)}
row("recover a --journal j", 1, err="jb: FileSystem Newer a\n", files=OLD_TWO_KIB)
for front in superblock(3, 1), superblock(3):
    row("recover a --journal j", 0, "transactions 0 copies 0 revoked 0 next 4\n", files=parted(dated_image(front, (7,), 8)),
        after=parted(dated_image(superblock(3), (7,), 8)))
for words in "recover a --journal j", "load a q --journal j --hold --checkpoint":
    files = {**parted(over(image(superblock(2, 1), dated(7)), system(log=2, mounted=8))), "q": queue("w3")}
    row(words, 1, err="jb: FileSystem BlockSize 4096 a\n", files=files)
    row(words, 1, err="jb: FileSystem Newer a\n", files={**parted(dated_image(superblock(2, 1), (7,), 8)), "q": queue("w3")})
row("load a q --journal j --hold --checkpoint", 1, err="jb: FileSystem BlockSize 4096 a\n",
    files={**parted(over(image(superblock(3), dated(7)), system(log=2, mounted=8))), "q": queue("w3")})
ONE_BLOCK = "handles 1 changes 1 settled 1 groups 1 blocks 3\n"
# a clean copy beside a file system that needs recovery is not its journal as it is now; beside one that needs none it may be
row("load a q --journal j --hold --checkpoint", 1, err="jb: FileSystem Unrecovered a\n", files={**parted(dated_image(superblock(3), (7,), 8)), "q": queue("w3")})
row("load a q --journal j --hold --checkpoint", 0, ONE_BLOCK, files={**parted(over(image(superblock(3), dated(7)), system(incompat=0, mounted=8))), "q": queue("w3")},
    after=parted(over(image(superblock(4), [*group(4, {3: data()}), commit(2, 7)]), system(incompat=0, mounted=8))))

# ---- loads that are refused --------------------------------------------------------------------------------------------------

READY, NO_TEXT = image(superblock(2), ONE), b"bs 1024\nlimit 2\n"
OTHER_SIZE, BAD_WORD = queue("w1", 7, "bs 2048"), queue("w1 w", 7, "bs 2048")
row("load a q --threads 4294967297", 2, err="jb: bad option\n", files={"q": b""}, beside="--threads")
# the image comes before the text, and the text before the block size, and that before the journal
row("load a q", 2, err="jb: cannot read a\n", files={"q": NO_TEXT}, beside=MISSING)
row("load a q", 2, err="jb: in use a\n", files={"a": USED}, locked="a")
for content, text, status, err in [
        (image(superblock(2, incompat=16), ONE), None, 1, "Super Feature 2 16"), (image(superblock(2, incompat=16), ONE), NO_TEXT, 1, "Super Feature 2 16"),
        (READY[:1023], NO_TEXT, 1, "Super ShortBlock"), (USED, None, 2, "cannot read q"), (USED, b"", 2, "queue line 1: BlockSizeLine"),
        (USED, NO_TEXT, 2, "queue line 2: LimitLine"), (USED, BAD_WORD, 2, "queue line 3: OpWord"), (USED, OTHER_SIZE, 1, "BlockSize"),
        (READY[:20 * BS], OTHER_SIZE, 1, "BlockSize"), (USED, queue(HANDLE), 1, "NeedsRecovery"), (READY[:BS], queue(HANDLE), 1, "Super Geometry"),
        (READY[:20 * BS], queue(HANDLE), 1, "Super Geometry"), (TWO_KIB, queue(HANDLE), 1, "BlockSize")]:
    row("load a q", status, err="jb: %s\n" % err, files={"a": content, **({} if text is None else {"q": text})}, beside=MISSING if "cannot" in err else "")
row("load a q --hold", 1, err="jb: NeedsRecovery\n", files={"a": image(superblock(LAST, 1), ONE), "q": queue(HANDLE)})
row("load a q --threads 64", 1, err="jb: NumbersSpent\n", files={"a": image(superblock(LAST), ONE), "q": queue(HANDLE)})
row("load a q --journal j", 2, err="jb: cannot read q\n", files=parted(READY), beside=MISSING)
# two groups, and a number for one of them
row("load a q --hold", 1, "handles 2 changes 12 settled 0 groups 0 blocks 0\n", "jb: commit Refused\n",
    files={"a": image(superblock(LAST - 1), ONE), "q": queue("w0 w1 w2 w3 w4 w5/w6 w7 w8 w9 w10 w11", 3)})
for words, err, beside in [("- q", "cannot read -", MISSING), ("a -", "cannot read -", MISSING), (". q", "cannot read .", ""), ("a .", "cannot read .", FOLDER),
                           ("a /dev/zero", "too long /dev/zero", ""), ("/dev/null q", "cannot read /dev/null", ""),
                           ("/dev/null missing", "cannot read /dev/null", "")]:
    row("load " + words, 2, err="jb: %s\n" % err, files={"a": READY, "q": queue(HANDLE)}, stdin=queue(HANDLE), beside=beside)

# ---- loads -------------------------------------------------------------------------------------------------------------------

TEN = "handles 1 changes 2 settled 1 groups 1 blocks 4\n"
FORMATTED = image(superblock())
SAME = "w1=01 w2=01/w1=02 w2=02/w1=03 w2=03/w1=04 w2=04"
SAME_END = "handles 4 changes 8 settled 4 groups 1 blocks 4\n"


def same(handle, front):
    """The image after a load of SAME in one group, of which this handle is the last."""
    home = {1: data(bytes([handle])), 2: data(bytes([handle]))}
    return image(front, group(2, home), written={} if front == superblock(2, 1) else home)


def same_of_any(front):
    return lambda found: found in [same(handle, front) for handle in (1, 2, 3, 4)]


def load(words, text, out, after, recovered, front=FORMATTED, err="", beside=""):
    """A load, and the recovery of what it leaves: its image, and the image after it, where they are known."""
    row("load a q " + words, 1 if err else 0, out, err, files={"a": front, "q": text}, after={"a": after}, beside=beside)
    if not callable(after):
        copies, clean = recovered
        row("recover a", 0, copies, files={"a": after}, after={"a": clean})


WIDE_TEN = [revoke(2, [7], wide=True), descriptor(2, [(5, ESCAPE | LAST_TAG)], wide=True), *ONE[2:]]
COPY = "transactions 1 copies 1 revoked 0 next 4\n"
load("--threads 64", queue(HANDLE, 7), TEN, image(superblock(2, 1, incompat=3), WIDE_TEN),
     (COPY, image(superblock(3, incompat=3), WIDE_TEN, written={5: BLOCK_5})), image(superblock(incompat=3)))
HOME = image(superblock(2), ONE, written={5: BLOCK_5})
load("--checkpoint", queue(HANDLE, 7), TEN, HOME, ("transactions 0 copies 0 revoked 0 next 3\n", HOME))
# least groups: the first handle alone, and the others together
CUT = [*group(2, {1: data(), 2: data()}), *group(3, {3: data(), 4: data(), 5: data()})]
load("--hold", queue(FOUR, 6), "handles 4 changes 9 settled 4 groups 2 blocks 9\n", image(superblock(2, 1, most=6), CUT),
     ("transactions 2 copies 5 revoked 0 next 5\n", image(superblock(4, most=6), CUT)), image(superblock(most=6)))
FOURTH = {1: data(b"\4"), 2: data(b"\4")}
load("--hold", queue(SAME, 3), SAME_END, same(4, superblock(2, 1)),
     ("transactions 1 copies 2 revoked 0 next 4\n", image(superblock(3), group(2, FOURTH), written=FOURTH)))
load("--hold --threads 2", queue(SAME, 3), SAME_END, same_of_any(superblock(2, 1)), None)
load("--hold --threads 64 --checkpoint", queue(SAME, 3), SAME_END, same_of_any(superblock(2)), None)
load("--hold", queue("/", 3), "handles 2 changes 0 settled 2 groups 1 blocks 1\n", image(superblock(2, 1), [commit(2)]),
     ("transactions 1 copies 0 revoked 0 next 4\n", image(superblock(3), [commit(2)])))
load("--hold", queue("", 3), NOTHING, FORMATTED, ("transactions 0 copies 0 revoked 0 next 2\n", FORMATTED))
# five groups of 8 blocks: the log has room for four, so that the first of them goes home
LOW, HIGH = range(6), range(6, 12)


def full(number, homes, first=b""):
    return group(number, {home: data(first if home == homes[0] else b"") for home in homes})


ROUND = [*full(6, LOW, b"\3"), *full(3, HIGH), *full(4, LOW, b"\2"), *full(5, HIGH)]
load("--hold", queue("w0=01 w1 w2 w3 w4 w5/w6 w7 w8 w9 w10 w11/w0=02 w1 w2 w3 w4 w5/w6 w7 w8 w9 w10 w11/w0=03 w1 w2 w3 w4 w5", 3),
     "handles 5 changes 30 settled 5 groups 5 blocks 40\n", image(superblock(3, 9), ROUND, written={0: data(b"\1")}),
     ("transactions 4 copies 24 revoked 0 next 8\n", image(superblock(7), ROUND, written={0: data(b"\3")})))
# a handle that is refused, and others
FIRST = {1: data(b"\1")}
for words, handles, refused, said in [("--hold", "w1=01/w16 w17/w1=02", "1: OutOfRange 16", "16"),
                                      ("--hold --threads 2", "r18446744073709551615/w1=01/w1=02/w17", "0: OutOfRange 18446744073709551615", "16")]:
    load(words, queue(handles, 3), ONE_BLOCK, image(superblock(2, 1), group(2, FIRST)),
         (COPY, image(superblock(3), group(2, FIRST), written=FIRST)),
         err="jb: handle %s\n" % refused, beside=said)
STAMPED = image(superblock(2, 1), [*ONE[:3], commit(2, 2**64 - 1)])
row("load a q --stamp 18446744073709551615", 0, TEN, files={"a": FORMATTED, "q": queue(HANDLE, 7)}, after={"a": STAMPED})
row("dump a", 0, DUMPED.replace(" sec=0", " sec=18446744073709551615"), files={"a": STAMPED})
# home blocks and a journal in files of their own, which was recovered before
AGAIN = [*group(4, {3: data()}), ONE[3]]
row("load a q --journal j --hold", 0, ONE_BLOCK, files={**SPLIT, "q": queue("w3")}, after={"j": image(superblock(4, 1), AGAIN)[:33 * BS]})
row("recover a --journal j", 0, "transactions 1 copies 1 revoked 0 next 6\n", files={**SPLIT, "j": image(superblock(4, 1), AGAIN)[:33 * BS]},
    after={"j": image(superblock(5), AGAIN)[:33 * BS]})


def settled_together(said):
    """Whether a load of SAME says so, whose groups are as they come."""
    return re.fullmatch(rb"handles 4 changes 8 settled 4 groups [1-4] blocks \d+\n", said) is not None


def of_one_handle(last):
    """Whether homes 1 and 2 are of one handle of SAME, which is the last one where that is known."""
    return lambda found: found[34 * BS:35 * BS] == found[35 * BS:36 * BS] and found[34 * BS] in ([last] if last else [1, 2, 3, 4])


# handles that run while others are committed are all committed, and found by the recovery after that
for words, last in ("", 4), ("--checkpoint", 4), ("--threads 2", 0), ("--threads 3 --checkpoint", 0), ("--threads 64", 0):
    row("recover a", 0, re.compile(r"transactions \d copies \d revoked 0 next \d\n").fullmatch, files={"a": FORMATTED, "q": queue(SAME, 3)},
        how='"$1" load a q %s > said 2>&1 || exit 9' % words, after={"said": settled_together, "a": of_one_handle(last)})
